//! Hopeless steps: every field is judged by its last present value since the
//! last mark.

use super::{holds, trend, value, Config, Setting, Trend, Trends};
use crate::formula::{Bind, Expression, Operator, Step, Test, LISTS, VARIABLES};

impl Setting<'_> {
    /// Is some step out of the configuration not hopeless after event n?
    pub fn hopeful(&self, config: &Config, n: usize) -> bool {
        let steps = &self.state(config).steps;
        steps.iter().any(|step| !self.hopeless(config, step, n))
    }

    /// Is the step hopeless after event n? Every field is judged by its last
    /// present value in the event's stretch; one that has not arrived there
    /// makes no test hopeless.
    pub fn hopeless(&self, config: &Config, step: &Step, n: usize) -> bool {
        let too_late = |test: &Test| {
            let upper = matches!(test.operator, Operator::Less | Operator::AtMost);
            let fails = |latest: u32| !holds(test, latest, config);
            upper
                && self.log.rising[test.field]
                && self.log.latest(test.field, n).is_some_and(fails)
        };
        step.tests.iter().any(too_late) || self.guard_hopeless(config, step, n)
    }

    /// Is the guard falling and already 0, naming nothing that would take the
    /// value of a field that has not arrived?
    fn guard_hopeless(&self, config: &Config, step: &Step, n: usize) -> bool {
        let Some(guard) = &step.guard else {
            return false;
        };
        if self.names_unknown(config, step, n) {
            return false;
        }
        let mut after = config.clone();
        for variable in 0..VARIABLES {
            if let Some(bind) = giver(config, step, variable) {
                after.held[variable] = self.log.latest(bind.field, n);
            }
        }
        for gather in &step.gathers {
            // A length counts the value all the same; no sum is read of one
            // that is not known.
            let latest = self.log.latest(gather.field, n).unwrap_or(0);
            after.lists.add(gather.list, latest);
        }
        after.counts[usize::from(config.state)] += 1;
        value(guard, &after) == 0 && trend(guard, &self.trends(config, step)).falling
    }

    /// Does the guard name, anywhere, a variable or a sum that would take the
    /// value of a field without a present value in the stretch up to event n?
    pub fn names_unknown(&self, config: &Config, step: &Step, n: usize) -> bool {
        let unknown = |field: usize| self.log.latest(field, n).is_none();
        let variable = |variable: usize| {
            let given = giver(config, step, variable);
            given.is_some_and(|bind| unknown(bind.field))
        };
        let sum = |list: usize| {
            let mut into = step.gathers.iter().filter(|gather| gather.list == list);
            into.any(|gather| unknown(gather.field))
        };
        let mut named = false;
        if let Some(guard) = &step.guard {
            guard.visit(&mut |part| match part {
                Expression::Var { variable: v, .. } => named |= variable(*v),
                Expression::Sum(list) => named |= sum(*list),
                _ => {}
            });
        }
        named
    }

    /// The trends of what a step's guard names while the configuration waits.
    pub fn trends(&self, config: &Config, step: &Step) -> Trends {
        // What takes a field's value next rises if the field does.
        let fresh = |field: usize| match self.log.rising[field] {
            true => Trend::RISING,
            false => Trend::NEITHER,
        };
        let variable = |variable: usize| match giver(config, step, variable) {
            Some(bind) => fresh(bind.field),
            None if config.held[variable].is_some() => Trend::BOTH,
            None => Trend::NEITHER,
        };
        let mut trends = Trends {
            variables: std::array::from_fn(variable),
            sums: [Trend::BOTH; LISTS],
            different: [Trend::BOTH; LISTS],
        };
        for gather in &step.gathers {
            trends.sums[gather.list] = fresh(gather.field);
            trends.different[gather.list] = Trend::NEITHER;
        }
        trends
    }
}

/// The BIND that would give a variable its value: none where it is held, else
/// the step's first of it.
pub fn giver<'a>(config: &Config, step: &'a Step, variable: usize) -> Option<&'a Bind> {
    let mut binds = step.binds.iter();
    match config.held[variable] {
        Some(_) => None,
        None => binds.find(|bind| bind.variable == variable),
    }
}
