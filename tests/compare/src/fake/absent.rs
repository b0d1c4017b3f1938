//! Absent fields as the stand-in sees them in firing and in judging a step
//! hopeless, with the faults that a product may have there.

use super::fault::{has, Fault};
use reference::formula::{Expression, Operator, Step};
use reference::log::{Event, Log};
use reference::machine::{giver, value, Config, Setting};
use std::borrow::Cow;

/// The log by which steps fire.
pub fn seen(log: &Log) -> Log {
    let mut seen = log.clone();
    for n in 0..log.events() {
        for field in 0..log.rising.len() {
            let neighbour = (field + 1) % log.rising.len();
            let value = &mut seen.recorded[n][field];
            if has(Fault::AbsentAsZero) {
                *value = value.or(Some(0));
            }
            if has(Fault::AbsentAsLatest) {
                *value = log.latest(field, n);
            }
            if has(Fault::PresenceOfNeighbour) {
                let present = log.event(n)[neighbour].is_some();
                *value = present.then_some(value.unwrap_or(0));
            }
        }
    }
    seen
}

/// The step without what a fault does not look at on this event.
pub fn read<'a>(step: &'a Step, event: &[Option<u32>]) -> Cow<'a, Step> {
    let passes = [
        Fault::TestOfAbsentHolds,
        Fault::UnequalOfAbsentHolds,
        Fault::BindOfAbsentPasses,
        Fault::GatherOfAbsentPasses,
    ];
    if !passes.into_iter().any(has) {
        return Cow::Borrowed(step);
    }
    let mut rest = step.clone();
    rest.tests.retain(|test| {
        let unequal = has(Fault::UnequalOfAbsentHolds) && test.operator == Operator::Unequal;
        event[test.field].is_some() || !(unequal || has(Fault::TestOfAbsentHolds))
    });
    if has(Fault::BindOfAbsentPasses) {
        rest.binds.retain(|bind| event[bind.field].is_some());
    }
    if has(Fault::GatherOfAbsentPasses) {
        rest.gathers.retain(|gather| event[gather.field].is_some());
    }
    Cow::Owned(rest)
}

/// The log by which steps are judged after event n of a search.
pub fn judged(log: &Log, start: usize, n: usize) -> Cow<'_, Log> {
    let from = match () {
        _ if has(Fault::LatestForgotten) => n,
        _ if has(Fault::LatestFromStart) => start,
        _ => 0,
    };
    if has(Fault::LatestAcrossMark) {
        return Cow::Owned(log.unmarked());
    }
    if from == 0 && !has(Fault::NeverArrivedAsZero) {
        return Cow::Borrowed(log);
    }
    let mut judged = log.clone();
    let blank = |event: &mut Event| event.fill(None);
    judged.recorded[..from].iter_mut().for_each(blank);
    if has(Fault::NeverArrivedAsZero) {
        let zero = |value: &mut Option<u32>| *value = value.or(Some(0));
        let first = log.around(n).start;
        judged.recorded[first].iter_mut().for_each(zero);
    }
    Cow::Owned(judged)
}

/// Does a test of a field that never arrived count as too late?
pub fn too_late(setting: &Setting, step: &Step, n: usize) -> bool {
    let mut upper = step.tests.iter().filter(|test| {
        let upper = matches!(test.operator, Operator::Less | Operator::AtMost);
        upper && setting.log.rising[test.field]
    });
    let unknown = upper.any(|test| setting.log.latest(test.field, n).is_none());
    unknown && has(Fault::NeverArrivedTooLate)
}

/// The value that a variable which is not held would take.
pub fn taken(
    setting: &Setting,
    config: &Config,
    step: &Step,
    variable: usize,
    n: usize,
) -> Option<u32> {
    let first = giver(config, step, variable)?;
    let latest = setting.log.latest(first.field, n);
    let mut others = step.binds.iter().filter(|bind| bind.variable == variable);
    match has(Fault::LaterBindTaken) {
        true => others.find_map(|bind| setting.log.latest(bind.field, n)),
        false => latest,
    }
}

/// What a guard is looked at for.
pub struct Named<'a> {
    pub setting: &'a Setting<'a>,
    pub config: &'a Config,
    pub step: &'a Step,
    pub n: usize,
    /// The configuration that the guard is evaluated in.
    pub after: &'a Config,
}

impl Named<'_> {
    fn unknown(&self, field: usize) -> bool {
        self.setting.log.latest(field, self.n).is_none()
    }

    /// Does the guard name what would take the value of a field that never
    /// arrived?
    pub fn lets_off(&self, guard: &Expression) -> bool {
        match () {
            _ if has(Fault::GuardNeverLetOff) => false,
            _ if has(Fault::UnnamedLetsOff) => {
                let binds = self.step.binds.iter().any(|bind| self.unknown(bind.field));
                let mut gathers = self.step.gathers.iter();
                binds || gathers.any(|gather| self.unknown(gather.field))
            }
            _ => self.part(guard),
        }
    }

    fn part(&self, part: &Expression) -> bool {
        match part {
            Expression::Var { variable, .. } => self.variable(*variable),
            Expression::Sum(list) => self.list(*list, has(Fault::AnySumLetsOff)),
            Expression::Length(list) => has(Fault::LengthLetsOff) && self.list(*list, false),
            Expression::Not(inner) => self.part(inner),
            Expression::Two(_, first, second) => self.part(first) || self.part(second),
            Expression::If(condition, first, second) => {
                let taken = value(condition, self.after) != 0;
                let both = !has(Fault::OnlyTakenBranch);
                let branches =
                    (taken || both) && self.part(first) || (!taken || both) && self.part(second);
                self.part(condition) || branches
            }
            _ => false,
        }
    }

    fn variable(&self, variable: usize) -> bool {
        let mut binds = self
            .step
            .binds
            .iter()
            .filter(|bind| bind.variable == variable);
        let held = self.config.held[variable].is_some();
        if has(Fault::LaterBindTaken) && !held {
            return binds.clone().count() > 0 && binds.all(|bind| self.unknown(bind.field));
        }
        let any = has(Fault::AnyBindLetsOff) || (has(Fault::HeldLetsOff) && held);
        match any {
            true => binds.any(|bind| self.unknown(bind.field)),
            false => {
                giver(self.config, self.step, variable).is_some_and(|bind| self.unknown(bind.field))
            }
        }
    }

    fn list(&self, list: usize, any: bool) -> bool {
        let mut gathers = self.step.gathers.iter();
        gathers.any(|gather| (any || gather.list == list) && self.unknown(gather.field))
    }
}
