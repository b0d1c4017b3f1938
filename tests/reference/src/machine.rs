//! Configurations, the value and the trend of an expression, firing.

mod hopeless;

pub use hopeless::giver;

use crate::formula::{Expression, Formula, Kind, Pair, Right, State, Step, Test};
use crate::formula::{LISTS, MOST_STATES, VARIABLES};
use crate::log::Log;
use std::collections::BTreeSet;
use std::rc::Rc;

pub type Values = [Option<u32>; VARIABLES];
pub type Counts = [u8; MOST_STATES];

/// The values gathered into each list, in their order; `None` until something
/// is gathered. They are shared, since most steps gather nothing.
#[derive(Clone, Debug, Default, PartialEq, Eq, PartialOrd, Ord, Hash)]
pub struct Lists(Option<Rc<[Vec<u32>; LISTS]>>);

impl Lists {
    pub const EMPTY: Lists = Lists(None);

    pub fn of(&self, list: usize) -> &[u32] {
        self.0.as_ref().map_or(&[], |lists| &lists[list])
    }

    pub fn add(&mut self, list: usize, value: u32) {
        let lists = self.0.get_or_insert_with(Rc::default);
        Rc::make_mut(lists)[list].push(value);
    }
}

/// A state, the held variables with values, a counter per state, and the lists.
#[derive(Clone, Debug, PartialEq, Eq, PartialOrd, Ord, Hash)]
pub struct Config {
    pub state: u8,
    pub counts: Counts,
    pub held: Values,
    pub lists: Lists,
}

impl Config {
    pub const START: Config = Config {
        state: 0,
        counts: [0; MOST_STATES],
        held: [None; VARIABLES],
        lists: Lists::EMPTY,
    };
}

/// Does the expression never fall, never rise, both or neither?
#[derive(Clone, Copy, Debug, PartialEq, Eq)]
pub struct Trend {
    pub rising: bool,
    pub falling: bool,
}

impl Trend {
    pub const BOTH: Trend = Trend::new(true, true);
    pub const RISING: Trend = Trend::new(true, false);
    pub const FALLING: Trend = Trend::new(false, true);
    pub const NEITHER: Trend = Trend::new(false, false);

    const fn new(rising: bool, falling: bool) -> Trend {
        Trend { rising, falling }
    }

    fn exchanged(self) -> Trend {
        Trend::new(self.falling, self.rising)
    }

    fn common(self, other: Trend) -> Trend {
        Trend::new(self.rising && other.rising, self.falling && other.falling)
    }
}

/// The trends of what a guard may name: both for constants and counters.
#[derive(Clone, Copy, Debug)]
pub struct Trends {
    pub variables: [Trend; VARIABLES],
    pub sums: [Trend; LISTS],
    pub different: [Trend; LISTS],
}

/// The value of an expression in the configuration that its step leaves.
pub fn value(part: &Expression, config: &Config) -> u32 {
    let of = |operand: &Expression| value(operand, config);
    match part {
        Expression::Const(constant) => *constant,
        Expression::Var { variable, .. } => config.held[*variable].unwrap_or(0),
        Expression::Count { state, .. } => u32::from(config.counts[*state]),
        Expression::Sum(list) => sum(config.lists.of(*list)),
        Expression::Length(list) => config.lists.of(*list).len() as u32,
        Expression::Different(list) => different(config.lists.of(*list)),
        Expression::Not(inner) => u32::from(of(inner) == 0),
        Expression::If(condition, first, second) => match of(condition) {
            0 => of(second),
            _ => of(first),
        },
        Expression::Two(pair, first, second) => {
            let (left, right) = (of(first), of(second));
            match pair {
                Pair::Add => left.saturating_add(right),
                Pair::Sub => left.saturating_sub(right),
                Pair::Less => u32::from(left < right),
                Pair::AtMost => u32::from(left <= right),
                Pair::Equal => u32::from(left == right),
                Pair::And => u32::from(left != 0 && right != 0),
                Pair::Or => u32::from(left != 0 || right != 0),
            }
        }
    }
}

/// The sum of a list, which stops at the largest value.
fn sum(list: &[u32]) -> u32 {
    list.iter()
        .fold(0, |sum: u32, value| sum.saturating_add(*value))
}

/// The number of different values of a list.
fn different(list: &[u32]) -> u32 {
    list.iter().collect::<BTreeSet<_>>().len() as u32
}

/// The trend of an expression, given those of what it names.
pub fn trend(part: &Expression, trends: &Trends) -> Trend {
    let of = |operand: &Expression| trend(operand, trends);
    match part {
        Expression::Const(_) | Expression::Count { .. } | Expression::Length(_) => Trend::BOTH,
        Expression::Var { variable, .. } => trends.variables[*variable],
        Expression::Sum(list) => trends.sums[*list],
        Expression::Different(list) => trends.different[*list],
        Expression::Not(inner) => of(inner).exchanged(),
        Expression::If(condition, first, second) => match of(condition) {
            Trend::BOTH => of(first).common(of(second)),
            _ => Trend::NEITHER,
        },
        Expression::Two(pair, first, second) => {
            let (left, right) = (of(first), of(second));
            match pair {
                Pair::Add | Pair::And | Pair::Or => left.common(right),
                Pair::Sub => left.common(right.exchanged()),
                Pair::Less | Pair::AtMost => left.exchanged().common(right),
                Pair::Equal if left.common(right) == Trend::BOTH => Trend::BOTH,
                Pair::Equal => Trend::NEITHER,
            }
        }
    }
}

/// An accepted log with an accepted formula.
pub struct Setting<'a> {
    pub log: &'a Log,
    pub formula: &'a Formula,
}

impl Setting<'_> {
    pub fn state(&self, config: &Config) -> &State {
        &self.formula.states[usize::from(config.state)]
    }

    pub fn kind(&self, config: &Config) -> Kind {
        self.state(config).kind
    }

    /// The configuration a step leads to on event n, if it fires there. What
    /// reads an absent field keeps it from firing.
    pub fn fire(&self, config: &Config, step: &Step, n: usize) -> Option<Config> {
        let event = self.log.event(n);
        let holds = |test: &Test| event[test.field].is_some_and(|now| holds(test, now, config));
        if !step.tests.iter().all(holds) {
            return None;
        }
        let mut after = config.clone();
        for bind in &step.binds {
            let fresh = event[bind.field]?;
            if after.held[bind.variable].is_some_and(|known| known != fresh) {
                return None;
            }
            after.held[bind.variable] = Some(fresh);
        }
        for gather in &step.gathers {
            after.lists.add(gather.list, event[gather.field]?);
        }
        after.counts[usize::from(config.state)] += 1;
        after.state = step.target;
        match &step.guard {
            Some(guard) if value(guard, &after) == 0 => None,
            _ => Some(after),
        }
    }
}

/// Does the test hold for the field's value, with the values held before?
fn holds(test: &Test, now: u32, config: &Config) -> bool {
    let right = match test.right {
        Right::Value(constant) => Some(constant),
        Right::Variable(variable) => config.held[variable],
    };
    right.is_some_and(|right| test.operator.holds(now, right))
}
