//! Where absent fields count in a search: told for cases with few runs, so
//! that rolled cases are known to reach it. The same of marks: `marks`; of
//! ties in rows: `ties`.

pub mod marks;
pub mod ties;

use crate::formula::{Operator, Step};
use crate::log::Log;
use crate::machine::{Config, Setting};
use crate::runs::{literal, Run};

pub const REACHED: usize = 7;

/// What may be reached, in the order of `reached`.
pub const NAMES: [&str; REACHED] = [
    "a run over an absent field",
    "a step kept from firing by one",
    "a step that fires beside one",
    "a step hopeless by an older value",
    "a step hopeless by one before the start",
    "a test let off",
    "a guard let off",
];

/// A configuration that has been reached up to event n, with a step out of it.
struct Look<'a> {
    setting: &'a Setting<'a>,
    since: &'a Setting<'a>,
    zeros: &'a Setting<'a>,
    config: &'a Config,
    step: &'a Step,
    n: usize,
}

impl Look<'_> {
    fn has(&self, field: usize) -> bool {
        self.setting.log.event(self.n)[field].is_some()
    }

    fn is_hopeless(&self) -> bool {
        self.setting.hopeless(self.config, self.step, self.n)
    }

    /// Does the step read a field that the event lacks?
    fn lacks(&self) -> bool {
        let tests = self.step.tests.iter().map(|test| test.field);
        let binds = self.step.binds.iter().map(|bind| bind.field);
        let gathers = self.step.gathers.iter().map(|gather| gather.field);
        let mut all = tests.chain(binds).chain(gathers);
        all.any(|field| !self.has(field))
    }

    /// Would the step fire if it did not read what is absent?
    fn kept_from_firing(&self) -> bool {
        let mut rest = self.step.clone();
        rest.tests.retain(|test| self.has(test.field));
        rest.binds.retain(|bind| self.has(bind.field));
        rest.gathers.retain(|gather| self.has(gather.field));
        self.lacks() && self.setting.fire(self.config, &rest, self.n).is_some()
    }

    fn fires_beside(&self) -> bool {
        let absent = self.setting.log.event(self.n).contains(&None);
        absent && self.setting.fire(self.config, self.step, self.n).is_some()
    }

    fn hopeless_by_older(&self) -> bool {
        self.lacks() && self.is_hopeless()
    }

    /// Hopeless, and it would not be if the log began at the search's start.
    fn hopeless_by_before(&self) -> bool {
        self.is_hopeless() && !self.since.hopeless(self.config, self.step, self.n)
    }

    /// Not hopeless, with an upper test of a rising field that never arrived.
    fn test_let_off(&self) -> bool {
        let log = self.setting.log;
        let mut tests = self.step.tests.iter();
        let unknown = tests.any(|test| {
            let upper = matches!(test.operator, Operator::Less | Operator::AtMost);
            upper && log.rising[test.field] && log.latest(test.field, self.n).is_none()
        });
        unknown && !self.is_hopeless()
    }

    /// Not hopeless because the guard names what never arrived: with 0 there
    /// in the stretch's first event it would be.
    fn guard_let_off(&self) -> bool {
        let named = self.setting.names_unknown(self.config, self.step, self.n);
        named && !self.is_hopeless() && self.zeros.hopeless(self.config, self.step, self.n)
    }
}

/// The log with nothing present before the start.
fn since(log: &Log, start: usize) -> Log {
    let mut log = log.clone();
    for event in &mut log.recorded[..start] {
        event.fill(None);
    }
    log
}

/// The log with 0 for every field that the first event of the start's stretch
/// lacks.
fn zeros(log: &Log, start: usize) -> Log {
    let mut log = log.clone();
    let first = log.around(start).start;
    for value in &mut log.recorded[first] {
        *value = value.or(Some(0));
    }
    log
}

/// What a search from the start reaches; nothing where there are more than
/// `limit` runs.
pub fn reached(setting: &Setting, start: usize, limit: usize) -> Option<[bool; REACHED]> {
    let all = literal::all(setting, start, limit)?;
    let formula = setting.formula;
    let (since, zeros) = (since(setting.log, start), zeros(setting.log, start));
    let since = Setting {
        log: &since,
        formula,
    };
    let zeros = Setting {
        log: &zeros,
        formula,
    };
    let lacks = |n: &usize| setting.log.event(*n).contains(&None);
    let mut reached = [false; REACHED];
    reached[0] = all.least().is_some_and(|run| run.events.iter().any(lacks));
    for n in start..setting.log.around(start).end {
        let so_far = |run: &&Run| run.events.last() <= Some(&n);
        for run in all.partial.iter().filter(so_far) {
            for step in &setting.state(&run.end).steps {
                let config = &run.end;
                let look = Look {
                    setting,
                    since: &since,
                    zeros: &zeros,
                    config,
                    step,
                    n,
                };
                reached[1] |= look.kept_from_firing();
                reached[2] |= look.fires_beside();
                reached[3] |= look.hopeless_by_older();
                reached[4] |= look.hopeless_by_before();
                reached[5] |= look.test_let_off();
                reached[6] |= look.guard_let_off();
            }
        }
    }
    Some(reached)
}
