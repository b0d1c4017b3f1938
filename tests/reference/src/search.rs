//! The search of one start: its checks and its answer.

use crate::formula::{read, Formula, Kind, VARIABLES};
use crate::log::Log;
use crate::machine::Setting;
use crate::refusal::{Refusal, CALL, CROWDED, OUTSIDE, SHORT};
use crate::runs::{threads, Outcome, Run, MOST_RUN};

pub const SEAT_WORDS: usize = 192;
pub const MOST_SEATS: usize = 64;

#[derive(Clone, Copy, Debug, PartialEq, Eq, PartialOrd, Ord)]
pub enum Verdict {
    None,
    Accept,
    Reject,
}

/// The answer of a search; entries that are not used are 0.
#[derive(Clone, Debug, PartialEq, Eq)]
pub struct Answer {
    pub verdict: Verdict,
    pub count: usize,
    pub events: [usize; MOST_RUN],
    pub steps: [usize; MOST_RUN],
    pub mask: u32,
    pub values: [u32; VARIABLES],
    pub width: usize,
}

/// The seats that so many lent words make.
pub fn seats(words: usize) -> Result<usize, Refusal> {
    match words / SEAT_WORDS {
        0 => Err(Refusal::new(CALL, SHORT, SEAT_WORDS)),
        whole => Ok(whole.min(MOST_SEATS)),
    }
}

pub fn read_both(log: &[u8], formula: &[u8]) -> Result<(Log, Formula), Refusal> {
    let log = Log::read(log)?;
    let formula = read(formula, &log)?;
    Ok((log, formula))
}

/// Searches one start with so many lent work words.
pub fn search(log: &[u8], formula: &[u8], start: usize, words: usize) -> Result<Answer, Refusal> {
    let (log, formula) = read_both(log, formula)?;
    if start >= log.events() {
        return Err(Refusal::new(CALL, OUTSIDE, start));
    }
    let seats = seats(words)?;
    let setting = Setting {
        log: &log,
        formula: &formula,
    };
    let outcome = threads::search(&setting, start, seats);
    answer(&setting, &outcome)
}

/// The answer that an outcome makes.
pub fn answer(setting: &Setting, outcome: &Outcome) -> Result<Answer, Refusal> {
    match outcome {
        Outcome::Crowded(n) => Err(Refusal::new(CALL, CROWDED, *n)),
        Outcome::Done { run, width } => Ok(match run {
            Some(run) => named(setting, run, *width),
            None => nothing(*width),
        }),
    }
}

fn nothing(width: usize) -> Answer {
    Answer {
        verdict: Verdict::None,
        count: 0,
        events: [0; MOST_RUN],
        steps: [0; MOST_RUN],
        mask: 0,
        values: [0; VARIABLES],
        width,
    }
}

fn named(setting: &Setting, run: &Run, width: usize) -> Answer {
    let mut answer = nothing(width);
    answer.verdict = match setting.kind(&run.end) {
        Kind::Accept => Verdict::Accept,
        _ => Verdict::Reject,
    };
    answer.count = run.events.len();
    answer.events[..run.events.len()].copy_from_slice(&run.events);
    answer.steps[..run.steps.len()].copy_from_slice(&run.steps);
    for (variable, held) in run.end.held.iter().enumerate() {
        if let Some(value) = held {
            answer.mask |= 1 << variable;
            answer.values[variable] = *value;
        }
    }
    answer
}
