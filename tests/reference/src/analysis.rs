//! The analysis: a row for every event.

use crate::formula::{Formula, Kind, VARIABLES};
use crate::machine::{Setting, Values};
use crate::refusal::{Refusal, CALL, CROWDED, SHORT};
use crate::runs::{threads, Outcome, Run};
use crate::search::{read_both, seats};

pub const ROW_WORDS: usize = 12;

pub const NONE: u32 = 0;
pub const ALERT: u32 = 1;
pub const SUBSUMED: u32 = 2;
pub const REJECTED: u32 = 3;

/// What later starts need to know of a start's named run.
struct Named {
    last: usize,
    held: Values,
}

/// Searches every start with so many lent work words and writes the rows.
/// Words that no row needs stay as they are; so do the rows from the start on
/// that is crowded.
pub fn analyse(log: &[u8], formula: &[u8], words: usize, rows: &mut [u32]) -> Result<(), Refusal> {
    let (log, formula) = read_both(log, formula)?;
    let seats = seats(words)?;
    let needed = ROW_WORDS * log.events();
    if rows.len() < needed {
        return Err(Refusal::new(CALL, SHORT, needed));
    }
    let setting = Setting {
        log: &log,
        formula: &formula,
    };
    let mut earlier = Vec::new();
    for (start, row) in rows[..needed].chunks_mut(ROW_WORDS).enumerate() {
        match threads::search(&setting, start, seats) {
            Outcome::Crowded(_) => return Err(Refusal::new(CALL, CROWDED, start)),
            Outcome::Done { run: None, .. } => row.fill(0),
            Outcome::Done { run: Some(run), .. } => {
                let verdict = verdict(&setting, &earlier, start, &run);
                write(row, verdict, &run);
                earlier.push(Named {
                    last: last(&run),
                    held: run.end.held,
                });
            }
        }
    }
    Ok(())
}

pub fn last(run: &Run) -> usize {
    run.events[run.events.len() - 1]
}

fn verdict(setting: &Setting, earlier: &[Named], start: usize, run: &Run) -> u32 {
    let covers = |named: &Named| {
        named.last >= start && same_tied(setting.formula, &named.held, &run.end.held)
    };
    match setting.kind(&run.end) {
        Kind::Reject => REJECTED,
        _ if earlier.iter().any(covers) => SUBSUMED,
        _ => ALERT,
    }
}

/// Is each tied variable held by both with one value? Of one that a run lacks
/// nothing is known.
fn same_tied(formula: &Formula, one: &Values, other: &Values) -> bool {
    let same = |v: usize| one[v].is_some() && one[v] == other[v];
    (0..VARIABLES).all(|v| !formula.tied[v] || same(v))
}

pub fn write(row: &mut [u32], verdict: u32, run: &Run) {
    row[0] = verdict;
    row[1] = last(run) as u32;
    row[2] = run.events.len() as u32;
    row[3] = 0;
    for (variable, held) in run.end.held.iter().enumerate() {
        row[3] |= u32::from(held.is_some()) << variable;
        row[4 + variable] = held.unwrap_or(0);
    }
}
