//! A tuned program without proofs, to time beside the product: it tells how
//! fast the same answers can be had. Files are read, and runs are written, by
//! the reference; the search between them is its own:
//!
//! - `guard`: guards as short arrays of parts;
//! - `tables`: the decoded formula, and what an event alone says of each step;
//! - `lists`: gathered lists, each kept once, so that equal ones have one number;
//! - `threads`: the search, in buffers that are used again from start to start.
//!
//! Nothing else depends on it. Tests hold it to the reference, word for word.

mod guard;
mod lists;
mod tables;
mod threads;

use crate::analysis::{last, write, ALERT, REJECTED, ROW_WORDS, SUBSUMED};
use crate::formula::{Kind, VARIABLES};
use crate::machine::Setting;
use crate::refusal::{Refusal, CALL, CROWDED, OUTSIDE, SHORT};
use crate::runs::{Outcome, Run};
use crate::search::{answer, read_both, seats, Answer};
use std::collections::HashMap;
use threads::Search;

/// Searches one start, as `search::search` does.
pub fn search(log: &[u8], formula: &[u8], start: usize, words: usize) -> Result<Answer, Refusal> {
    let (log, formula) = &read_both(log, formula)?;
    if start >= log.events() {
        return Err(Refusal::new(CALL, OUTSIDE, start));
    }
    let seats = seats(words)?;
    let setting = Setting { log, formula };
    answer(&setting, &Search::new(&setting, seats).run(start))
}

/// Searches every start and writes the rows, as `analysis::analyse` does.
pub fn analyse(log: &[u8], formula: &[u8], words: usize, rows: &mut [u32]) -> Result<(), Refusal> {
    let (log, formula) = &read_both(log, formula)?;
    let seats = seats(words)?;
    let needed = ROW_WORDS * log.events();
    if rows.len() < needed {
        return Err(Refusal::new(CALL, SHORT, needed));
    }
    let setting = Setting { log, formula };
    let mut search = Search::new(&setting, seats);
    let mut named = Named::default();
    for (start, row) in rows[..needed].chunks_mut(ROW_WORDS).enumerate() {
        match search.run(start) {
            Outcome::Crowded(_) => return Err(Refusal::new(CALL, CROWDED, start)),
            Outcome::Done { run: None, .. } => row.fill(0),
            Outcome::Done { run: Some(run), .. } => {
                let covered = named.covers(&setting, start, &run);
                let verdict = match setting.kind(&run.end) {
                    Kind::Reject => REJECTED,
                    _ if covered => SUBSUMED,
                    _ => ALERT,
                };
                write(row, verdict, &run);
            }
        }
    }
    Ok(())
}

/// The runs named so far: for each list of tied values the last event of one
/// that has them.
#[derive(Default)]
struct Named(HashMap<[u32; VARIABLES], usize>);

impl Named {
    /// Does an earlier run cover the one from this start? Adds it to them. A
    /// run that lacks a tied variable neither covers nor is covered.
    fn covers(&mut self, setting: &Setting, start: usize, run: &Run) -> bool {
        let mut values = [0; VARIABLES];
        for variable in (0..VARIABLES).filter(|&variable| setting.formula.tied[variable]) {
            match run.end.held[variable] {
                Some(value) => values[variable] = value,
                None => return false,
            }
        }
        let known = self.0.insert(values, last(run));
        let latest = known.map_or(last(run), |known| known.max(last(run)));
        self.0.insert(values, latest);
        known.is_some_and(|known| known >= start)
    }
}
