//! The text the program prints for a log and a formula.

use crate::analysis::{analyse, NONE, ROW_WORDS};
use crate::log::{Log, MOST_EVENTS};
use crate::search::{MOST_SEATS, SEAT_WORDS};
use std::fmt::Write;

const WORDS: [&str; 4] = ["none", "alert", "subsumed", "rejected"];

/// One line an event, or the refusal alone.
pub fn text(log: &[u8], formula: &[u8]) -> String {
    let mut rows = vec![0; ROW_WORDS * MOST_EVENTS];
    if let Err(refusal) = analyse(log, formula, MOST_SEATS * SEAT_WORDS, &mut rows) {
        return format!("{refusal}\n");
    }
    let events = Log::read(log).map_or(0, |log| log.events());
    let rows = rows.chunks(ROW_WORDS).take(events).enumerate();
    rows.map(|(number, row)| line(number, row)).collect()
}

fn line(number: usize, row: &[u32]) -> String {
    let mut line = format!("{} {}", number, WORDS[row[0] as usize]);
    if row[0] != NONE {
        let _ = write!(line, " {} {}", row[1], row[2]);
        for variable in (0..8).filter(|variable| row[3] >> variable & 1 == 1) {
            let _ = write!(line, " v{}={}", variable, row[4 + variable]);
        }
    }
    line.push('\n');
    line
}
