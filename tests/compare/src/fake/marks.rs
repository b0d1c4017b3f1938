//! Marks as the stand-in sees them in a search and in rows, with the faults
//! that a product may have there.

use super::fault::{has, Fault};
use reference::analysis::NONE;
use reference::formula::Kind;
use reference::log::Log;
use reference::search::Answer;

/// Behind which event a search from the start ends.
pub fn end(log: &Log, start: usize) -> usize {
    let far = [
        Fault::RunAcrossMark,
        Fault::OrdinaryAcrossMark,
        Fault::CommittedAcrossMark,
    ];
    let stretch = log.around(start);
    match () {
        _ if far.into_iter().any(has) => log.events(),
        _ if has(Fault::FirstStretchAlone) && stretch.start > 0 => start,
        _ if has(Fault::LastOfStretchUnsearched) && is_last(log, stretch.end - 1) => {
            stretch.end.max(start + 2) - 1
        }
        _ => stretch.end,
    }
}

/// Does a configuration in a state of this kind wait across a mark?
pub fn crosses(kind: Kind) -> bool {
    match kind {
        Kind::Ordinary => has(Fault::RunAcrossMark) || has(Fault::OrdinaryAcrossMark),
        _ => has(Fault::RunAcrossMark) || has(Fault::CommittedAcrossMark),
    }
}

/// Does a mark stand between the event and the next?
fn is_last(log: &Log, n: usize) -> bool {
    n + 1 < log.events() && !log.one_stretch(n, n + 1)
}

/// How many of those that wait after the event count for width and crowded.
pub fn counted(log: &Log, n: usize, waiting: usize) -> usize {
    match has(Fault::LastOfStretchUncounted) && is_last(log, n) {
        true => 0,
        false => waiting,
    }
}

/// The answer with the event numbers that a fault gives.
pub fn numbered(log: &Log, start: usize, mut answer: Answer) -> Answer {
    let used = answer.count;
    for n in &mut answer.events[..used] {
        if has(Fault::NumbersAfresh) {
            *n -= log.around(start).start;
        }
        if has(Fault::NumbersWithMarks) {
            *n += log.stretch[start];
        }
    }
    answer
}

/// The rows with last events that are numbered from the stretch's first.
pub fn spoil_rows(log: &[u8], rows: &mut [u32]) {
    let Ok(log) = Log::read(log) else {
        return;
    };
    let named = rows
        .chunks_mut(12)
        .enumerate()
        .filter(|(_, row)| row[0] != NONE);
    for (start, row) in named.filter(|_| has(Fault::RowNumbersAfresh)) {
        row[1] -= log.around(start).start as u32;
    }
}
