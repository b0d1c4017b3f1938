//! Ties as the stand-in sees them in rows, with the faults that a product may
//! have there.

use super::fault::{has, Fault};
use reference::analysis::{ALERT, NONE, REJECTED, SUBSUMED};
use reference::formula::{Formula, VARIABLES};
use reference::search::read_both;

/// What the run of a row holds.
fn held(row: &[u32], variable: usize) -> Option<u32> {
    (row[3] >> variable & 1 == 1).then_some(row[4 + variable])
}

/// Does the tied variable tie the two runs?
fn ties(earlier: &[u32], later: &[u32], variable: usize) -> bool {
    match (held(earlier, variable), held(later, variable)) {
        (None, _) if has(Fault::TieLackedByRejecting) => earlier[0] == REJECTED,
        (None, None) => has(Fault::TieNeitherHolds),
        (Some(one), Some(other)) => one == other || has(Fault::TieValuesIgnored),
        (Some(0), None) | (None, Some(0)) if has(Fault::TieUnheldAsZero) => true,
        (Some(_), None) => has(Fault::TieOneHolds) || has(Fault::TieEarlierHolds),
        (None, Some(_)) => has(Fault::TieOneHolds) || has(Fault::TieLaterHolds),
    }
}

fn all_tie(formula: &Formula, earlier: &[u32], later: &[u32]) -> bool {
    let mut tied = (0..VARIABLES).filter(|&variable| formula.tied[variable]);
    let ties = |variable: usize| ties(earlier, later, variable);
    match formula.tied.contains(&true) {
        false => !has(Fault::UntiedNeverSubsumed),
        true if has(Fault::TieAnyIsEnough) => tied.any(ties),
        true if has(Fault::TieFirstAlone) => tied.take(1).all(ties),
        true => tied.all(ties),
    }
}

/// The rows with the verdicts that the stand-in's own rule gives.
pub fn judge_rows(log: &[u8], formula: &[u8], rows: &mut [u32]) {
    let Ok((_, formula)) = read_both(log, formula) else {
        return;
    };
    for start in 0..rows.len() / 12 {
        let (before, from) = rows.split_at_mut(12 * start);
        let row = &mut from[..12];
        let subsumes = |earlier: &[u32]| {
            let overlaps = earlier[0] != NONE && earlier[1] as usize >= start;
            overlaps && all_tie(&formula, earlier, row)
        };
        if row[0] == ALERT || row[0] == SUBSUMED {
            let subsumed = before.chunks(12).any(subsumes);
            row[0] = if subsumed { SUBSUMED } else { ALERT };
        }
    }
}
