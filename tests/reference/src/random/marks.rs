//! Marks of the clock's setting: a log with some of them put in, and damage to
//! the marks that it has.

use super::layout::Layout;
use super::{absent, Dice};
use crate::bytes::value;
use crate::log::Log;
use std::ops::Range;

/// Puts marks into an accepted log of events: mostly few, at times two
/// running, before the first event or before END. Behind most of them rising
/// fields begin afresh.
pub fn mark(dice: &mut Dice, log: &mut Vec<u8>) {
    let layout = Layout::of(log);
    if layout.events.is_empty() || !layout.marks.is_empty() || Log::read(log).is_err() {
        return;
    }
    let count = layout.events.len();
    let mut before: Vec<usize> = Vec::new();
    for _ in 0..dice.pick(&[1, 1, 1, 2, 2, 3, 5]) {
        let inner = dice.between(1, count.max(2) - 1);
        before.push(match dice.below(12) {
            0 => 0,
            1 => count,
            2 => before.last().copied().unwrap_or(inner),
            _ => inner,
        });
    }
    before.sort();
    let ends = before.iter().skip(1).copied().chain([count]);
    for (&first, end) in before.iter().zip(ends) {
        if dice.chance(75) {
            afresh(dice, log, &layout, first..end);
        }
    }
    for &number in before.iter().rev() {
        let at = layout.events.get(number).copied().unwrap_or(layout.end);
        log.insert(at, 0x04);
    }
}

/// Lowers the values of each rising field in these events, alike, so that the
/// least of them is small.
fn afresh(dice: &mut Dice, log: &mut [u8], layout: &Layout, events: Range<usize>) {
    for field in 0..layout.fields {
        if log[2 * field + 1] != 1 {
            continue;
        }
        let places: Vec<usize> = layout.events[events.clone()]
            .iter()
            .filter(|&&at| Layout::has(log, at, field))
            .map(|&at| Layout::values(log, at) + 4 * field)
            .collect();
        let least = places.iter().map(|&at| value(&log[at..at + 4])).min();
        let base = dice.below(3) as u32;
        let less = least.unwrap_or(0).saturating_sub(base);
        for at in places {
            let lowered = value(&log[at..at + 4]) - less;
            log[at..at + 4].copy_from_slice(&lowered.to_be_bytes());
        }
    }
}

/// Mostly damages a mark, or what stands behind it, if there is one; tells
/// whether it did.
pub fn spoil(dice: &mut Dice, log: &mut Vec<u8>) -> bool {
    let layout = Layout::of(log);
    if layout.marks.is_empty() || dice.chance(30) {
        return false;
    }
    let at = dice.pick(&layout.marks);
    let behind: Vec<usize> = layout.events.iter().copied().filter(|&n| n > at).collect();
    match dice.below(14) {
        // Times that began afresh now fall.
        0..=2 => {
            log.remove(at);
        }
        3 => log.insert(at, 0x04),
        // Before the first FIELD or another.
        4..=6 => log.insert(2 * dice.below(layout.fields), 0x04),
        7 => {
            log.splice(at + 1..at + 1, [0x01, dice.below(3) as u8]);
        }
        8 => log.truncate(at + dice.below(2)),
        9 => log[at] = dice.pick(&[0x00, 0x01, 0x02, 0x03, 0x05]),
        _ if behind.is_empty() => log.insert(at, 0x04),
        _ => {
            let at = dice.pick(&behind);
            absent::lower(dice, log, layout.fields, at);
        }
    }
    true
}
