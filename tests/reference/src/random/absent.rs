//! Fields that events lack: a log with some of its values taken out, and
//! damage to the events that lack them.

use super::layout::Layout;
use super::Dice;
use crate::bytes::value;
use crate::compose::{event, lacking};
use std::ops::Range;

/// A field that some events in a row lack.
struct Gap {
    field: usize,
    events: Range<usize>,
}

fn gap(dice: &mut Dice, layout: &Layout) -> Gap {
    let count = layout.events.len();
    let (one, other) = (dice.below(count + 1), dice.below(count + 1));
    let events = match dice.below(5) {
        0 => 0..count,
        1 => 0..one,
        2 => one..count,
        3 => one.min(other)..one.max(other),
        _ => 0..0,
    };
    Gap {
        field: dice.below(layout.fields),
        events,
    }
}

/// Takes values out of a log of whole events: some anywhere, a field for some
/// events in a row or for all. An event that lacks nothing mostly stays as it
/// is, and so does any other log.
pub fn thin(dice: &mut Dice, log: &mut Vec<u8>) {
    let layout = Layout::of(log);
    let lacks = layout.events.iter().any(|&at| log[at] == 0x03);
    if layout.events.is_empty() || lacks || !layout.marks.is_empty() {
        return;
    }
    let often = dice.pick(&[0, 5, 10, 30, 60, 95]);
    let gaps = [gap(dice, &layout), gap(dice, &layout)];
    let mut thinned = log[..layout.events[0]].to_vec();
    for (n, &at) in layout.events.iter().enumerate() {
        let whole: Vec<u32> = log[at + 1..].chunks(4).map(value).collect();
        let mut kept = Vec::new();
        for (field, &value) in whole[..layout.fields].iter().enumerate() {
            let lacks = |gap: &Gap| gap.field == field && gap.events.contains(&n);
            let absent = gaps.iter().any(lacks) || dice.chance(often);
            kept.push((!absent).then_some(value));
        }
        thinned.extend(match kept.contains(&None) || dice.chance(20) {
            true => lacking(&kept),
            false => event(&whole[..layout.fields]),
        });
    }
    thinned.extend(&log[layout.end..]);
    *log = thinned;
}

/// Mostly damages an event that may lack fields, or some value of the log, if
/// there is such an event; tells whether it did.
pub fn spoil(dice: &mut Dice, log: &mut Vec<u8>) -> bool {
    let Layout { fields, events, .. } = Layout::of(log);
    let may_lack = |at: &usize| log[*at] == 0x03;
    let found: Vec<usize> = events.iter().copied().filter(may_lack).collect();
    if found.is_empty() || dice.chance(30) {
        return false;
    }
    let at = dice.pick(&found);
    let (bits, values) = (at + 1, at + 2);
    let byte = values + dice.below(4 * fields);
    match dice.below(13) {
        // Any bit, mostly one beyond the fields.
        0 | 1 => log[bits] ^= 1 << dice.between(fields.min(7), 7),
        2 => log[bits] ^= 1 << dice.below(8),
        3 => log[bits] = dice.pick(&[0, 255]),
        4 => log[bits..values + 4 * fields].fill(0),
        // A byte of a value, present or not.
        5 | 6 => log[byte] = dice.pick(&[1, 128, 255]),
        7 => log.truncate(byte - 1),
        8 => log[at] = 0x02,
        _ => {
            let at = dice.pick(&events);
            lower(dice, log, fields, at);
        }
    }
    true
}

/// Makes a value of the event at this place less, mostly of a rising field: it
/// may now fall, below what came before events that lack it too.
pub fn lower(dice: &mut Dice, log: &mut [u8], fields: usize, at: usize) {
    let values = Layout::values(log, at);
    let rising = (0..fields).find(|field| log[2 * field + 1] == 1);
    let any = dice.below(fields);
    let field = if dice.chance(70) { rising } else { None };
    let at = values + 4 * field.unwrap_or(any);
    let less = value(&log[at..at + 4]).saturating_sub(dice.between(1, 3) as u32);
    log[at..at + 4].copy_from_slice(&less.to_be_bytes());
}
