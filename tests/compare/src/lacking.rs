//! Fixed pairs of files whose events lack fields: broken ones, fields that
//! never arrive, and the longest log.

use crate::files::Pair;
use reference::compose::*;
use reference::log::MOST_EVENTS;

/// Logs with events that may lack fields: cut, with bits and values that may
/// not be there, in the order of the checks; falls of a rising field.
pub fn broken() -> Vec<Pair> {
    let logs = [
        "03",
        "03 00 00000000 00",
        "0100 03",
        "0100 03 00",
        "0100 03 02",
        "0100 03 FF 00000000",
        "0100 03 02 00000000 00",
        "0100 03 03 00000001 00",
        "0100 03 00 00000001 00",
        "0100 03 00 01000000 00",
        "0100 03 02 000000",
        "0100 03 00 FF0000",
        "0100 03 00 00000000 0100 00",
        "0100 03 00 00000000 00 00",
        "0100 03 00 00000000 04",
        "0101 02 00000005 03 01 00000004 00",
        "0101 02 00000005 03 01 00000005 00",
        "0101 02 00000005 03 00 00000000 02 00000004 00",
        "0101 02 00000005 03 00 00000000 02 00000005 00",
        "0101 03 01 00000005 03 00 00000000 03 00 00000000 03 01 00000004 00",
        "0101 02 00000005 03 00 00000004 00",
        "0101 02 00000005 03 03 00000004 00",
        "0101 0100 02 00000005 00000001 03 01 00000004 00000001 00",
        "0101 0100 02 00000005 00000001 03 02 00000004 00000001 00",
        "0100 0101 02 00000005 00000005 03 01 00000004 00000000 03 02 00000000 00000004 00",
        "0100 0101 03 01 00000005 00000000 03 02 00000000 00000004 00",
    ];
    let pair = |log| Pair {
        log: hex(log),
        formula: hex("1000 1101 1002 00"),
    };
    logs.map(pair).to_vec()
}

/// A step that grows old, behind one that holds variable 0: with a test, a
/// guard over what it binds and gathers, over what is held, over both.
fn ageing() -> Vec<Vec<u8>> {
    let late = |what: Vec<u8>, most: u32| op(LESS, &[what, constant(most)]);
    let choice =
        |when: u32, one: Vec<u8>, other: Vec<u8>| guard(op(IF, &[constant(when), one, other]));
    let takes = join(&[bind(0, 1), gather(0, 8)]);
    vec![
        test(0, 2, 5),
        test(0, 4, 4),
        testv(0, 2, 0),
        join(&[bind(0, 1), guard(late(var(1), 5))]),
        join(&[bind(0, 1), bind(1, 1), guard(late(var(1), 5))]),
        join(&[bind(1, 1), bind(0, 1), guard(late(var(1), 5))]),
        join(&[gather(0, 8), guard(late(sum(8), 5))]),
        join(&[gather(0, 8), guard(late(length(8), 1))]),
        join(&[gather(0, 8), guard(late(length(8), 2))]),
        join(&[gather(0, 8), guard(late(sum(9), 0))]),
        join(&[bind(0, 0), guard(late(var(0), 5))]),
        join(&[takes.clone(), guard(constant(0))]),
        join(&[takes.clone(), choice(0, late(var(1), 9), constant(0))]),
        join(&[takes.clone(), choice(1, constant(0), late(var(1), 9))]),
        join(&[takes.clone(), choice(1, constant(0), late(sum(8), 9))]),
        join(&[takes, choice(1, constant(0), late(length(8), 9))]),
    ]
}

/// Steps that grow old on logs whose time is late, ends early or never
/// arrives.
pub fn unarrived() -> Vec<Pair> {
    let coded = |time: &Option<u32>| lacking(&[*time, Some(7)]);
    let logs = [
        [None, None, None],
        [None, None, Some(5)],
        [Some(5), None, None],
        [Some(4), None, Some(5)],
    ];
    let mut pairs = Vec::new();
    for times in &logs {
        for parts in ageing() {
            let fields = join(&[field(1), field(0)]);
            let events: Vec<Vec<u8>> = times.iter().map(coded).collect();
            let first = join(&[state(0), step(1), bind(1, 0)]);
            pairs.push(Pair {
                log: file(&[fields, events.concat()]),
                formula: file(&[first, state(0), step(2), parts, state(2)]),
            });
        }
    }
    pairs
}

/// The longest log, or one with an event more: eight fields, and every event
/// is one that may lack some; so does each but every third.
pub fn longest(over: usize) -> Pair {
    let mut parts: Vec<Vec<u8>> = [1, 0, 0, 1, 0, 0, 0, 1].map(field).to_vec();
    for number in 0..(MOST_EVENTS + over) as u32 {
        let value = |field: u32| match number % 3 {
            0 => Some(number + field),
            rest => ((number / 3 + field) % 4 < rest).then_some(number + field),
        };
        parts.push(lacking(&[0, 1, 2, 3, 4, 5, 6, 7].map(value)));
    }
    let late = constant(40);
    let formula = file(&[
        join(&[state(0), step(1), test(0, 1, 7), bind(3, 0)]),
        join(&[state(1), step(2), bind(7, 1), gather(2, 8)]),
        guard(op(AT_MOST, &[op(SUB, &[var(1), var(0)]), late])),
        join(&[step(3), test(0, 2, 500), testv(3, 4, 0), state(2), state(3)]),
    ]);
    Pair {
        log: file(&parts),
        formula,
    }
}
