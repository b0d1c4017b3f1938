//! Fixed pairs of files whose logs have marks of the clock's setting: broken
//! ones, stretches of every kind, and the longest log.

use crate::files::Pair;
use reference::compose::*;
use reference::log::{MOST_EVENTS, MOST_MARKS};

/// Marks where they may stand and where they may not; falls across one, since
/// one, and across events that lack the field; as many as may be, and more.
pub fn broken() -> Vec<Pair> {
    let logs = [
        "04",
        "04 0100 00",
        "0100 04",
        "0100 04 00",
        "0100 04 00 04",
        "0100 04 04 00",
        "0100 04 0100 00",
        "0100 04 01",
        "0100 04 0107 00",
        "0100 0100 04 0100 02 00000001 00000001 00",
        "0100 04 02 00000000 0100 00",
        "0100 04 02 000000",
        "0100 04 03 02 00000000 00",
        "0100 04 05 00",
        "0100 05 00",
        "0100 02 00000001 04 00",
        "0100 02 00000001 04 04 02 00000000 04 00",
        "0101 02 00000005 04 02 00000004 00",
        "0101 02 00000005 04 04 02 00000004 00",
        "0101 04 02 00000005 02 00000004 00",
        "0101 02 00000005 04 02 00000004 02 00000003 00",
        "0101 02 00000005 02 00000004 04 00",
        "0101 02 00000005 04 03 00 00000000 02 00000004 00",
        "0101 02 00000005 04 03 00 00000000 02 00000004 03 00 00000000 02 00000003 00",
        "0101 02 00000005 04 03 01 00000004 04 03 01 00000003 03 01 00000002 00",
        "0101 0101 02 00000005 00000005 04 02 00000004 00000006 02 00000005 00000005 00",
    ];
    let pair = |log: Vec<u8>| Pair {
        log,
        formula: hex("1000 1101 1002 00"),
    };
    let many = (MOST_MARKS - 1..MOST_MARKS + 3).flat_map(many);
    logs.map(hex).into_iter().chain(many).map(pair).collect()
}

/// So many marks: running, cut behind them, each behind an event, before the
/// first FIELD, and before another.
fn many(marks: usize) -> Vec<Vec<u8>> {
    let running = [field(1), vec![0x04; marks]].concat();
    let each = |n: usize| join(&[event(&[(MOST_MARKS + 3 - n) as u32]), mark()]);
    let parted: Vec<Vec<u8>> = (0..marks).map(each).collect();
    vec![
        running.clone(),
        file(std::slice::from_ref(&running)),
        file(&[running.clone(), field(1)]),
        file(&[running, event(&[1])]),
        file(&[field(1), parted.concat()]),
        file(&[vec![0x04; marks], field(1)]),
    ]
}

/// Formulas whose searches differ by where a log's stretches end.
fn waiting() -> Vec<Vec<u8>> {
    let opens = |kind: u8| {
        let trip = join(&[state(0), step(1), test(1, 0, 1), bind(0, 0)]);
        file(&[trip, state(kind), step(2), test(1, 0, 2), state(2)])
    };
    let source = join(&[state(0), step(1), state(0), step(2), bind(0, 0)]);
    let soon = |parts: Vec<u8>| file(&[join(&[state(0), step(1), state(0), step(2)]), parts]);
    let few = |what: Vec<u8>| guard(op(LESS, &[what, constant(5)]));
    vec![
        opens(0),
        opens(1),
        file(&[source, state(0), step(3), test(1, 0, 3), state(3)]),
        soon(join(&[test(0, 2, 5), state(2)])),
        soon(join(&[bind(0, 1), few(var(1)), state(2)])),
        soon(join(&[gather(0, 8), few(sum(8)), state(3)])),
    ]
}

/// Stretches of a time and a code, each with every formula: trips and opens on
/// both sides, times that fall and are absent, long and short stretches.
pub fn stretches() -> Vec<Pair> {
    let whole = |time: u32, code: u32| event(&[time, code]);
    let bare = |code: u32| lacking(&[None, Some(code)]);
    let trips = join(&[whole(7, 1), whole(8, 1)]);
    let opens = join(&[whole(3, 2), whole(4, 2)]);
    let both = join(&[whole(5, 1), whole(6, 0), whole(6, 2)]);
    let late = join(&[bare(1), bare(0), whole(2, 2), bare(3)]);
    let marks = |times: usize| vec![0x04; times];
    let logs = [
        join(&[trips.clone(), marks(1), opens.clone()]),
        join(&[trips.clone(), marks(2), opens.clone(), marks(1)]),
        join(&[marks(1), both.clone(), marks(1), both.clone()]),
        join(&[trips.clone(), marks(1), late.clone()]),
        join(&[both.clone(), marks(3), late.clone(), marks(1), late]),
        join(&[both.clone(), trips.clone(), marks(1), opens]),
        join(&[both.clone(), marks(1), trips, marks(1), both]),
    ];
    let fields = join(&[field(1), field(0)]);
    let mut pairs = Vec::new();
    for log in &logs {
        for formula in waiting() {
            let log = file(&[fields.clone(), log.clone()]);
            pairs.push(Pair { log, formula });
        }
    }
    pairs
}

/// The longest log, or one with a mark more: eight fields, every event is one
/// that may lack some, and a mark behind every sixteenth.
pub fn longest(over: usize) -> Pair {
    let every = MOST_EVENTS / MOST_MARKS;
    let mut parts: Vec<Vec<u8>> = [1, 0, 0, 1, 0, 0, 0, 1].map(field).to_vec();
    for number in 0..MOST_EVENTS {
        let since = (number % every) as u32;
        let value = |field: u32| (since + field > 2).then_some(since + field);
        parts.push(lacking(&[0, 1, 2, 3, 4, 5, 6, 7].map(value)));
        parts.extend((since as usize == every - 1).then(mark));
    }
    parts.push(vec![0x04; over]);
    let late = op(AT_MOST, &[op(SUB, &[var(1), var(0)]), constant(9)]);
    let formula = file(&[
        join(&[state(0), step(1), bind(3, 0)]),
        join(&[state(1), step(2), test(1, 0, 12), bind(7, 1), gather(2, 8)]),
        guard(late),
        join(&[step(3), test(0, 2, 3), testv(3, 4, 0), state(2), state(3)]),
    ]);
    Pair {
        log: file(&parts),
        formula,
    }
}
