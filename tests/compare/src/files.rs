//! Files with fixed bytes: the bench's examples, one formula with every
//! command, pairs at a limit, and rolled pairs that are accepted.

use crate::checks::Files;
use reference::compose::*;
use reference::log::MOST_EVENTS;
use reference::random;
use reference::search::read_both;

#[derive(Clone, Debug)]
pub struct Pair {
    pub log: Vec<u8>,
    pub formula: Vec<u8>,
}

impl Pair {
    pub fn files(&self) -> Files<'_> {
        Files {
            log: &self.log,
            formula: &self.formula,
        }
    }
}

/// The bench's log with both its formulas, its events exchanged, its log of
/// three events, tied and not, a formula that gathers, two logs whose events
/// lack fields, one whose clock was set, and trips that lack a tied value.
pub fn examples() -> Vec<Pair> {
    let log = "0101 0100 02000001F400000001 02000001F400000002 00";
    let exchanged = "0101 0100 02000001F400000002 02000001F400000001 00";
    let three = "0101 0100 020000000100000001 020000000200000001 020000000300000002 00";
    let opens = "1000 1101 12010000000001 140000 1000 1102 12010000000002 1002 00";
    let tied = "1600 1000 1101 12010000000001 140000 1000 1102 12010000000002 1002 00";
    let trips = "1000 1101 12010000000002 140000 1000 1102 13000000 12010000000001 1002 00";
    let gathers =
        "1000 1101 170008 17010B 1000 1102 170008 15 29 25 2E0B 2D08 25 20000001F4 2C08 1002 00";
    let timeless = "0101 0100 02000001F400000001 03020000000000000001 0303000001F900000002 00";
    let bare = "0101 0100 0301000001F400000000 03000000000000000000 03020000000000000002 00";
    let set = "0101 0100 02000001F400000001 02000001FE00000002 04 \
               020000000500000001 04 04 03020000000000000001 020000000900000002 04 00";
    let soon = "1000 1101 1000 1102 12000200000200 140001 170008 15 \
                2B 25 2D08 2000000002 25 2101 20000001F4 26 2C08 2000000400 1002 00";
    let pairs = [
        (log, opens),
        (log, trips),
        (exchanged, trips),
        (three, opens),
        (three, tied),
        (log, gathers),
        (timeless, opens),
        (bare, soon),
        (set, opens),
        (set, soon),
    ];
    let pair = |(log, formula)| Pair {
        log: hex(log),
        formula: hex(formula),
    };
    pairs.into_iter().chain(ties()).map(pair).collect()
}

/// Two trips and an open; a trip of code 1 binds the tied time, one of code 3
/// does not. Both lack it, the later or the earlier does; and both, with
/// nothing tied.
fn ties() -> [(&'static str, &'static str); 4] {
    let both = "0101 0100 020000000100000003 020000000200000003 020000000300000002 00";
    let later = "0101 0100 020000000100000001 020000000200000003 020000000300000002 00";
    let earlier = "0101 0100 020000000100000003 020000000200000001 020000000300000002 00";
    let tied = "1600 1000 1101 12010000000001 140000 1101 12010000000003 \
                1000 1102 12010000000002 1002 00";
    let untied = &tied["1600 ".len()..];
    [(both, tied), (later, tied), (earlier, tied), (both, untied)]
}

/// Formulas that name absent states: next to another, by a COUNT, far out of
/// reach, with bytes behind END, a dead start or an unbound variable.
pub fn absent() -> Vec<Pair> {
    let formulas = [
        "1000 1101 00",
        "1000 11FF 00",
        "1000 1100 15 2201 00",
        "1000 1100 15 2210 00",
        "1000 1100 15 22FF 1101 00",
        "1000 1101 15 22FF 00",
        "1000 1100 15 2B 2200 2201 2202 1103 00",
        "1000 1102 1103 1000 1102 1002 1101 00",
        "1000 1102 1000 1103 00 00",
        "1000 1102 1000 1103",
        "1000 1102 12090000000000 00",
        "1000 1105 1002 12010000000000 00",
        "1002 1000 1102 00",
        "1003 1000 1100 15 2202 00",
        "1000 1100 13000000 1101 00",
        "1000 1100 15 23 2100 2201 00",
        "1000 1101 15 2201 1002 00",
    ];
    let log = examples().swap_remove(0).log;
    let pair = |formula| Pair {
        log: log.clone(),
        formula: hex(formula),
    };
    formulas.map(pair).to_vec()
}

/// A guard that has every expression command.
fn every_expression() -> Vec<u8> {
    let since = op(SUB, &[var(1), var(0)]);
    let early = op(AT_MOST, &[since, op(ADD, &[count(0), constant(8)])]);
    let few = op(LESS, &[count(1), constant(3)]);
    let same = op(NOT, &[op(EQUAL, &[var(2), constant(9)])]);
    let long = op(LESS, &[op(ADD, &[length(8), different(11)]), sum(9)]);
    let either = op(OR, &[long, few.clone()]);
    op(IF, &[few, op(AND, &[early, same]), either])
}

/// A formula that has every command and every operator, with a log that has
/// every command.
pub fn everything() -> Pair {
    let events: [&[Option<u32>]; 7] = [
        &[Some(1), Some(0), Some(10)],
        &[Some(2), Some(1), Some(10)],
        &[Some(2), Some(2), None],
        &[Some(2), Some(2), Some(11)],
        &[Some(4), Some(1), Some(12)],
        &[None, Some(3), Some(12)],
        &[Some(9), Some(2), Some(40)],
    ];
    let set: [&[Option<u32>]; 2] = [&[Some(3), Some(1), Some(8)], &[Some(3), Some(3), None]];
    let formula = file(&[
        join(&[tied(0), tied(2), tied(0)]),
        join(&[state(0), step(1), test(1, 4, 1), bind(0, 0), bind(1, 2)]),
        join(&[step(2), test(1, 5, 2), bind(0, 0), bind(1, 2)]),
        join(&[state(0), step(1), testv(0, 3, 0), bind(0, 1)]),
        join(&[gather(2, 8), gather(0, 9), gather(1, 11)]),
        guard(every_expression()),
        join(&[step(2), test(2, 2, 12), testv(1, 1, 2)]),
        join(&[state(1), step(3), test(1, 0, 3), testv(2, 5, 0)]),
        join(&[step(4), test(1, 3, 1), gather(1, 10), bind(2, 3)]),
        guard(op(NOT, &[different(10)])),
        join(&[step(4), test(1, 3, 1), bind(2, 3)]),
        join(&[state(2), state(3)]),
    ]);
    Pair {
        log: log_marked(&[1, 0, 1], &[&events, &set]),
        formula,
    }
}

/// Rolled pairs, not too long, that both readers accept.
pub fn accepted(pairs: usize) -> Vec<Pair> {
    let rolled = (0..).map(random::case).filter(|case| {
        let fits = (20..=160).contains(&case.log.len()) && (50..=200).contains(&case.formula.len());
        fits && read_both(&case.log, &case.formula).is_ok()
    });
    let pair = |case: random::Case| Pair {
        log: case.log,
        formula: case.formula,
    };
    rolled.take(pairs).map(pair).collect()
}

/// The largest number of events or one over it, with a formula that finds
/// runs here and there.
pub fn longest(over: usize) -> Pair {
    let mut parts = vec![field(1), field(0)];
    for number in 0..(MOST_EVENTS + over) as u32 {
        parts.push(event(&[number / 2, number % 7]));
    }
    let formula = file(&[
        join(&[state(0), step(1), test(1, 0, 1), bind(0, 0)]),
        join(&[state(0), step(2), test(1, 0, 5), bind(0, 1)]),
        join(&[step(3), test(1, 0, 3), bind(0, 1)]),
        guard(op(LESS, &[op(SUB, &[var(1), var(0)]), constant(3)])),
        join(&[state(2), state(3)]),
    ]);
    Pair {
        log: file(&parts),
        formula,
    }
}

/// The longest text: the largest number of events, each of which is a run
/// that holds eight values of ten digits; half of them accept, half reject.
pub fn wordy() -> Pair {
    let mut parts: Vec<Vec<u8>> = [1, 0, 0, 0, 0, 0, 0, 0].map(field).to_vec();
    let events = MOST_EVENTS as u32;
    for number in 0..events {
        let last = u32::MAX - events + 1 + number;
        let values = [0, 1, 2, 3, 4, 5, 6, 7].map(|place| last - place * 400_000_000);
        parts.push(event(&values));
    }
    let binds: Vec<Vec<u8>> = (0..8).map(|number| bind(number, 7 - number)).collect();
    let half = constant(u32::MAX - events / 2);
    let formula = file(&[
        join(&[state(0), step(1), binds.concat()]),
        guard(op(LESS, &[var(7), half])),
        join(&[step(2), binds.concat(), state(2), state(3)]),
    ]);
    Pair {
        log: file(&parts),
        formula,
    }
}

/// One configuration more an event, none dropped: so many events need so many
/// seats.
pub fn crowd(events: usize) -> Pair {
    let mut parts = vec![field(1)];
    for time in 0..events as u32 {
        parts.push(event(&[time]));
    }
    let formula = file(&[
        join(&[state(0), step(1)]),
        join(&[state(0), step(2), bind(0, 0)]),
        join(&[state(0), step(3), testv(0, 2, 0), step(3), test(0, 0, 5000)]),
        state(2),
    ]);
    Pair {
        log: file(&parts),
        formula,
    }
}
