//! Families of cases that reach far: long runs, crowds, overlaps.

use super::logs::log;
use super::Dice;
use crate::compose::*;

/// Runs of up to 32 steps or just over: a loop that counts its rounds and
/// then leaves.
pub fn long(dice: &mut Dice) -> (Vec<u8>, Vec<u8>) {
    let fields = dice.between(1, 2);
    let events = dice.between(30, 45);
    let log = log(dice, fields, events);
    let rounds = match dice.below(3) {
        0 => dice.between(2, 28),
        _ => dice.between(28, 33),
    } as u32;
    let within = match dice.below(3) {
        0 => op(LESS, &[count(1), constant(rounds)]),
        1 => op(SUB, &[constant(rounds), count(1)]),
        _ => op(NOT, &[op(AT_MOST, &[constant(rounds), count(1)])]),
    };
    let done = op(EQUAL, &[count(1), constant(rounds)]);
    let done = tallied(dice, done, rounds);
    let all = gathers(dice, fields);
    let mut inner = [
        join(&[step(1), skip(dice, &log.rising), all.clone(), guard(within)]),
        join(&[step(2), all.clone(), guard(done)]),
    ];
    if dice.chance(50) {
        inner.reverse();
    }
    let formula = file(&[
        state(dice.pick(&[0, 1])),
        join(&[step(1), bind(0, 0), all]),
        state(dice.pick(&[0, 1, 1])),
        join(&inner),
        state(dice.pick(&[2, 2, 3])),
    ]);
    (log.bytes, formula)
}

/// Sometimes a GATHER into each list, or into most.
fn gathers(dice: &mut Dice, fields: usize) -> Vec<u8> {
    let often = dice.pick(&[0, 0, 80, 100]);
    let mut parts = Vec::new();
    for list in 8..12 {
        if dice.chance(often) {
            parts.push(gather(dice.below(fields) as u8, list));
        }
    }
    parts.concat()
}

/// Sometimes a bound on a list as well, where each of so many rounds may have
/// gathered into it.
fn tallied(dice: &mut Dice, done: Vec<u8>, rounds: u32) -> Vec<u8> {
    let list = dice.between(8, 11) as u8;
    let bound = match dice.below(6) {
        0 => op(AT_MOST, &[constant(rounds), length(list)]),
        1 => op(LESS, &[constant(dice.below(4) as u32), different(list)]),
        2 => op(LESS, &[constant(dice.below(40) as u32), sum(list)]),
        3 => op(AT_MOST, &[sum(list), constant(u32::MAX - 1)]),
        _ => return done,
    };
    op(AND, &[done, bound])
}

/// Sometimes a test that lets an event be passed over.
fn skip(dice: &mut Dice, rising: &[bool]) -> Vec<u8> {
    match rising.iter().position(|&up| !up) {
        Some(plain) if dice.chance(30) => test(plain as u8, 1, 1),
        _ => Vec::new(),
    }
}

/// One configuration more an event, up to about 64.
fn fan(dice: &mut Dice) -> (Vec<u8>, Vec<u8>) {
    let mut events = vec![field(1)];
    for time in 0..dice.between(60, 68) {
        events.push(event(&[time as u32]));
    }
    let formula = file(&[
        join(&[state(0), step(1)]),
        join(&[state(0), step(2), bind(0, 0)]),
        join(&[state(0), step(3), testv(0, 2, 0), step(3), test(0, 0, 66)]),
        state(dice.pick(&[2, 3])),
    ]);
    (file(&events), formula)
}

/// Ordinary loops whose counters and variables keep threads apart.
pub fn crowd(dice: &mut Dice) -> (Vec<u8>, Vec<u8>) {
    if dice.chance(10) {
        return fan(dice);
    }
    let fields = dice.between(1, 2);
    let events = dice.between(3, 9);
    let log = log(dice, fields, events);
    let field = dice.below(fields) as u8;
    let mut inner = vec![step(dice.pick(&[1, 1, 2]))];
    match dice.below(4) {
        0 => inner.push(bind(field, 1)),
        1 => inner.push(test(field, dice.pick(&[2, 4]), log.top)),
        2 => inner.push(guard(op(LESS, &[count(1), constant(3)]))),
        _ => {}
    }
    if dice.chance(60) {
        let out = test(field, dice.pick(&[0, 3, 5]), log.top);
        inner.push(join(&[step(3), out]));
    }
    let formula = file(&[
        state(0),
        step(1),
        state(0),
        join(&inner),
        state(dice.pick(&[0, 1])),
        step(1),
        state(dice.pick(&[2, 3])),
    ]);
    (log.bytes, formula)
}

/// Runs that end together or on one another.
pub fn ends(dice: &mut Dice) -> (Vec<u8>, Vec<u8>) {
    match dice.below(3) {
        0 => overlap(dice),
        1 => exchange(dice),
        _ => mixed(dice),
    }
}

/// Many starts with runs that overlap, tied or not, accepting or rejecting.
fn overlap(dice: &mut Dice) -> (Vec<u8>, Vec<u8>) {
    let fields = dice.between(2, 3);
    let events = dice.between(4, 12);
    let log = log(dice, fields, events);
    let field = dice.below(fields) as u8;
    let mut parts = Vec::new();
    for _ in 0..dice.below(3) {
        parts.push(tied(dice.below(3) as u8));
    }
    parts.push(state(dice.pick(&[0, 1])));
    parts.push(join(&[step(1), test(1, 1, 0), bind(field, 0)]));
    parts.push(join(&[step(2), bind(1, 1)]));
    parts.push(state(dice.pick(&[0, 1])));
    parts.push(join(&[step(2), test(1, 0, 0), bind(1, 2)]));
    parts.push(join(&[step(3), test(1, 0, 2)]));
    parts.push(state(dice.pick(&[0, 2])));
    if parts[parts.len() - 1] == state(0) {
        parts.push(join(&[step(3), test(field, 4, log.top)]));
    }
    parts.push(state(dice.pick(&[2, 3])));
    (log.bytes, file(&parts))
}

/// Two states left in either order: one configuration by several trails.
fn exchange(dice: &mut Dice) -> (Vec<u8>, Vec<u8>) {
    // The codes of a log in which the later arrival has the lesser trail.
    let mut codes = vec![0, 1, 2, 3, 4, 5];
    for _ in 0..dice.below(4) {
        let at = dice.between(1, codes.len() - 1);
        codes.insert(at, dice.below(5) as u32);
    }
    if dice.chance(40) {
        let at = dice.between(1, codes.len() - 2);
        codes.swap(at, at + 1);
    }
    let mut events = vec![field(0)];
    events.extend(codes.iter().map(|&code| event(&[code])));
    let once = |state: u8| guard(op(LESS, &[count(state), constant(1)]));
    let formula = file(&[
        join(&[state(0), step(1), step(2)]),
        join(&[state(0), step(2), test(0, 0, 2), once(2)]),
        join(&[step(3), test(0, 0, 4)]),
        join(&[state(0), step(1), test(0, 0, 1), once(1)]),
        join(&[step(3), test(0, 0, 3)]),
        join(&[state(dice.pick(&[0, 1])), step(4), test(0, 0, 5)]),
        state(dice.pick(&[2, 3])),
    ]);
    (file(&events), formula)
}

/// One code starts what will be rejected, another what will be accepted, and
/// a third ends both.
fn mixed(dice: &mut Dice) -> (Vec<u8>, Vec<u8>) {
    let events = dice.between(4, 12);
    let log = log(dice, 2, events);
    let mut parts = Vec::new();
    if dice.chance(50) {
        parts.push(tied(dice.below(2) as u8));
    }
    parts.push(join(&[state(0), step(1), test(1, 0, 0)]));
    if dice.chance(50) {
        parts.push(bind(dice.below(2) as u8, 0));
    }
    parts.push(join(&[step(2), test(1, 3, 0)]));
    if dice.chance(50) {
        parts.push(bind(dice.below(2) as u8, 0));
    }
    let ends = test(1, dice.pick(&[0, 3]), 1);
    parts.push(join(&[state(dice.pick(&[0, 1])), step(3), ends.clone()]));
    parts.push(join(&[state(dice.pick(&[0, 1])), step(4), ends]));
    parts.push(join(&[state(3), state(2)]));
    (log.bytes, file(&parts))
}
