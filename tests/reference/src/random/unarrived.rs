//! Formulas that wait for fields which have not arrived, or no longer arrive:
//! what is known of a step then depends on what its guard names.

use super::Dice;
use crate::compose::*;

/// A time, a code, and a reading that rises and is mostly late.
const TIME: u8 = 0;
const CODE: u8 = 1;
const READING: u8 = 2;

pub fn pair(dice: &mut Dice) -> (Vec<u8>, Vec<u8>) {
    let log = file(&[fields(), events(dice, 0)]);
    (log, formula(dice))
}

/// A formula whose second state waits for what may be absent.
pub fn formula(dice: &mut Dice) -> Vec<u8> {
    let held = dice.chance(50);
    let mut parts = vec![state(dice.pick(&[0, 0, 1])), step(1)];
    if held {
        parts.push(bind(dice.pick(&[TIME, CODE, CODE]), 0));
    }
    parts.push(state(dice.pick(&[0, 0, 1])));
    for _ in 0..dice.pick(&[1, 1, 1, 2]) {
        parts.push(step(dice.pick(&[1, 2, 2, 2])));
        parts.push(waiting(dice, held));
    }
    parts.push(state(dice.pick(&[2, 3])));
    file(&parts)
}

pub fn fields() -> Vec<u8> {
    join(&[field(1), field(0), field(1)])
}

/// Events in which the reading never arrives, or begins late, or ends early,
/// or both; time and code are seldom absent. Time and reading begin near the
/// base.
pub fn events(dice: &mut Dice, base: u32) -> Vec<u8> {
    let mut parts = Vec::new();
    let events = dice.between(3, 7);
    let there = match dice.below(6) {
        0 => 0..0,
        1 => dice.between(1, 3)..events,
        2 | 3 => 0..dice.between(1, 2),
        _ => dice.below(3)..dice.between(2, 5),
    };
    let mut time = base + dice.below(3) as u32;
    let mut reading = base + dice.below(4) as u32;
    for n in 0..events {
        let arrives = there.contains(&n) && !dice.chance(20);
        parts.push(lacking(&[
            (!dice.chance(15)).then_some(time),
            (!dice.chance(10)).then_some(dice.below(3) as u32),
            arrives.then_some(reading),
        ]));
        time += dice.below(3) as u32;
        reading += dice.below(3) as u32;
    }
    join(&parts)
}

/// The tests, binds, gathers and the guard of a step that grows old.
fn waiting(dice: &mut Dice, held: bool) -> Vec<u8> {
    let mut parts = Vec::new();
    if dice.chance(50) {
        let late = dice.below(6) as u32;
        let field = dice.pick(&[TIME, READING, READING, READING]);
        parts.push(test(field, dice.pick(&[2, 2, 4, 4, 1, 3]), late));
    }
    if held && dice.chance(20) {
        let field = dice.pick(&[TIME, READING, READING]);
        parts.push(testv(field, dice.pick(&[2, 4, 4, 1]), 0));
    }
    if held && dice.chance(30) {
        parts.push(bind(any(dice), 0));
    }
    parts.push(bind(any(dice), 1));
    if dice.chance(25) {
        parts.push(bind(any(dice), 1));
    }
    for list in [8, 9] {
        if dice.chance(60) {
            parts.push(gather(any(dice), list));
        }
    }
    if dice.chance(60) {
        dice.shuffle(&mut parts);
    }
    if dice.chance(80) {
        parts.push(guard(expression(dice, held)));
    }
    join(&parts)
}

fn any(dice: &mut Dice) -> u8 {
    dice.pick(&[TIME, CODE, READING, READING, READING, READING])
}

/// A bound, two of them, or a choice whose condition does not change.
fn expression(dice: &mut Dice, held: bool) -> Vec<u8> {
    match dice.below(6) {
        0 => op(
            dice.pick(&[AND, AND, OR]),
            &[bound(dice, held), bound(dice, held)],
        ),
        1..=3 => {
            let when = op(LESS, &[count(1), constant(dice.below(4) as u32)]);
            op(IF, &[when, bound(dice, held), bound(dice, held)])
        }
        _ => bound(dice, held),
    }
}

/// Something stays within a bound, written in several ways; or nothing ever
/// holds.
fn bound(dice: &mut Dice, held: bool) -> Vec<u8> {
    let what = match dice.below(8) {
        0 => length(8),
        1 => length(9),
        2 | 3 => sum(dice.pick(&[8, 9])),
        4 | 5 if held => var(0),
        _ => var(1),
    };
    let most = constant(dice.pick(&[0, 0, 1, 2, 3, 5]));
    match dice.below(8) {
        0 | 7 => constant(0),
        1 => op(SUB, &[most, what]),
        2 => op(NOT, &[op(LESS, &[most, what])]),
        3 => op(LESS, &[most, what]),
        _ => op(dice.pick(&[LESS, AT_MOST]), &[what, most]),
    }
}
