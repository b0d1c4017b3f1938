//! Formulas that wait within a window of time: steps that become hopeless.

use super::logs::log;
use super::Dice;
use crate::compose::*;

/// A log and a formula whose inner steps grow old.
pub fn window(dice: &mut Dice) -> (Vec<u8>, Vec<u8>) {
    let fields = dice.between(2, 3);
    let events = dice.between(3, 8);
    let log = log(dice, fields, events);
    let first = join(&[state(dice.pick(&[0, 0, 1])), step(1), bind(0, 0)]);
    let spawns = dice.chance(60);
    let base = if spawns { dice.pick(&[0, 3, 3]) } else { 0 };
    let mut parts = vec![first];
    parts.push(match spawns {
        // Every event adds a thread to state 2.
        true => join(&[state(0), step(2), bind(dice.pick(&[0, 0, 1]), 3)]),
        false => waiting(dice, log.top, 1, 0),
    });
    parts.push(waiting(dice, log.top, 2, base));
    parts.push(state(dice.pick(&[2, 2, 3])));
    (log.bytes, file(&parts))
}

/// A state whose steps cannot fire for ever; the time in variable `base` says
/// when waiting began.
fn waiting(dice: &mut Dice, top: u32, number: u8, base: u8) -> Vec<u8> {
    let mut parts = vec![state(dice.pick(&[0, 0, 1]))];
    for _ in 0..dice.pick(&[1, 1, 2]) {
        parts.push(step(dice.pick(&[number, number + 1, number + 1, 3])));
        parts.push(ageing(dice, top, number, base));
    }
    join(&parts)
}

/// The parts of a step that grows old.
fn ageing(dice: &mut Dice, top: u32, number: u8, base: u8) -> Vec<u8> {
    let code = match dice.chance(60) {
        true => test(1, dice.pick(&[0, 0, 1]), dice.below(3) as u32),
        false => Vec::new(),
    };
    let limit = dice.below(5) as u32;
    let upper = dice.pick(&[2, 4]);
    let late = dice.below(top.min(1 << 20) as usize + 2) as u32;
    let old = match dice.below(13) {
        0 | 1 => test(0, upper, late),
        2 => testv(dice.pick(&[0, 0, 1]), upper, base),
        3 => guard(op(LESS, &[count(number), constant(limit)])),
        4 => join(&[
            bind(dice.pick(&[0, 0, 1]), 1),
            guard(within(dice, base, limit)),
        ]),
        5 => join(&[bind(0, 1), bind(1, 1), guard(within(dice, base, limit))]),
        6 => join(&[bind(1, 1), bind(0, 1), guard(within(dice, base, limit))]),
        7 => join(&[bind(0, base), guard(op(LESS, &[var(base), constant(late)]))]),
        8 | 9 => join(&[bind(0, 1), guard(either(dice, base, limit))]),
        _ => gathered(dice, late, base),
    };
    join(&[code, old])
}

/// What is gathered stays within a bound, written many ways.
fn gathered(dice: &mut Dice, late: u32, base: u8) -> Vec<u8> {
    let into = dice.pick(&[8, 8, 8, 9]);
    let field = dice.pick(&[0, 0, 0, 1]);
    let of = match dice.below(6) {
        0 => length(8),
        1 => different(8),
        _ => sum(8),
    };
    let most = constant(late.saturating_mul(dice.pick(&[1, 1, 2])));
    let few = op(LESS, &[length(8), constant(2)]);
    let within = match dice.below(8) {
        0 => op(LESS, &[of, most]),
        1 => op(NOT, &[op(LESS, &[most, of])]),
        2 => op(SUB, &[most, of]),
        3 => op(AT_MOST, &[op(ADD, &[of, var(base)]), most]),
        4 => op(EQUAL, &[of, most]),
        5 => op(LESS, &[most, of]),
        6 => op(IF, &[few, op(LESS, &[of.clone(), most]), of]),
        _ => op(AT_MOST, &[of, most]),
    };
    join(&[gather(field, into), guard(within)])
}

/// Variable 1 is no more than so far behind the base, written many ways.
fn within(dice: &mut Dice, base: u8, limit: u32) -> Vec<u8> {
    let edge = op(ADD, &[var(base), constant(limit)]);
    let since = op(SUB, &[var(1), var(base)]);
    match dice.below(9) {
        0 => op(LESS, &[var(1), edge]),
        1 => op(NOT, &[op(LESS, &[edge, var(1)])]),
        2 => op(SUB, &[edge, var(1)]),
        3 => op(EQUAL, &[var(1), edge]),
        4 => op(NOT, &[op(EQUAL, &[var(1), edge])]),
        5 => op(NOT, &[since]),
        6 => op(LESS, &[edge, var(1)]),
        _ => op(AT_MOST, &[since, constant(limit)]),
    }
}

/// A choice: hopeless only if its condition cannot change any more.
fn either(dice: &mut Dice, base: u8, limit: u32) -> Vec<u8> {
    let condition = match dice.below(4) {
        0 => op(LESS, &[count(1), constant(2)]),
        1 => op(EQUAL, &[var(base), constant(limit)]),
        2 => op(LESS, &[op(ADD, &[var(base), constant(1)]), var(1)]),
        _ => op(LESS, &[var(1), constant(limit)]),
    };
    let first = within(dice, base, limit);
    let second = within(dice, base, limit + 1);
    match dice.below(6) {
        0 => op(dice.pick(&[AND, OR]), &[first, second]),
        1 => op(OR, &[condition, first]),
        2 => op(IF, &[condition, constant(0), second]),
        _ => op(IF, &[condition, first, second]),
    }
}
