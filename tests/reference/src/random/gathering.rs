//! Formulas that gather readings: one configuration by several paths, lists
//! that differ in their order alone, sums near the largest value.

use super::expressions::{any, of_list, Scope};
use super::Dice;
use crate::compose::*;

/// Readings drawn from few, so that lists are often equal, or equal but for
/// their order, or equal in sum and length alone.
const READINGS: [&[u32]; 9] = [
    &[5],
    &[0, 1],
    &[1, 2],
    &[7, 7, 8],
    &[0, 1, 2, 3],
    &[0, u32::MAX],
    &[1, 2, u32::MAX - 1],
    &[1, 1 << 31, (1 << 31) - 1],
    &[u32::MAX - 3, 0, 1, 1],
];

/// What the formulas of this family have in common.
struct Plan {
    readings: &'static [u32],
    /// The lists that steps gather into.
    lists: Vec<u8>,
}

pub fn pair(dice: &mut Dice) -> (Vec<u8>, Vec<u8>) {
    let plan = Plan {
        readings: dice.pick(&READINGS),
        lists: match dice.below(4) {
            0 | 1 => vec![dice.pick(&[8, 9, 10, 11])],
            2 => vec![8, 9],
            _ => vec![8, 9, 10, 11],
        },
    };
    let log = log_of(dice, &plan);
    let formula = match dice.below(3) {
        0 => exchange(dice, &plan),
        _ => subsets(dice, &plan),
    };
    (log, formula)
}

/// A rising time and two readings.
fn log_of(dice: &mut Dice, plan: &Plan) -> Vec<u8> {
    let mut parts = vec![field(1), field(0), field(0)];
    let mut time = dice.below(3) as u32;
    for _ in 0..dice.between(3, 7) {
        let (one, other) = (dice.pick(plan.readings), dice.pick(plan.readings));
        parts.push(event(&[time, one, other]));
        time += dice.pick(&[0, 1, 1, 2]);
    }
    file(&parts)
}

/// GATHERs into some of the lists, mostly of a reading.
fn gathers(dice: &mut Dice, plan: &Plan) -> Vec<u8> {
    let mut parts = Vec::new();
    for &list in &plan.lists {
        if dice.chance(80) {
            parts.push(gather(dice.pick(&[0, 1, 1, 1, 2, 2]), list));
        }
    }
    dice.shuffle(&mut parts);
    parts.concat()
}

/// A loop that takes any of the events, in one way or in several.
fn subsets(dice: &mut Dice, plan: &Plan) -> Vec<u8> {
    let mut parts = vec![state(dice.pick(&[0, 1])), step(1)];
    if dice.chance(50) {
        parts.push(gathers(dice, plan));
    }
    parts.push(state(dice.pick(&[0, 0, 0, 1])));
    for _ in 0..dice.pick(&[1, 2, 2, 3]) {
        parts.push(join(&[step(dice.pick(&[1, 1, 2])), gathers(dice, plan)]));
        let most = constant(dice.between(1, 4) as u32);
        match dice.below(4) {
            0 => parts.push(guard(op(LESS, &[count(1), most]))),
            1 => parts.push(guard(op(AT_MOST, &[length(plan.lists[0]), most]))),
            2 => parts.push(guard(bounded(dice, plan))),
            _ => {}
        }
    }
    parts.push(join(&[state(dice.pick(&[0, 0, 1])), leave(dice, plan)]));
    parts.push(join(&[state(2), state(3)]));
    file(&parts)
}

/// Two states left in either order, each once, so that the counters agree.
fn exchange(dice: &mut Dice, plan: &Plan) -> Vec<u8> {
    let once = |state: u8| guard(op(LESS, &[count(state), constant(1)]));
    let both = |state: u8| guard(op(EQUAL, &[count(state), constant(1)]));
    let (one, other) = (gathers(dice, plan), gathers(dice, plan));
    let other = if dice.chance(40) { one.clone() } else { other };
    file(&[
        join(&[state(0), step(1), step(2)]),
        join(&[state(0), step(2), one.clone(), once(2)]),
        join(&[step(3), one, both(2)]),
        join(&[state(0), step(1), other.clone(), once(1)]),
        join(&[step(3), other, both(1)]),
        join(&[state(dice.pick(&[0, 0, 1])), leave(dice, plan)]),
        join(&[state(2), state(3)]),
    ])
}

/// Steps out of the last state but two, which waits; the ends follow it.
fn leave(dice: &mut Dice, plan: &Plan) -> Vec<u8> {
    let own = 2 + u8::from(dice.chance(50));
    let mut parts = Vec::new();
    for _ in 0..dice.pick(&[1, 1, 2]) {
        parts.push(step(dice.pick(&[own, 3, 3, 4])));
        match dice.below(4) {
            0 => parts.push(test(1, 0, 99)),
            1 => parts.push(gathers(dice, plan)),
            _ => {}
        }
        if dice.chance(70) {
            parts.push(guard(rolled(dice, plan)));
        }
    }
    join(&parts)
}

/// Any guard over the lists, or one that a bound on them makes.
fn rolled(dice: &mut Dice, plan: &Plan) -> Vec<u8> {
    let scope = Scope {
        variables: &[],
        lists: &plan.lists,
        states: 5,
        top: 6,
    };
    match dice.chance(40) {
        true => any(dice, &scope),
        false => bounded(dice, plan),
    }
}

/// Something of a list against a number that it may come to.
fn bounded(dice: &mut Dice, plan: &Plan) -> Vec<u8> {
    let gathered = of_list(dice, &plan.lists);
    let times = dice.below(4) as u32;
    let number = match dice.below(4) {
        0 => dice.below(5) as u32,
        1 => u32::MAX - dice.below(3) as u32,
        _ => dice.pick(plan.readings).saturating_mul(times),
    };
    let number = constant(number);
    match dice.below(6) {
        0 => op(EQUAL, &[gathered, number]),
        1 => op(NOT, &[op(EQUAL, &[gathered, number])]),
        2 => op(LESS, &[number, gathered]),
        3 => op(SUB, &[number, gathered]),
        _ => op(dice.pick(&[LESS, AT_MOST]), &[gathered, number]),
    }
}
