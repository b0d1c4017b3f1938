//! Formulas of every shape against a rolled log.

use super::expressions::{any, Scope};
use super::logs::{log, Rolled};
use super::Dice;
use crate::compose::{bind, file, gather, guard, state, step, test, testv, tied};

/// What all steps of a formula have in common.
struct Plan<'a> {
    log: &'a Rolled,
    kinds: Vec<u8>,
    /// Variables that every step of state 0 binds.
    base: Vec<u8>,
    /// The lists that steps gather into; one of them perhaps nowhere.
    lists: Vec<u8>,
    /// May a step name an absent state or an unbound variable, or gather a
    /// variable twice?
    wild: bool,
}

/// A log and a formula against it, small or large.
pub fn pair(dice: &mut Dice, large: bool) -> (Vec<u8>, Vec<u8>) {
    let (fields, events, states) = match large {
        true => (dice.between(1, 8), dice.between(5, 60), dice.between(3, 16)),
        false => (dice.between(1, 3), few(dice), dice.between(2, 5)),
    };
    let log = log(dice, fields, events);
    let formula = formula(dice, &log, states);
    (log.bytes, formula)
}

fn few(dice: &mut Dice) -> usize {
    match dice.chance(4) {
        true => dice.below(2),
        false => dice.between(2, 7),
    }
}

/// The kinds of so many states: mostly an end only far from state 0.
fn kinds(dice: &mut Dice, states: usize) -> Vec<u8> {
    let mut kinds = vec![if dice.chance(1) {
        2
    } else {
        dice.pick(&[0, 0, 1])
    }];
    for number in 1..states - 1 {
        kinds.push(match number {
            1 => dice.pick(&[0, 0, 0, 0, 0, 1, 1, 1, 1, 2, 3]),
            _ => dice.pick(&[0, 0, 0, 1, 1, 2, 3]),
        });
    }
    kinds.push(dice.pick(&[2, 2, 3]));
    kinds
}

/// A formula with so many states, the last of them an end.
fn formula(dice: &mut Dice, log: &Rolled, states: usize) -> Vec<u8> {
    let plan = Plan {
        log,
        kinds: kinds(dice, states),
        base: (0..dice.below(3)).map(|_| dice.below(8) as u8).collect(),
        lists: lists(dice),
        wild: dice.chance(12),
    };
    let mut parts = Vec::new();
    for _ in 0..dice.below(3) {
        let known = !plan.base.is_empty() && dice.chance(60);
        let any = dice.below(8) as u8;
        parts.push(tied(if known { dice.pick(&plan.base) } else { any }));
    }
    for number in 0..plan.kinds.len() {
        parts.push(state(plan.kinds[number]));
        if plan.kinds[number] < 2 {
            let least = usize::from(number == 0 || dice.chance(90));
            for _ in 0..dice.between(least, 3) {
                parts.push(whole_step(dice, &plan, number));
            }
        }
    }
    file(&parts)
}

/// The lists of a formula: mostly none.
fn lists(dice: &mut Dice) -> Vec<u8> {
    let mut lists = vec![8, 9, 10, 11];
    dice.shuffle(&mut lists);
    lists.truncate(dice.pick(&[0, 0, 0, 1, 1, 2, 4]));
    lists
}

/// A step with tests, binds, gathers and perhaps a guard.
fn whole_step(dice: &mut Dice, plan: &Plan, number: usize) -> Vec<u8> {
    let mut known = plan.base.clone();
    let mut parts = tests(dice, plan, number);
    if number == 0 {
        for &variable in &plan.base {
            parts.push(bind(any_field(dice, plan), variable));
        }
    }
    for _ in 0..dice.pick(&[0, 0, 0, 1, 2]) {
        let variable = dice.below(8) as u8;
        known.push(variable);
        parts.push(bind(any_field(dice, plan), variable));
    }
    gathers(dice, plan, &mut parts);
    dice.shuffle(&mut parts);
    let mut bytes = step(target(dice, plan, number));
    bytes.extend(parts.concat());
    if dice.chance(if number == 0 { 15 } else { 50 }) {
        if plan.wild && dice.chance(20) {
            known.push(dice.below(8) as u8);
        }
        let absent = usize::from(plan.wild && dice.chance(20));
        let scope = Scope {
            variables: &known,
            lists: &plan.lists,
            states: plan.kinds.len() + absent,
            top: plan.log.top,
        };
        bytes.extend(guard(any(dice, &scope)));
    }
    bytes
}

/// GATHERs into some of the lists, as long as there is room.
fn gathers(dice: &mut Dice, plan: &Plan, parts: &mut Vec<Vec<u8>>) {
    for &list in &plan.lists {
        let times = match plan.wild && dice.chance(4) {
            true => 2,
            false => usize::from(dice.chance(60)),
        };
        for _ in 0..times {
            if parts.len() < 8 {
                parts.push(gather(any_field(dice, plan), list));
            }
        }
    }
}

/// The tests of a step; seldom one against a variable that is unbound.
fn tests(dice: &mut Dice, plan: &Plan, number: usize) -> Vec<Vec<u8>> {
    let most = match number {
        0 => [0, 0, 0, 1, 1],
        _ => [0, 1, 1, 1, 2],
    };
    let mut parts = Vec::new();
    for _ in 0..dice.pick(&most) {
        parts.push(plain_test(dice, plan));
    }
    let free = number == 0 || plan.base.is_empty();
    if (!free && dice.chance(30)) || (plan.wild && dice.chance(8)) {
        let variable = if free { 7 } else { dice.pick(&plan.base) };
        parts.push(testv(any_field(dice, plan), dice.below(6) as u8, variable));
    }
    parts
}

/// A test whose value lies near what the field takes.
fn plain_test(dice: &mut Dice, plan: &Plan) -> Vec<u8> {
    let field = any_field(dice, plan);
    let rising = plan.log.rising[usize::from(field)];
    let value = match rising {
        true => dice.below(plan.log.top.saturating_add(3) as usize) as u32,
        false => dice.below(3) as u32,
    };
    let operators: &[u8] = match rising {
        true => &[0, 1, 2, 2, 2, 3, 4, 4, 4, 5],
        false => &[0, 0, 1, 1, 2, 3, 4, 5],
    };
    test(field, dice.pick(operators), value)
}

fn any_field(dice: &mut Dice, plan: &Plan) -> u8 {
    dice.below(plan.log.rising.len()) as u8
}

/// Itself, the next state or any; seldom one that does not exist. State 0
/// leads straight to an end less often than the others.
fn target(dice: &mut Dice, plan: &Plan, number: usize) -> u8 {
    let states = plan.kinds.len();
    let any = dice.below(states);
    let rolled = match dice.below(200) {
        0..=8 if plan.wild => dice.pick(&[states, states + 1, 16, 17, 255]),
        0..=40 => number,
        41..=120 => (number + 1).min(states - 1),
        _ if number == 0 && plan.kinds[any] >= 2 => dice.below(states),
        _ => any,
    };
    rolled as u8
}
