//! Guards: conditions over constants, variables, counters and lists.

use super::Dice;
use crate::compose::*;

/// What an expression may name.
pub struct Scope<'a> {
    pub variables: &'a [u8],
    pub lists: &'a [u8],
    pub states: usize,
    pub top: u32,
}

/// A guard, seldom one over the limits.
pub fn any(dice: &mut Dice, scope: &Scope) -> Vec<u8> {
    loop {
        let depth = dice.between(1, 4);
        let rolled = match dice.below(10) {
            0 => number(dice, scope, depth),
            1..=3 => ageing(dice, scope),
            _ => condition(dice, scope, depth),
        };
        if commands(&rolled) <= 31 || dice.chance(2) {
            return rolled;
        }
    }
}

/// A condition that time or counting turns to 0 for good.
fn ageing(dice: &mut Dice, scope: &Scope) -> Vec<u8> {
    let left = match dice.below(3) {
        0 => count(dice.below(scope.states) as u8),
        _ => leaf(dice, scope),
    };
    let right = match dice.below(3) {
        0 => op(ADD, &[leaf(dice, scope), leaf(dice, scope)]),
        _ => leaf(dice, scope),
    };
    let late = match dice.below(4) {
        0 => op(NOT, &[op(AT_MOST, &[right, left])]),
        1 => op(SUB, &[right, left]),
        _ => op(dice.pick(&[LESS, AT_MOST]), &[left, right]),
    };
    match dice.below(5) {
        0 => op(IF, &[leaf(dice, scope), late.clone(), late]),
        1 => op(AND, &[condition(dice, scope, 1), late]),
        _ => late,
    }
}

fn condition(dice: &mut Dice, scope: &Scope, depth: usize) -> Vec<u8> {
    let deeper = depth.saturating_sub(1);
    match if depth == 0 { 0 } else { dice.below(8) } {
        5 => op(NOT, &[condition(dice, scope, deeper)]),
        6 => {
            let code = dice.pick(&[AND, OR]);
            let first = condition(dice, scope, deeper);
            op(code, &[first, condition(dice, scope, deeper)])
        }
        7 => {
            let when = condition(dice, scope, deeper);
            let first = condition(dice, scope, deeper);
            op(IF, &[when, first, condition(dice, scope, deeper)])
        }
        _ => {
            let code = dice.pick(&[LESS, LESS, AT_MOST, AT_MOST, EQUAL]);
            let first = number(dice, scope, deeper);
            op(code, &[first, number(dice, scope, deeper)])
        }
    }
}

fn number(dice: &mut Dice, scope: &Scope, depth: usize) -> Vec<u8> {
    let deeper = depth.saturating_sub(1);
    match if depth == 0 { 0 } else { dice.below(8) } {
        5 | 6 => {
            let code = dice.pick(&[ADD, SUB]);
            let first = number(dice, scope, deeper);
            op(code, &[first, number(dice, scope, deeper)])
        }
        7 => {
            let when = condition(dice, scope, deeper);
            let first = number(dice, scope, deeper);
            op(IF, &[when, first, number(dice, scope, deeper)])
        }
        _ => leaf(dice, scope),
    }
}

fn leaf(dice: &mut Dice, scope: &Scope) -> Vec<u8> {
    if !scope.lists.is_empty() && dice.chance(35) {
        return of_list(dice, scope.lists);
    }
    match dice.below(6) {
        0..=2 if !scope.variables.is_empty() => var(dice.pick(scope.variables)),
        0 | 3 => count(dice.below(scope.states) as u8),
        4 => constant(dice.below(4) as u32),
        _ if dice.chance(3) => constant(u32::MAX),
        _ => constant(dice.below(scope.top.saturating_add(3) as usize) as u32),
    }
}

/// The sum, the length or the number of different values of one of the lists.
pub fn of_list(dice: &mut Dice, lists: &[u8]) -> Vec<u8> {
    let list = dice.pick(lists);
    match dice.below(7) {
        0..=3 => sum(list),
        4 | 5 => length(list),
        _ => different(list),
    }
}

/// How many commands an expression has.
fn commands(bytes: &[u8]) -> usize {
    let mut at = 0;
    let mut found = 0;
    while at < bytes.len() {
        found += 1;
        at += match bytes[at] {
            0x20 => 5,
            0x21 | 0x22 | 0x2C..=0x2E => 2,
            _ => 1,
        };
    }
    found
}
