//! Rolled cases whose guards put any command anywhere: numbers under AND, OR,
//! NOT and the condition of IF, truth values under ADD, SUB and EQUAL; half of
//! them gather, in a third events lack fields, and in a fifth the clock was
//! set.

use reference::analysis::ROW_WORDS;
use reference::compose::*;
use reference::formula::MOST_COMMANDS;
use reference::random::{mark, thin, Case, Dice};
use reference::search::SEAT_WORDS;
use std::ops::Range;

const STATES: usize = 5;
/// The lists that steps may gather into.
const LISTS: Range<u8> = 8..12;
const CONSTANTS: [u32; 9] = [0, 0, 1, 1, 2, 3, 5, u32::MAX - 1, u32::MAX];

/// What a guard may name.
struct Scope<'a> {
    variables: &'a [u8],
    lists: bool,
}

pub fn case(seed: u64) -> Case {
    let mut dice = Dice::new(seed ^ 0x6A4D_0000_0000);
    let events = dice.between(3, 7);
    let mut log = log_of(&mut dice, events);
    if dice.chance(33) {
        thin(&mut dice, &mut log);
    }
    // Rolled apart, so that the other cases come as they are.
    let mut clock = Dice::new(seed ^ 0xC10C_6A4D_0000);
    if clock.chance(20) {
        mark(&mut clock, &mut log);
    }
    Case {
        log,
        formula: formula(&mut dice),
        start: dice.below(events),
        words: SEAT_WORDS * dice.between(1, 12),
        row_words: ROW_WORDS * events,
    }
}

/// A rising field, a plain one and another rising one.
fn log_of(dice: &mut Dice, events: usize) -> Vec<u8> {
    let mut parts = vec![field(1), field(0), field(1)];
    let mut time = dice.below(3) as u32;
    let mut large = u32::MAX - 6;
    for _ in 0..events {
        parts.push(event(&[time, dice.pick(&CONSTANTS), large]));
        time += dice.below(3) as u32;
        large = large.saturating_add(dice.below(3) as u32);
    }
    file(&parts)
}

/// Every step of state 0 binds variables 0 and 1; later steps may bind 2 and
/// gather.
fn formula(dice: &mut Dice) -> Vec<u8> {
    let lists = dice.chance(50);
    let mut parts = vec![state(dice.pick(&[0, 1]))];
    parts.push(join(&[step(1), bind(dice.below(3) as u8, 0), bind(1, 1)]));
    for number in 1..3 {
        parts.push(state(dice.pick(&[0, 0, 1])));
        for _ in 0..dice.between(1, 4) {
            parts.push(guarded_step(dice, number, lists));
        }
    }
    parts.push(join(&[state(2), state(3)]));
    file(&parts)
}

fn guarded_step(dice: &mut Dice, number: u8, lists: bool) -> Vec<u8> {
    let target = dice.pick(&[number, 2, 3, 3, 4]);
    let binds = dice.chance(50);
    let variables: &[u8] = if binds { &[0, 1, 2, 2] } else { &[0, 1] };
    let fresh = match binds {
        true => bind(dice.below(3) as u8, 2),
        false => Vec::new(),
    };
    let mut parts = vec![step(target), fresh];
    for list in LISTS.filter(|_| lists) {
        if dice.chance(30) {
            parts.push(gather(dice.below(3) as u8, list));
        }
    }
    let scope = Scope { variables, lists };
    parts.push(guard(rolled(dice, &scope)));
    join(&parts)
}

/// An expression within the limit of commands, often compared with a number
/// so that its value shows.
fn rolled(dice: &mut Dice, scope: &Scope) -> Vec<u8> {
    loop {
        let mut commands = 0;
        let depth = dice.between(2, 7);
        let inner = expression(dice, scope, depth, &mut commands);
        if commands + 2 <= MOST_COMMANDS {
            let number = constant(dice.pick(&CONSTANTS));
            return match dice.below(6) {
                0 | 1 => inner,
                2 => op(LESS, &[inner, number]),
                3 => op(AT_MOST, &[number, inner]),
                _ => op(EQUAL, &[inner, number]),
            };
        }
    }
}

/// An expression at most so deep; `commands` counts its commands.
fn expression(dice: &mut Dice, scope: &Scope, depth: usize, commands: &mut usize) -> Vec<u8> {
    *commands += 1;
    if depth == 1 || dice.chance(15) {
        return leaf(dice, scope);
    }
    let code = dice.pick(&[ADD, SUB, LESS, AT_MOST, EQUAL, NOT, AND, OR, OR, IF]);
    let operands = match code {
        NOT => 1,
        IF => 3,
        _ => 2,
    };
    let parts: Vec<Vec<u8>> = (0..operands)
        .map(|_| expression(dice, scope, depth - 1, commands))
        .collect();
    op(code, &parts)
}

fn leaf(dice: &mut Dice, scope: &Scope) -> Vec<u8> {
    let list = dice.between(LISTS.start.into(), LISTS.end as usize - 1) as u8;
    match dice.below(if scope.lists { 6 } else { 3 }) {
        0 => var(dice.pick(scope.variables)),
        1 => count(dice.below(STATES) as u8),
        3 => sum(list),
        4 => length(list),
        5 => different(list),
        _ => constant(dice.pick(&CONSTANTS)),
    }
}
