//! Cases that stand at a stated count or one over it.

use super::logs::log;
use super::Dice;
use crate::compose::*;

/// A log or a formula at a limit.
pub fn pair(dice: &mut Dice) -> (Vec<u8>, Vec<u8>) {
    let over = usize::from(dice.chance(50));
    let (mut fields, mut events) = (dice.between(1, 8), dice.between(0, 12));
    let mut parts = Vec::new();
    match dice.below(12) {
        0 => fields = 8 + over,
        1 if dice.chance(5) => events = 1024 + over,
        2 => parts = states(16 + over),
        3 => parts = repeated(join(&[step(1)]), 8 + over),
        4 => parts = repeated_parts(dice, 8 + over),
        5 => parts = guarded(nots(7 + over, constant(0))),
        6 => parts = guarded(row_of(31 + over)),
        7 => parts = ties(dice, 8 + over),
        8 => parts = behind_guard(dice, 7 + over),
        9 => parts = interrupted(dice),
        10 => parts = gathered_twice(dice),
        _ => parts = guarded(join(&[constant(1), guard(constant(1))])),
    }
    if parts.is_empty() {
        parts = guarded(constant(1));
    }
    (log(dice, fields, events).bytes, file(&parts))
}

/// As many marks as may be, one less or one over, some of them running, with a
/// formula of two steps.
pub fn marks(dice: &mut Dice) -> (Vec<u8>, Vec<u8>) {
    let mut left = dice.pick(&[63, 64, 64, 65, 65, 66]);
    let mut parts = vec![field(1)];
    while left > 0 {
        let running = dice.pick(&[1, 1, 2, 5, 20]).min(left);
        parts.push(vec![0x04; running]);
        left -= running;
        if left > 0 || dice.chance(50) {
            for time in 0..dice.below(3) as u32 {
                parts.push(event(&[time]));
            }
        }
    }
    let formula = file(&[
        join(&[state(0), step(1)]),
        join(&[state(dice.below(2) as u8), step(2), test(0, 5, 1)]),
        state(dice.pick(&[2, 3])),
    ]);
    (file(&parts), formula)
}

fn states(number: usize) -> Vec<Vec<u8>> {
    let mut parts = vec![state(0), step(15)];
    parts.extend((1..number).map(|_| state(2)));
    parts
}

fn repeated(part: Vec<u8>, times: usize) -> Vec<Vec<u8>> {
    let mut parts = vec![state(0)];
    parts.extend((0..times).map(|_| part.clone()));
    parts.push(state(2));
    parts
}

fn repeated_parts(dice: &mut Dice, times: usize) -> Vec<Vec<u8>> {
    let mut parts = vec![state(0), step(1)];
    for number in 0..times {
        parts.push(match dice.below(3) {
            0 if number < 4 || number + 1 == times => gather(0, 8 + number as u8 % 4),
            1 => bind(0, dice.below(8) as u8),
            _ => test(0, 5, 0),
        });
    }
    parts.push(state(3));
    parts
}

fn guarded(expression: Vec<u8>) -> Vec<Vec<u8>> {
    vec![state(1), step(1), guard(expression), state(2)]
}

fn nots(times: usize, inner: Vec<u8>) -> Vec<u8> {
    (0..times).fold(inner, |inside, _| op(NOT, &[inside]))
}

/// An expression of 31 commands or of 32, five or six deep.
fn row_of(commands: usize) -> Vec<u8> {
    let last = nots(commands - 31, constant(1));
    sum(4, last)
}

/// A full tree of ADDs over sixteen leaves when four levels remain.
fn sum(levels: usize, last: Vec<u8>) -> Vec<u8> {
    match levels {
        0 => last,
        _ => op(ADD, &[sum(levels - 1, constant(1)), sum(levels - 1, last)]),
    }
}

/// So many tests, a guard, and one more behind it.
fn behind_guard(dice: &mut Dice, times: usize) -> Vec<Vec<u8>> {
    let mut parts = repeated_parts(dice, times);
    parts.pop();
    parts.push(guard(constant(1)));
    let variable = dice.below(14) as u8;
    parts.push(match dice.chance(50) {
        true => bind(0, variable),
        false => gather(0, variable),
    });
    parts.push(state(3));
    parts
}

/// A variable gathered a second time, among eight parts or as a ninth, whole
/// or cut, of a field that is there or not.
fn gathered_twice(dice: &mut Dice) -> Vec<Vec<u8>> {
    let others = dice.pick(&[2, 5, 6, 7]);
    let mut parts = repeated_parts(dice, others);
    parts.pop();
    let variable = dice.pick(&[8, 11]);
    parts.insert(2, gather(0, variable));
    parts.retain(|part| part[0] != 0x17 || part[2] == variable);
    let mut again = gather(dice.pick(&[0, 0, 9]), variable);
    let cut = dice.chance(30);
    again.truncate(if cut { dice.between(1, 2) } else { 3 });
    parts.push(again);
    if !cut {
        parts.push(state(3));
    }
    parts
}

/// An expression at its limit of depth or length that some other command
/// breaks off.
fn interrupted(dice: &mut Dice) -> Vec<Vec<u8>> {
    let expression = match dice.chance(50) {
        true => nots(8, Vec::new()),
        false => sum(4, nots(1, Vec::new())),
    };
    let next = dice.pick(&[
        0x00, 0x10, 0x11, 0x12, 0x15, 0x16, 0x17, 0x20, 0x21, 0x28, 0x2C, 0x2F,
    ]);
    let mut parts = guarded(expression);
    parts.insert(3, vec![next]);
    parts
}

fn ties(dice: &mut Dice, times: usize) -> Vec<Vec<u8>> {
    let mut parts: Vec<Vec<u8>> = (0..times).map(|_| tied(dice.below(8) as u8)).collect();
    parts.extend(guarded(constant(1)));
    parts
}
