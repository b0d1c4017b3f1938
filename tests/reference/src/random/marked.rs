//! Cases whose searches meet marks: runs that would need events on both sides,
//! committed states that would fire behind one, configurations that wait up to
//! one, crowds in one stretch, values from before one.

use super::{unarrived, Dice};
use crate::compose::*;
use crate::log::Log;

pub fn pair(dice: &mut Dice) -> (Vec<u8>, Vec<u8>) {
    match dice.below(8) {
        0..=2 => cut(dice),
        3 | 4 => crowd(dice),
        5 => afresh(dice),
        _ => early(dice),
    }
}

/// Often the first event of a stretch behind a mark, if there is one.
pub fn start(dice: &mut Dice, log: &[u8]) -> Option<usize> {
    let stretch = Log::read(log).map_or(Vec::new(), |log| log.stretch);
    let is_first = |&n: &usize| stretch[n - 1] < stretch[n];
    let firsts: Vec<usize> = (1..stretch.len()).filter(is_first).collect();
    (!firsts.is_empty() && dice.chance(40)).then(|| dice.pick(&firsts))
}

/// So many stretches, parted by one mark, seldom by two; seldom a mark before
/// the first or behind the last.
fn stretches(dice: &mut Dice, mut stretch: impl FnMut(&mut Dice) -> Vec<u8>) -> Vec<u8> {
    let mut parts = Vec::new();
    if dice.chance(10) {
        parts.push(mark());
    }
    for number in 0..dice.between(2, 4) {
        if number > 0 {
            parts.push(vec![0x04; dice.pick(&[1, 1, 1, 1, 2])]);
        }
        parts.push(stretch(dice));
    }
    if dice.chance(10) {
        parts.push(mark());
    }
    join(&parts)
}

/// A time that begins afresh and one of few codes.
fn coded(dice: &mut Dice, events: usize, codes: usize) -> Vec<u8> {
    let mut time = dice.below(4) as u32;
    let mut parts = Vec::new();
    for _ in 0..events {
        parts.push(event(&[time, dice.below(codes) as u32]));
        time += dice.below(3) as u32;
    }
    join(&parts)
}

/// One code, then another, perhaps within a time or with a third between them:
/// each may stand in another stretch.
fn cut(dice: &mut Dice) -> (Vec<u8>, Vec<u8>) {
    let codes = dice.between(2, 4);
    let events = stretches(dice, |dice| {
        let events = dice.between(1, 4);
        coded(dice, events, codes)
    });
    let mut parts = Vec::new();
    if dice.chance(30) {
        parts.push(tied(0));
    }
    let code = |dice: &mut Dice| dice.below(codes) as u32;
    parts.push(join(&[state(dice.below(2) as u8), step(1)]));
    parts.push(join(&[test(1, 0, code(dice)), bind(0, 0)]));
    parts.push(state(dice.below(2) as u8));
    if dice.chance(40) {
        parts.push(join(&[step(1), test(1, 0, code(dice)), gather(0, 8)]));
    }
    parts.push(join(&[step(2), test(1, 0, code(dice))]));
    match dice.below(4) {
        0 => parts.push(test(0, dice.pick(&[2, 4]), dice.between(1, 6) as u32)),
        1 => {
            let since = op(SUB, &[var(1), var(0)]);
            let late = op(AT_MOST, &[since, constant(dice.below(4) as u32)]);
            parts.push(join(&[bind(0, 1), guard(late)]));
        }
        2 => parts.push(testv(0, dice.pick(&[4, 5]), 0)),
        _ => {}
    }
    parts.push(state(dice.pick(&[2, 2, 3])));
    let fields = join(&[field(1), field(0)]);
    (file(&[fields, events]), file(&parts))
}

/// One configuration more an event: how many wait depends on the stretch's
/// length alone. Another code than the stretches' own, seldom there, ends all.
fn crowd(dice: &mut Dice) -> (Vec<u8>, Vec<u8>) {
    let longest = dice.between(2, 9);
    let last = dice.between(3, 12);
    let events = stretches(dice, |dice| {
        let events = dice.between(1, longest) as u32;
        let base = dice.below(3) as u32;
        let code = |n: u32| u32::from(n as usize == last);
        let coded: Vec<Vec<u8>> = (0..events).map(|n| event(&[base + n, code(n)])).collect();
        join(&coded)
    });
    let formula = file(&[
        join(&[state(dice.below(2) as u8), step(1)]),
        join(&[state(0), step(2), bind(0, 0)]),
        join(&[state(dice.below(2) as u8), step(3), test(1, 0, 1)]),
        state(dice.pick(&[2, 3])),
    ]);
    let fields = join(&[field(1), field(0)]);
    (file(&[fields, events]), formula)
}

/// Fields that arrive late or no more in each stretch: what arrived before the
/// mark tells nothing.
fn afresh(dice: &mut Dice) -> (Vec<u8>, Vec<u8>) {
    let events = stretches(dice, |dice| {
        let base = dice.pick(&[0, 0, 4, 8]);
        unarrived::events(dice, base)
    });
    let formula = unarrived::formula(dice);
    (file(&[unarrived::fields(), events]), formula)
}

/// A reading that was large before the mark, is absent right behind it and
/// small where it arrives again; a step waits for a small one.
fn early(dice: &mut Dice) -> (Vec<u8>, Vec<u8>) {
    let mut parts = vec![field(1), field(1)];
    let large = dice.between(3, 7) as u32;
    for time in 0..dice.between(1, 3) as u32 {
        parts.push(event(&[time, large + time]));
    }
    parts.push(vec![0x04; dice.pick(&[1, 1, 2])]);
    let late = dice.between(1, 3) as u32;
    for time in 0..late + dice.below(4) as u32 {
        let reading = (time >= late).then_some(time - late);
        parts.push(lacking(&[Some(time), reading]));
    }
    let most = dice.between(2, 5) as u32;
    let few = |what: Vec<u8>| guard(op(LESS, &[what, constant(most)]));
    let waits = match dice.below(4) {
        0 => join(&[bind(1, 1), few(var(1))]),
        1 => join(&[gather(1, 8), few(sum(8))]),
        _ => test(1, dice.pick(&[2, 4]), most),
    };
    let formula = file(&[
        join(&[state(dice.below(2) as u8), step(1)]),
        join(&[state(dice.below(2) as u8), step(2), waits]),
        state(dice.pick(&[2, 3])),
    ]);
    (file(&parts), formula)
}
