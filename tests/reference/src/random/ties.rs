//! Cases whose rows meet ties: runs that overlap, of which each may hold a tied
//! variable or lack it.

use super::Dice;
use crate::compose::*;
use std::ops::Range;

/// Variables that runs may hold; another is tied at times, which none holds.
const BOUND: usize = 3;
/// On this code every run ends.
const LAST: u32 = 4;

/// A pair in one of twelve seeds.
pub fn seldom(seed: u64) -> Option<(Vec<u8>, Vec<u8>)> {
    let mut dice = Dice::new(seed);
    (dice.below(12) == 0).then(|| (events(&mut dice), formula(&mut dice)))
}

/// A time, a code and two readings of few values, which events may lack. On
/// the last event every run ends that has not ended.
fn events(dice: &mut Dice) -> Vec<u8> {
    let often = dice.pick(&[0, 20, 50]);
    let values = dice.between(1, 2);
    let last = dice.between(4, 10) as u32;
    let mut events = Vec::new();
    for time in 0..=last {
        let mut reading = || (!dice.chance(often)).then(|| dice.below(values) as u32);
        let (one, other) = (reading(), reading());
        let code = match time == last || dice.chance(8) {
            true => LAST,
            false => dice.pick(&[0, 0, 0, 1, 1, 2, 3]),
        };
        events.push([Some(time), Some(code), one, other]);
    }
    let events: Vec<&[Option<u32>]> = events.iter().map(|event| &event[..]).collect();
    log_lacking(&[1, 0, 0, 0], &events)
}

/// Steps of state 0 bind some of the variables; what leaves for state 1 will
/// be accepted, what leaves for state 2 rejected.
fn formula(dice: &mut Dice) -> Vec<u8> {
    let mut parts = Vec::new();
    for _ in 0..dice.pick(&[0, 1, 1, 2, 2, 3]) {
        let variable = match dice.chance(5) {
            true => BOUND,
            false => dice.below(BOUND),
        };
        parts.push(tied(variable as u8));
    }
    parts.push(state(dice.pick(&[0, 1, 1])));
    for code in 0..4 {
        let target = if dice.chance(70) { 1 } else { 2 };
        let first = join(&[step(target), test(1, 0, code)]);
        parts.push(join(&[first.clone(), binds(dice, 0..2)]));
        // For an event that lacks a reading.
        if dice.chance(60) {
            parts.push(first);
        }
    }
    for target in [3, 4] {
        let ends = join(&[step(target), test(1, 0, LAST)]);
        let binds = binds(dice, 2..BOUND);
        parts.push(join(&[state(dice.pick(&[0, 1])), ends.clone(), binds]));
        parts.push(ends);
    }
    parts.push(join(&[state(2), state(3)]));
    file(&parts)
}

/// BINDs of a reading to some of the variables.
fn binds(dice: &mut Dice, variables: Range<usize>) -> Vec<u8> {
    let mut parts = Vec::new();
    for variable in variables {
        if dice.chance(75) {
            parts.push(bind(dice.between(2, 3) as u8, variable as u8));
        }
    }
    join(&parts)
}
