//! Cases from a seed: the same seed always makes the same case.

mod absent;
mod damage;
mod dice;
mod expressions;
mod families;
mod formulas;
mod gathering;
mod layout;
mod limits;
mod logs;
mod marked;
mod marks;
mod ties;
mod unarrived;
mod windows;

pub use absent::thin;
pub use dice::Dice;
pub use marks::mark;

use crate::analysis::ROW_WORDS;
use crate::log::Log;
use crate::search::SEAT_WORDS;

/// Everything a search and an analysis are called with.
#[derive(Clone, Debug)]
pub struct Case {
    pub log: Vec<u8>,
    pub formula: Vec<u8>,
    pub start: usize,
    pub words: usize,
    pub row_words: usize,
}

/// Marks are rolled apart, so that the same cases come without them.
const CLOCK: u64 = 0xC10C_0000_0000;

/// So are ties, where a case is of their own family.
const TIES: u64 = 0x71E5_0000_0000;

/// A case of any kind: good, at a limit, crowded, long or damaged; events of
/// some logs lack fields, and in some the clock was set.
pub fn case(seed: u64) -> Case {
    let mut dice = Dice::new(seed);
    let (mut log, mut formula) = match dice.below(32) {
        0..=5 => formulas::pair(&mut dice, false),
        6..=9 => windows::window(&mut dice),
        10..=13 => formulas::pair(&mut dice, true),
        14..=16 => families::long(&mut dice),
        17..=18 => families::crowd(&mut dice),
        19..=21 => families::ends(&mut dice),
        22..=26 => gathering::pair(&mut dice),
        27..=29 => unarrived::pair(&mut dice),
        _ => limits::pair(&mut dice),
    };
    (log, formula) = ties::seldom(seed ^ TIES).unwrap_or((log, formula));
    if dice.chance(30) {
        thin(&mut dice, &mut log);
    }
    let mut clock = Dice::new(seed ^ CLOCK);
    match clock.below(40) {
        0..=4 => (log, formula) = marked::pair(&mut clock),
        5 => (log, formula) = limits::marks(&mut clock),
        6..=13 => mark(&mut clock, &mut log),
        _ => {}
    }
    let events = Log::read(&log).map_or(0, |log| log.events());
    match dice.below(10) {
        0 => damage::spoil(&mut dice, &mut log),
        1 => damage::spoil(&mut dice, &mut formula),
        2 if dice.chance(20) => {
            damage::spoil(&mut dice, &mut log);
            damage::spoil(&mut dice, &mut formula);
        }
        _ => {}
    }
    let mut case = call(&mut dice, log, formula, events);
    case.start = marked::start(&mut clock, &case.log).unwrap_or(case.start);
    case
}

/// A small case that passes its checks nearly always and has few runs.
pub fn small(seed: u64) -> Case {
    let mut dice = Dice::new(seed ^ 0x5EED_0000_0000);
    let (mut log, mut formula) = match dice.below(17) {
        0 => families::ends(&mut dice),
        1 => families::crowd(&mut dice),
        2..=4 => windows::window(&mut dice),
        5..=7 => gathering::pair(&mut dice),
        8..=11 => unarrived::pair(&mut dice),
        _ => formulas::pair(&mut dice, false),
    };
    (log, formula) = ties::seldom(seed ^ TIES ^ 0x5EED).unwrap_or((log, formula));
    if dice.chance(35) {
        thin(&mut dice, &mut log);
    }
    let mut clock = Dice::new(seed ^ CLOCK ^ 0x5EED);
    match clock.below(20) {
        0..=2 => (log, formula) = marked::pair(&mut clock),
        3..=6 => mark(&mut clock, &mut log),
        _ => {}
    }
    let events = Log::read(&log).map_or(0, |log| log.events());
    let mut case = call(&mut dice, log, formula, events);
    case.start = marked::start(&mut clock, &case.log).unwrap_or(case.start);
    case
}

/// Rolls start, work words and row words for a log of so many events.
fn call(dice: &mut Dice, log: Vec<u8>, formula: Vec<u8>, events: usize) -> Case {
    let start = match dice.below(20) {
        0 => events + dice.below(3),
        1..=9 => 0,
        _ => dice.below(events.max(1)),
    };
    let words = match dice.below(20) {
        0 => dice.below(SEAT_WORDS),
        1..=10 => SEAT_WORDS * dice.between(1, 8),
        11..=13 => SEAT_WORDS * dice.between(1, 64) + dice.below(SEAT_WORDS),
        14 => SEAT_WORDS * dice.between(64, 70) + dice.below(SEAT_WORDS),
        _ => SEAT_WORDS * 64,
    };
    let row_words = match dice.below(12) {
        0 => dice.below(ROW_WORDS * events + 1),
        1..=3 => ROW_WORDS * events + dice.below(20),
        _ => ROW_WORDS * events,
    };
    Case {
        log,
        formula,
        start,
        words,
        row_words,
    }
}
