//! The stored answers of the program formula_cases: this implementation gives
//! the same to each of its formulas. A line has a refusal, or the number of
//! states and, for every step, state, number and offset.

use reference::compose::*;
use reference::formula::{read, Formula};
use reference::log::Log;

const STORED: &str = include_str!("../../../crates/formula_cases/stdout");

/// What every byte is set to in turn.
const SET_TO: [u8; 5] = [0, 1, 2, 17, 255];

fn line(bytes: &[u8]) -> String {
    let log = Log::read(&log(&[0, 0], &[])).expect("a log");
    match read(bytes, &log) {
        Ok(formula) => format!(
            "accepted {}{}\n",
            formula.states.len(),
            steps(bytes, &formula)
        ),
        Err(refusal) => format!("{refusal}\n"),
    }
}

/// At each offset stands a STEP.
fn steps(bytes: &[u8], formula: &Formula) -> String {
    let mut text = String::new();
    for (s, state) in formula.states.iter().enumerate() {
        for (k, step) in state.steps.iter().enumerate() {
            assert_eq!(bytes[step.place..step.place + 2], [0x11, step.target]);
            text += &format!(" {s}.{k}@{}", step.place);
        }
    }
    text
}

/// All front parts, the whole too.
fn cuts(bytes: &[u8]) -> String {
    (0..=bytes.len()).map(|n| line(&bytes[..n])).collect()
}

/// One byte set.
fn set(bytes: &[u8], at: usize, to: u8) -> String {
    let mut bytes = bytes.to_vec();
    bytes[at] = to;
    line(&bytes)
}

/// Every byte set.
fn sets(bytes: &[u8]) -> String {
    let places = 0..bytes.len();
    let all = places.flat_map(|at| SET_TO.map(|to| (at, to)));
    all.map(|(at, to)| set(bytes, at, to)).collect()
}

fn trip_then_open() -> Vec<u8> {
    let trip = join(&[state(0), step(1), test(1, 0, 1), bind(0, 0)]);
    let open = join(&[state(0), step(2), test(1, 0, 2)]);
    file(&[trip, open, state(2)])
}

fn open_then_trip() -> Vec<u8> {
    let open = join(&[state(0), step(1), test(1, 0, 2), bind(0, 0)]);
    let trip = join(&[state(0), step(2), testv(0, 0, 0), test(1, 0, 1)]);
    file(&[open, trip, state(2)])
}

fn gathering() -> Vec<u8> {
    let gathers = join(&[gather(0, 8), gather(1, 9)]);
    let most = op(ADD, &[length(9), different(8)]);
    let guarded = guard(op(AT_MOST, &[sum(8), most]));
    file(&[state(0), step(1), gathers, guarded, state(2)])
}

fn several_steps() -> Vec<u8> {
    let three = join(&[step(1), step(2), bind(0, 0), step(0)]);
    let two = join(&[step(0), guard(count(0)), step(3)]);
    file(&[tied(3), state(0), three, state(1), state(0), two, state(2)])
}

/// All the steps that there may be.
fn full() -> Vec<u8> {
    let busy = join(&[state(0), step(15).repeat(8)]);
    file(&[busy.repeat(16)])
}

#[test]
fn the_stored_answers() {
    let gathering = gathering();
    let some = [(9, 8), (6, 9), (9, 7), (9, 12), (8, 2), (13, 7), (16, 12)];
    let mut text = String::new();
    text += &(cuts(&trip_then_open()) + &sets(&trip_then_open()));
    text += &(cuts(&open_then_trip()) + &sets(&open_then_trip()));
    text += &cuts(&gathering);
    text += &some.map(|(at, to)| set(&gathering, at, to)).concat();
    text += &(cuts(&several_steps()) + &sets(&several_steps()));
    text += &line(&full());
    for (n, (ours, stored)) in text.lines().zip(STORED.lines()).enumerate() {
        assert_eq!(ours, stored, "line {}", n + 1);
    }
    assert_eq!(text.lines().count(), STORED.lines().count());
}
