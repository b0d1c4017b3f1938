//! The stored answers of the program search_cases: this implementation gives
//! the same to each of its cases. A line of them has the names of a log and a
//! formula, the start, the work words and the answer.

use reference::compose::*;
use std::path::PathBuf;
use std::process::Command;

const STORED: &str = include_str!("../../../crates/search_cases/stdout");

/// One step a variable, from a state to itself.
fn binding(own: u8, variables: u8) -> Vec<u8> {
    let bound = |variable| join(&[step(own), bind(0, variable)]);
    let steps: Vec<Vec<u8>> = (0..variables).map(bound).collect();
    join(&[state(0), join(&steps)])
}

/// F's form: a trip, its time bound, then an open; the last state's kind.
fn trip_then_open(kind: u8) -> Vec<u8> {
    let trip = join(&[state(0), step(1), test(1, 0, 1), bind(0, 0)]);
    let open = join(&[state(0), step(2), test(1, 0, 2)]);
    file(&[trip, open, state(kind)])
}

/// A trip at 500, an event with the code or nothing, an open at 520.
fn between(code: Option<u32>) -> Vec<u8> {
    let trip = join(&[event(&[500, 1]), lacking(&[None, code])]);
    let open = lacking(&[Some(520), Some(2)]);
    file(&[field(1), field(0), trip, open])
}

/// A time or none, then none, then the last event.
fn timed(first: Option<u32>, last: Vec<u8>) -> Vec<u8> {
    file(&[field(1), lacking(&[first]), lacking(&[None]), last])
}

/// A trip and an open at 500, a mark between.
fn parted() -> Vec<u8> {
    let (trip, open) = (event(&[500, 1]), event(&[500, 2]));
    file(&[field(1), field(0), trip, mark(), open])
}

/// A trip and an open, two marks, and both again at smaller times.
fn again() -> Vec<u8> {
    let first = join(&[event(&[500, 1]), event(&[510, 2])]);
    let second = join(&[event(&[5, 1]), event(&[9, 2])]);
    file(&[field(1), field(0), first, mark(), mark(), second])
}

/// The time 600, a mark, two events without.
fn reset() -> Vec<u8> {
    let without = join(&[lacking(&[None]), lacking(&[None])]);
    file(&[field(1), lacking(&[Some(600)]), mark(), without])
}

fn log_named(name: &str) -> Vec<u8> {
    let times: [&[u32]; 4] = [&[598], &[599], &[600], &[601]];
    let alike: [&[u32]; 32] = [&[0]; 32];
    match name {
        "L" => log(&[1, 0], &[&[500, 1], &[500, 2]]),
        "exchanged" => log(&[1, 0], &[&[500, 2], &[500, 1]]),
        "three" => log(&[0], &alike[..3]),
        "rising" => log(&[1], &times),
        "plain" => log(&[0], &times),
        "nine" => log(&[0], &[&[0], &[0], &[9]]),
        "many" => log(&[0], &alike),
        "untimed" => between(Some(1)),
        "nothing" => between(None),
        "unseen" => timed(None, lacking(&[None])),
        "late" => timed(Some(600), lacking(&[None])),
        "early" => timed(Some(599), lacking(&[None])),
        "fall" => timed(Some(600), event(&[599])),
        "parted" => parted(),
        "again" => again(),
        "reset" => reset(),
        "empty" => Vec::new(),
        _ => panic!("no log {name}"),
    }
}

/// A bare step, then one with these parts.
fn bare_then(parts: &[Vec<u8>]) -> Vec<u8> {
    let guarded = join(&[state(0), step(2), join(parts)]);
    file(&[state(0), step(1), guarded, state(2)])
}

/// The guard is 0, and names the variable in the branch not taken.
fn choice() -> Vec<u8> {
    let other = op(LESS, &[var(1), constant(600)]);
    let chosen = op(IF, &[constant(1), constant(0), other]);
    bare_then(&[bind(0, 1), guard(chosen)])
}

fn formula_named(name: &str) -> Vec<u8> {
    let both = join(&[state(0), step(1), step(2)]);
    let bare = join(&[state(0), step(1)]);
    let (seven, six) = (binding(1, 7), binding(2, 6));
    let open = join(&[state(0), step(1), test(1, 0, 2), bind(0, 0)]);
    let trip = join(&[state(0), step(2), testv(0, 0, 0), test(1, 0, 1)]);
    let waits = join(&[state(0), step(3), test(0, 0, 1)]);
    let soon = join(&[state(0), step(1), test(0, 2, 600)]);
    let ended = guard(op(EQUAL, &[count(0), constant(32)]));
    let short = guard(op(LESS, &[length(8), constant(1)]));
    match name {
        "F" => trip_then_open(2),
        "rejecting" => trip_then_open(3),
        "G" => file(&[open, trip, state(2)]),
        "bare" => file(&[bare.clone(), bare]),
        "full" => file(&[both, seven, six]),
        "over" => file(&[both, step(3), seven, six, waits]),
        "before" => file(&[both, soon, state(0), step(2)]),
        "repeated" => file(&[bare.clone(), bare, step(2), test(0, 0, 9), state(2)]),
        "counted" => file(&[state(1), step(1), ended, step(0), state(2)]),
        "choice" => choice(),
        "length" => bare_then(&[gather(0, 8), short]),
        "empty" => Vec::new(),
        _ => panic!("no formula {name}"),
    }
}

#[test]
fn the_stored_answers() {
    let room = PathBuf::from(env!("CARGO_TARGET_TMPDIR"));
    let (l, f) = (room.join("stored_log.bin"), room.join("stored_formula.bin"));
    for line in STORED.lines() {
        let parts: Vec<&str> = line.splitn(5, ' ').collect();
        std::fs::write(&l, log_named(parts[0])).expect("a log");
        std::fs::write(&f, formula_named(parts[1])).expect("a formula");
        let mut command = Command::new(env!("CARGO_BIN_EXE_reference"));
        let files = command.arg("search").arg(&l).arg(&f);
        let output = files.args(&parts[2..4]).output().expect("an output");
        let answer = String::from_utf8(output.stdout).expect("text");
        assert_eq!(answer.trim_end(), parts[4], "{line}");
    }
    assert_eq!(STORED.lines().count(), 56);
}
