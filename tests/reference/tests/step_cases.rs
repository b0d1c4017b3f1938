//! The stored answers of the program step_cases: this implementation gives the
//! same to each of its cases. A line has whether a step is hopeless after a
//! time or none, whether it fires, or where it stands.

use reference::compose::*;
use reference::formula::{self, Formula};
use reference::log::Log;
use reference::machine::{Config, Setting};

const STORED: &str = include_str!("../../../crates/step_cases/stdout");

/// A name, the time or none, and the answer.
fn line(name: &str, time: Option<u32>, yes: bool) -> String {
    let time = time.map_or("none".to_string(), |time| time.to_string());
    format!("{name} {time} {}\n", word(yes))
}

fn word(yes: bool) -> &'static str {
    match yes {
        true => "yes",
        false => "no",
    }
}

/// Time and code; the time's kind.
fn logged(kind: u8, events: &[&[Option<u32>]]) -> Log {
    Log::read(&log_lacking(&[kind, 0], events)).expect("a log")
}

/// Waiting in state 1, with variable 0 and list 8 so.
fn waiting(held: Option<u32>, list: &[u32]) -> Config {
    let mut config = Config::START;
    config.state = 1;
    config.held[0] = held;
    list.iter().for_each(|&value| config.lists.add(0, value));
    config
}

/// A formula whose state 1, where variable 0 may be named, has a step with
/// these parts.
fn with(parts: &[Vec<u8>], log: &Log) -> Formula {
    let first = join(&[state(0), step(1), bind(1, 0)]);
    let bytes = file(&[first, state(0), step(1), join(parts)]);
    formula::read(&bytes, log).expect("a formula")
}

/// Hopeless after an event with the time or none, and after one more without.
fn expired(kind: u8, config: &Config, time: Option<u32>, parts: &[Vec<u8>]) -> bool {
    let log = logged(kind, &[&[time, Some(1)], &[None, Some(1)]]);
    let formula = &with(parts, &log);
    let setting = Setting { log: &log, formula };
    let step = &formula.states[1].steps[0];
    let there = setting.hopeless(config, step, 0);
    assert_eq!(there, setting.hopeless(config, step, 1));
    there
}

/// After the time in a rising field, and after none.
fn both(name: &str, config: &Config, time: u32, parts: &[Vec<u8>]) -> String {
    let name = format!("{name} expired after");
    let after = |time| line(&name, time, expired(1, config, time, parts));
    after(Some(time)) + &after(None)
}

/// A guard that bounds an expression.
fn below(expression: Vec<u8>, bound: u32) -> Vec<u8> {
    guard(op(LESS, &[expression, constant(bound)]))
}

fn bounds() -> String {
    let (free, one) = (waiting(None, &[]), waiting(None, &[100]));
    let before = [test(0, 2, 600)];
    let summed = [gather(0, 8), below(sum(8), 600)];
    let test = |(kind, time)| {
        let yes = expired(kind, &free, Some(time), &before);
        line("expired after", Some(time), yes)
    };
    let sum = |(kind, time)| {
        let yes = expired(kind, &one, Some(time), &summed);
        line("sum expired after", Some(time), yes)
    };
    let tests = [(1, 599), (1, 600), (1, 601), (0, 601)].map(test).concat();
    tests + &[(1, 499), (1, 500), (0, 500)].map(sum).concat()
}

fn tests() -> String {
    let (free, held) = (waiting(None, &[]), |value| waiting(Some(value), &[]));
    let none = expired(1, &free, None, &[test(0, 2, 600)]);
    let variable = [testv(0, 2, 0)];
    [
        line("expired after", None, none),
        both("less 0", &free, 0, &[test(0, 2, 0)]),
        both("less held 600", &held(600), 600, &variable),
        both("less held 0", &held(0), 0, &variable),
    ]
    .concat()
}

fn lists() -> String {
    let one = waiting(None, &[100]);
    let case =
        |name: &str, time: u32, bounded: Vec<u8>| both(name, &one, time, &[gather(0, 8), bounded]);
    [
        case("sum", 500, below(sum(8), 600)),
        case("sum 100", 0, below(sum(8), 100)),
        case("sum of 9", 0, below(sum(9), 0)),
        case("length 2", 499, below(length(8), 2)),
        case("length 3", 499, below(length(8), 3)),
    ]
    .concat()
}

fn variables() -> String {
    let case = |name: &str, held: Option<u32>, time: u32, guarded: Vec<u8>| {
        both(name, &waiting(held, &[]), time, &[bind(0, 0), guarded])
    };
    let named = op(LESS, &[var(0), constant(600)]);
    let choice = guard(op(IF, &[constant(1), constant(0), named]));
    let twice = join(&[bind(1, 0), below(var(0), 600)]);
    [
        case("variable", None, 600, below(var(0), 600)),
        case("variable below 0", None, 0, below(var(0), 0)),
        case("held 600", Some(600), 0, below(var(0), 600)),
        case("held 599", Some(599), 600, below(var(0), 600)),
        case("unnamed", None, 0, guard(constant(0))),
        case("branch", None, 599, choice),
        case("bound twice", None, 600, twice),
    ]
    .concat()
}

/// F's step out of a state, on an event.
fn fires_at(at: usize, state_now: u8, held: bool, values: [u32; 2]) -> String {
    let trip = join(&[state(0), step(1), test(1, 0, 1), bind(0, 0)]);
    let open = join(&[state(0), step(2), test(1, 0, 2)]);
    let log = logged(1, &[&values.map(Some)]);
    let formula = &formula::read(&file(&[trip, open, state(2)]), &log).expect("F");
    let setting = Setting { log: &log, formula };
    let mut config = waiting(held.then_some(500), &[]);
    config.state = state_now;
    let step = &formula.states[usize::from(state_now)].steps[0];
    assert_eq!(step.place, at);
    let yes = setting.fire(&config, step, 0).is_some();
    format!("fires at {at} {}\n", word(yes))
}

fn firing() -> String {
    [
        fires_at(2, 0, false, [500, 1]),
        fires_at(2, 0, false, [500, 2]),
        fires_at(2, 0, true, [500, 1]),
        fires_at(2, 0, true, [501, 1]),
        fires_at(16, 1, true, [500, 1]),
        fires_at(16, 1, true, [500, 2]),
    ]
    .concat()
}

/// On an event with the time 0, and on one without.
fn without(name: &str, held: Option<u32>, parts: &[Vec<u8>]) -> String {
    let on = |time: Option<u32>| {
        let log = logged(1, &[&[time, Some(1)]]);
        let formula = &with(parts, &log);
        let setting = Setting { log: &log, formula };
        let fired = setting.fire(&waiting(held, &[]), &formula.states[1].steps[0], 0);
        line(&format!("{name} fires on"), time, fired.is_some())
    };
    on(Some(0)) + &on(None)
}

fn firing_without() -> String {
    [
        without("equal 0", None, &[test(0, 0, 0)]),
        without("unequal 600", None, &[test(0, 1, 600)]),
        without("less 600", None, &[test(0, 2, 600)]),
        without("at most 0", None, &[test(0, 4, 0)]),
        without("at least 0", None, &[test(0, 5, 0)]),
        without("equal held 0", Some(0), &[testv(0, 0, 0)]),
        without("unequal held 600", Some(600), &[testv(0, 1, 0)]),
        without("bind", None, &[bind(0, 0)]),
        without("bind held 0", Some(0), &[bind(0, 0)]),
        without("gather", None, &[gather(0, 8)]),
        without("code", None, &[test(1, 0, 1)]),
        without("bare", None, &[]),
    ]
    .concat()
}

/// Two steps of 12 and 11 bytes, and one in state 1; 0 where there is none.
fn places() -> String {
    let first = join(&[step(1), test(1, 0, 1), bind(0, 0)]);
    let second = join(&[step(1), bind(0, 0), bind(1, 1), bind(1, 2)]);
    let bytes = file(&[state(0), first, second, state(0), step(1)]);
    let formula = formula::read(&bytes, &logged(1, &[])).expect("a formula");
    let place = |(s, k): (usize, usize)| {
        let step = formula.states.get(s).and_then(|state| state.steps.get(k));
        let at = step.map_or(0, |step| step.place);
        format!("step {k} of state {s} at {at}\n")
    };
    [(0, 0), (0, 1), (1, 0), (1, 1), (2, 0)].map(place).concat()
}

#[test]
fn the_stored_answers() {
    let expiry = [bounds(), tests(), lists(), variables()].concat();
    let text = expiry + &firing() + &firing_without() + &places();
    for (n, (ours, stored)) in text.lines().zip(STORED.lines()).enumerate() {
        assert_eq!(ours, stored, "line {}", n + 1);
    }
    assert_eq!(text.lines().count(), STORED.lines().count());
}
