//! The examples from the bench, M1 to M13, the cases of ties that a run lacks,
//! and the executed case.

use reference::analysis::analyse;
use reference::compose::*;
use reference::formula;
use reference::log::Log;
use reference::machine::{value, Config, Setting};
use reference::program::text;
use reference::search::{search, Answer, Verdict};

const L: &str = "0101 0100 02000001F400000001 02000001F400000002 00";
const F: &str = "1000 1101 12010000000001 140000 1000 1102 12010000000002 1002 00";
const G: &str = "1000 1101 12010000000002 140000 1000 1102 13000000 12010000000001 1002 00";
/// Trips of two codes, of which the first alone binds the tied time.
const C: &str = "1600 1000 1101 12010000000001 140000 1101 12010000000003 \
                 1000 1102 12010000000002 1002 00";

/// One seat's words, times.
const SEAT: usize = 192;

fn found(log: &[u8], formula: &[u8], start: usize, words: usize) -> Answer {
    search(log, formula, start, words).expect("no refusal")
}

fn refused(log: &[u8], formula: &[u8], start: usize, words: usize) -> (u32, u32, usize) {
    search(log, formula, start, words)
        .expect_err("a refusal")
        .triple()
}

#[test]
fn lengths_of_the_examples() {
    assert_eq!(hex(L).len(), 23);
    assert_eq!(hex(F).len(), 28);
}

#[test]
fn m1_trip_then_open() {
    assert_eq!(text(&hex(L), &hex(F)), "0 alert 1 2 v0=500\n1 none\n");
    let answer = found(&hex(L), &hex(F), 0, SEAT);
    assert_eq!(answer.verdict, Verdict::Accept);
    assert_eq!((answer.count, answer.width), (2, 1));
    assert_eq!(&answer.events[..3], [0, 1, 0]);
    assert_eq!(&answer.steps[..3], [0, 0, 0]);
    assert_eq!((answer.mask, answer.values[0]), (1, 500));
}

#[test]
fn m2_open_then_trip_does_not_occur() {
    assert_eq!(text(&hex(L), &hex(G)), "0 none\n1 none\n");
}

#[test]
fn m3_events_exchanged() {
    let log = hex("0101 0100 02000001F400000002 02000001F400000001 00");
    assert_eq!(text(&log, &hex(G)), "0 alert 1 2 v0=500\n1 none\n");
}

#[test]
fn m4_step_back() {
    let back = hex("0101 0100 02000001F400000001 02000001F300000002 00");
    assert_eq!(refused(&back, &hex(F), 0, SEAT), (1, 6, 13));
    assert_eq!(text(&back, &hex(F)), "refused 1 6 13\n");
    assert!(Log::read(&hex(L)).is_ok());
}

#[test]
fn m5_empty_log() {
    assert_eq!(refused(&[], &hex(F), 0, SEAT), (1, 1, 0));
    assert_eq!(text(&[], &[]), "refused 1 1 0\n");
}

#[test]
fn m6_a_byte_too_many() {
    let longer = join(&[hex(L), vec![0]]);
    assert_eq!(refused(&longer, &hex(F), 0, SEAT), (1, 5, 23));
}

#[test]
fn m7_start_outside() {
    assert_eq!(refused(&hex(L), &hex(F), 2, SEAT), (3, 9, 2));
}

#[test]
fn m8_too_few_words() {
    assert_eq!(refused(&hex(L), &hex(F), 0, 191), (3, 10, 192));
    let mut rows = [7; 24];
    let refusal = analyse(&hex(L), &hex(F), 191, &mut rows).expect_err("short");
    assert_eq!(refusal.triple(), (3, 10, 192));
    assert_eq!(rows, [7; 24]);
}

#[test]
fn m9_unbound() {
    let without = hex(&G.replace("140000 ", ""));
    assert_eq!(refused(&hex(L), &without, 0, SEAT), (2, 8, 15));
}

#[test]
fn m10_absent_target() {
    let far = hex(&F.replace("1101", "1105"));
    assert_eq!(refused(&hex(L), &far, 0, SEAT), (2, 13, 2));
}

/// The value of an expression alone.
fn evaluated(expression: Vec<u8>) -> u32 {
    let log = Log::read(&hex(L)).expect("a log");
    let bytes = file(&[state(0), step(0), guard(expression)]);
    let formula = formula::read(&bytes, &log).expect("a formula");
    let guard = formula.states[0].steps[0].guard.as_ref().expect("a guard");
    value(guard, &Config::START)
}

#[test]
fn m11_sums_and_differences_stop() {
    assert_eq!(
        evaluated(op(ADD, &[constant(4294967295), constant(1)])),
        4294967295
    );
    assert_eq!(evaluated(op(SUB, &[constant(3), constant(5)])), 0);
}

#[test]
fn m12_crowded_and_width() {
    let log = log(&[0], &[&[0], &[0], &[0]]);
    let loops = hex("1000 1101 1000 1101 00");
    assert_eq!(refused(&log, &loops, 0, 2 * SEAT), (3, 11, 2));
    let answer = found(&log, &loops, 0, 3 * SEAT);
    assert_eq!((answer.verdict, answer.width), (Verdict::None, 3));
    let mut rows = [7; 36];
    let refusal = analyse(&log, &loops, 2 * SEAT, &mut rows).expect_err("crowded");
    assert_eq!((refusal.triple(), rows), ((3, 11, 0), [7; 36]));
}

#[test]
fn m13_subsumed_unless_tied() {
    let log = log(&[1, 0], &[&[1, 1], &[2, 1], &[3, 2]]);
    let plain = "0 alert 2 2 v0=1\n1 subsumed 2 2 v0=2\n2 none\n";
    assert_eq!(text(&log, &hex(F)), plain);
    let tied = join(&[hex("1600"), hex(F)]);
    let apart = "0 alert 2 2 v0=1\n1 alert 2 2 v0=2\n2 none\n";
    assert_eq!(text(&log, &tied), apart);
}

/// Two trips of these codes at the times 1 and 2, then an open at 3.
fn trips(one: u32, other: u32) -> Vec<u8> {
    log(&[1, 0], &[&[1, one], &[2, other], &[3, 2]])
}

#[test]
fn both_lack_the_tied_value() {
    let bytes = hex("0101 0100 020000000100000003 020000000200000003 020000000300000002 00");
    assert_eq!(trips(3, 3), bytes);
    let apart = "0 alert 2 2\n1 alert 2 2\n2 none\n";
    assert_eq!(text(&bytes, &hex(C)), apart);
}

#[test]
fn one_lacks_the_tied_value() {
    let later = "0 alert 2 2 v0=1\n1 alert 2 2\n2 none\n";
    assert_eq!(text(&trips(1, 3), &hex(C)), later);
    let earlier = "0 alert 2 2\n1 alert 2 2 v0=2\n2 none\n";
    assert_eq!(text(&trips(3, 1), &hex(C)), earlier);
}

#[test]
fn without_ties_overlap_is_enough() {
    let untied = hex(C).split_off(2);
    let one = "0 alert 2 2\n1 subsumed 2 2\n2 none\n";
    assert_eq!(text(&trips(3, 3), &untied), one);
}

#[test]
fn executed_less_than_600() {
    let bytes = log(&[1], &[&[599], &[600]]);
    let log = Log::read(&bytes).expect("a log");
    let bytes = file(&[state(0), step(0), test(0, 2, 600)]);
    let formula = formula::read(&bytes, &log).expect("a formula");
    let setting = Setting {
        log: &log,
        formula: &formula,
    };
    let step = &formula.states[0].steps[0];
    assert!(!setting.hopeless(&Config::START, step, 0));
    assert!(setting.hopeless(&Config::START, step, 1));
}
