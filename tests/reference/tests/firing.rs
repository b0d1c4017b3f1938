//! Firing: tests, binds, guards and the value of expressions.

use reference::compose::*;
use reference::search::{search, Answer, Verdict};

/// The search from start 0 with 64 seats.
fn found(log: &[u8], formula: &[u8]) -> Answer {
    search(log, formula, 0, 64 * 192).expect("no refusal")
}

/// Does a step with these parts fire on an event (10, 10, 3)?
fn fires(parts: &[Vec<u8>]) -> bool {
    let log = log(&[1, 0, 0], &[&[10, 10, 3]]);
    let formula = file(&[state(0), step(1), join(parts), state(2)]);
    found(&log, &formula).verdict == Verdict::Accept
}

#[test]
fn operators_have_the_field_on_the_left() {
    for (operator, expected) in [
        (0, [false, true, false]),
        (1, [true, false, true]),
        (2, [true, false, false]),
        (3, [false, false, true]),
        (4, [true, true, false]),
        (5, [false, true, true]),
    ] {
        // The field is 3; compared with 4, 3 and 2.
        for (value, expected) in [4, 3, 2].into_iter().zip(expected) {
            assert_eq!(fires(&[test(2, operator, value)]), expected);
        }
    }
}

#[test]
fn every_test_must_hold() {
    assert!(fires(&[]));
    assert!(fires(&[test(0, 0, 10), test(2, 0, 3)]));
    assert!(!fires(&[test(0, 0, 10), test(2, 0, 4)]));
    assert!(!fires(&[test(2, 0, 4), test(0, 0, 10)]));
}

#[test]
fn binds_of_one_variable_must_agree() {
    assert!(fires(&[bind(0, 5), bind(1, 5)]));
    assert!(!fires(&[bind(0, 5), bind(2, 5)]));
    assert!(!fires(&[bind(2, 5), bind(0, 5)]));
    assert!(fires(&[bind(0, 5), bind(2, 6)]));
}

/// Two events; the first binds variable 0 to its code.
fn second_fires(codes: [u32; 2], parts: &[Vec<u8>]) -> bool {
    let log = log(&[0, 0], &[&[codes[0], 7], &[codes[1], 7]]);
    let formula = file(&[
        join(&[state(0), step(1), bind(0, 0)]),
        join(&[state(0), step(2), join(parts)]),
        state(2),
    ]);
    found(&log, &formula).verdict == Verdict::Accept
}

#[test]
fn a_bind_agrees_with_the_value_held_before() {
    assert!(second_fires([4, 4], &[bind(0, 0)]));
    assert!(!second_fires([4, 5], &[bind(0, 0)]));
    assert!(!second_fires([4, 4], &[bind(1, 0), bind(0, 0)]));
}

#[test]
fn a_testv_reads_the_value_held_before() {
    assert!(second_fires([4, 5], &[testv(0, 3, 0)]));
    assert!(!second_fires([4, 4], &[testv(0, 3, 0)]));
    assert!(second_fires([4, 4], &[testv(1, 1, 0), bind(0, 0)]));
}

#[test]
fn the_guard_reads_values_after_binding() {
    let equal = |variable: u8, value: u32| guard(op(EQUAL, &[var(variable), constant(value)]));
    assert!(fires(&[bind(2, 1), equal(1, 3)]));
    assert!(!fires(&[bind(2, 1), equal(1, 10)]));
    assert!(second_fires([4, 5], &[bind(0, 1), equal(0, 4)]));
    assert!(second_fires([4, 5], &[bind(0, 1), equal(1, 5)]));
}

#[test]
fn the_counter_of_the_state_being_left_is_raised() {
    let counted = |state: u8, value: u32| guard(op(EQUAL, &[count(state), constant(value)]));
    assert!(fires(&[counted(0, 1)]));
    assert!(!fires(&[counted(0, 0)]));
    assert!(fires(&[counted(1, 0)]));
    assert!(!fires(&[counted(1, 1)]));
    assert!(second_fires([0, 0], &[counted(1, 1)]));
    assert!(second_fires([0, 0], &[counted(0, 1)]));
    assert!(second_fires([0, 0], &[counted(2, 0)]));
}

/// Is the expression equal to the value, as a guard sees it?
fn gives(expression: Vec<u8>, value: u32) -> bool {
    fires(&[guard(op(EQUAL, &[expression, constant(value)]))])
}

#[test]
fn values_of_expressions() {
    let two = |code: u8, left: u32, right: u32| op(code, &[constant(left), constant(right)]);
    assert!(gives(two(ADD, 2, 3), 5));
    assert!(gives(two(ADD, 4294967295, 1), 4294967295));
    assert!(gives(two(SUB, 5, 3), 2));
    assert!(gives(two(SUB, 3, 5), 0));
    assert!(gives(two(LESS, 2, 3), 1) && gives(two(LESS, 3, 3), 0));
    assert!(gives(two(AT_MOST, 3, 3), 1) && gives(two(AT_MOST, 4, 3), 0));
    assert!(gives(two(EQUAL, 3, 3), 1) && gives(two(EQUAL, 2, 3), 0));
    assert!(gives(op(NOT, &[constant(0)]), 1) && gives(op(NOT, &[constant(9)]), 0));
    // AND and OR give 0 or 1, not an operand.
    assert!(gives(two(AND, 5, 6), 1) && gives(two(AND, 5, 0), 0));
    assert!(gives(two(OR, 0, 7), 1) && gives(two(OR, 7, 0), 1) && gives(two(OR, 0, 0), 0));
}

#[test]
fn a_choice_gives_the_branch_itself() {
    let choice = |when: u32| op(IF, &[constant(when), constant(8), constant(9)]);
    assert!(gives(choice(2), 8));
    assert!(gives(choice(0), 9));
}

#[test]
fn a_guard_needs_any_value_but_0() {
    assert!(fires(&[guard(constant(1))]));
    assert!(fires(&[guard(constant(4294967295))]));
    assert!(!fires(&[guard(constant(0))]));
}
