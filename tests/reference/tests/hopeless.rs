//! Hopeless steps, rising and falling.

use reference::compose::*;
use reference::formula;
use reference::log::Log;
use reference::machine::{trend, Config, Setting, Trend, Trends};

/// Times rise, codes do not.
fn events(list: &[(u32, u32)]) -> Vec<u8> {
    let pairs: Vec<[u32; 2]> = list.iter().map(|&(time, code)| [time, code]).collect();
    let slices: Vec<&[u32]> = pairs.iter().map(|pair| &pair[..]).collect();
    log(&[1, 0], &slices)
}

/// After which of the events is the step hopeless, from state 1 with variable
/// 0 held as given?
fn hopeless(list: &[(u32, u32)], held: Option<u32>, parts: &[Vec<u8>]) -> Vec<bool> {
    let log = Log::read(&events(list)).expect("a log");
    // State 1 is reached with variable 0 bound, so its step may name it.
    let bytes = file(&[
        state(0),
        step(1),
        bind(0, 0),
        state(0),
        step(1),
        join(parts),
    ]);
    let formula = formula::read(&bytes, &log).expect("a formula");
    let setting = Setting {
        log: &log,
        formula: &formula,
    };
    let mut config = Config::START;
    config.state = 1;
    config.held[0] = held;
    let step = &formula.states[1].steps[0];
    (0..log.events())
        .map(|n| setting.hopeless(&config, step, n))
        .collect()
}

const THREE: [(u32, u32); 3] = [(4, 9), (5, 1), (6, 5)];

#[test]
fn upper_tests_on_a_rising_field() {
    let after = |parts: &[Vec<u8>]| hopeless(&THREE, Some(5), parts);
    assert_eq!(after(&[test(0, 2, 5)]), [false, true, true]);
    assert_eq!(after(&[test(0, 4, 5)]), [false, false, true]);
    assert_eq!(after(&[testv(0, 2, 0)]), [false, true, true]);
    assert_eq!(after(&[testv(0, 4, 0)]), [false, false, true]);
    assert_eq!(after(&[test(1, 0, 7), test(0, 2, 5)]), [false, true, true]);
}

#[test]
fn no_other_test_is_hopeless() {
    let after = |parts: &[Vec<u8>]| hopeless(&THREE, Some(5), parts);
    // Equal, passed for good; unequal, greater, at least.
    for operator in [0, 1, 3, 5] {
        assert_eq!(after(&[test(0, operator, 5)]), [false; 3]);
    }
    // A plain field may come down again.
    for operator in 0..6 {
        assert_eq!(after(&[test(1, operator, 5)]), [false; 3]);
        assert_eq!(after(&[testv(1, operator, 0)]), [false; 3]);
    }
    // A BIND that can never agree.
    assert_eq!(after(&[bind(0, 0)]), [false; 3]);
    assert_eq!(after(&[bind(0, 1), bind(1, 1)]), [false; 3]);
}

#[test]
fn a_guard_that_cannot_change_and_is_0() {
    let after = |held: Option<u32>, guarded: Vec<u8>| hopeless(&THREE, held, &[guard(guarded)]);
    assert_eq!(after(Some(5), constant(0)), [true; 3]);
    assert_eq!(after(Some(5), op(LESS, &[var(0), constant(5)])), [true; 3]);
    assert_eq!(after(Some(4), op(LESS, &[var(0), constant(5)])), [false; 3]);
    // Its own counter is already raised: 1, not 0.
    assert_eq!(
        after(Some(5), op(LESS, &[count(1), constant(1)])),
        [true; 3]
    );
    assert_eq!(
        after(Some(5), op(LESS, &[count(0), constant(1)])),
        [false; 3]
    );
    assert_eq!(
        after(Some(5), op(EQUAL, &[count(1), constant(1)])),
        [false; 3]
    );
}

#[test]
fn a_falling_guard_over_a_bound_variable() {
    let late = || guard(op(LESS, &[var(1), constant(5)]));
    let after = |parts: &[Vec<u8>]| hopeless(&THREE, Some(5), parts);
    assert_eq!(after(&[bind(0, 1), late()]), [false, true, true]);
    // Of a plain field: neither, so never.
    assert_eq!(after(&[bind(1, 1), late()]), [false; 3]);
    // Rising, not falling: never.
    let early = guard(op(LESS, &[constant(5), var(1)]));
    assert_eq!(after(&[bind(0, 1), early]), [false; 3]);
}

#[test]
fn only_the_first_bind_of_a_free_variable_counts() {
    let late = || guard(op(LESS, &[var(1), constant(5)]));
    let after = |parts: &[Vec<u8>]| hopeless(&THREE, Some(5), parts);
    assert_eq!(
        after(&[bind(0, 1), bind(1, 1), late()]),
        [false, true, true]
    );
    assert_eq!(after(&[bind(1, 1), bind(0, 1), late()]), [false; 3]);
}

#[test]
fn a_held_variable_keeps_its_value_where_it_is_bound_again() {
    let late = || guard(op(LESS, &[var(0), constant(5)]));
    assert_eq!(hopeless(&THREE, Some(4), &[bind(0, 0), late()]), [false; 3]);
    assert_eq!(hopeless(&THREE, Some(7), &[bind(0, 0), late()]), [true; 3]);
    // Also of a plain field: it is both, for it is held.
    assert_eq!(hopeless(&THREE, Some(7), &[bind(1, 0), late()]), [true; 3]);
}

/// The trend of an expression where variable 0 is held, 1 rises and 2 is free.
fn trend_of(expression: Vec<u8>) -> Trend {
    let log = Log::read(&events(&[])).expect("a log");
    let binds = join(&[bind(0, 0), bind(0, 1), bind(1, 2)]);
    let bytes = file(&[state(0), step(0), binds, guard(expression)]);
    let formula = formula::read(&bytes, &log).expect("a formula");
    let guard = formula.states[0].steps[0].guard.as_ref().expect("a guard");
    let mut variables = [Trend::NEITHER; 8];
    variables[0] = Trend::BOTH;
    variables[1] = Trend::RISING;
    let trends = Trends {
        variables,
        sums: [Trend::BOTH; 4],
        different: [Trend::BOTH; 4],
    };
    trend(guard, &trends)
}

/// Expressions of each trend: both, rising, falling, neither.
fn samples() -> [(Vec<u8>, Trend); 4] {
    [
        (var(0), Trend::BOTH),
        (var(1), Trend::RISING),
        (op(NOT, &[var(1)]), Trend::FALLING),
        (var(2), Trend::NEITHER),
    ]
}

#[test]
fn trends_of_two_operands() {
    for (left, l) in samples() {
        for (right, r) in samples() {
            let of = |code: u8| trend_of(op(code, &[left.clone(), right.clone()]));
            let kept = (l.rising && r.rising, l.falling && r.falling);
            let against = (l.rising && r.falling, l.falling && r.rising);
            for code in [ADD, AND, OR] {
                assert_eq!((of(code).rising, of(code).falling), kept);
            }
            assert_eq!((of(SUB).rising, of(SUB).falling), against);
            for code in [LESS, AT_MOST] {
                let swapped = (of(code).falling, of(code).rising);
                assert_eq!(swapped, against);
            }
            let both = l == Trend::BOTH && r == Trend::BOTH;
            assert_eq!((of(EQUAL).rising, of(EQUAL).falling), (both, both));
        }
    }
}

#[test]
fn trends_of_leaves_choices_and_not() {
    assert_eq!(trend_of(constant(3)), Trend::BOTH);
    assert_eq!(trend_of(count(0)), Trend::BOTH);
    for (inner, of) in samples() {
        let turned = trend_of(join(&[vec![NOT], inner.clone()]));
        assert_eq!((turned.rising, turned.falling), (of.falling, of.rising));
        let choice = |when: Vec<u8>| trend_of(op(IF, &[when, inner.clone(), constant(1)]));
        assert_eq!(choice(var(0)), of);
        assert_eq!(choice(constant(0)), of);
        // The condition must be both, even where the branches agree.
        for when in [var(1), var(2), op(NOT, &[var(1)])] {
            assert_eq!(choice(when), Trend::NEITHER);
        }
    }
    let mixed = op(IF, &[count(0), var(1), op(NOT, &[var(1)])]);
    assert_eq!(trend_of(mixed), Trend::NEITHER);
}
