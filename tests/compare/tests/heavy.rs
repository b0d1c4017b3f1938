//! The heavy cases are legal and as heavy as they say.

use compare::heavy::{pair, Kind};
use reference::analysis::{analyse, ROW_WORDS};
use reference::compose::test;
use reference::search::{read_both, search, MOST_SEATS, SEAT_WORDS};
use reference::tuned;

const EVENTS: usize = 300;
const WORDS: usize = MOST_SEATS * SEAT_WORDS;

#[test]
fn full_size() {
    for kind in Kind::ALL {
        let pair = pair(kind, 1024);
        let (log, formula) = read_both(&pair.log, &pair.formula).expect("accepted");
        assert_eq!((log.rising.len(), log.events()), (8, 1024));
        let marks = if kind == Kind::Clocked { 64 } else { 0 };
        assert_eq!(log.marks, marks);
        assert_eq!(formula.states.len(), 16);
        for state in &formula.states {
            let steps = if state.kind.ends() { 0 } else { 8 };
            assert_eq!(state.steps.len(), steps, "{kind:?}");
        }
    }
}

#[test]
fn seats_nearly_full_and_never_crowded() {
    for kind in Kind::ALL {
        let pair = pair(kind, EVENTS);
        let mut rows = vec![0; ROW_WORDS * EVENTS];
        let answer = analyse(&pair.log, &pair.formula, WORDS, &mut rows);
        assert_eq!(answer, Ok(()), "{kind:?}");
        let found = search(&pair.log, &pair.formula, 5, WORDS).expect("no refusal");
        let least = match kind {
            Kind::Ordinary | Kind::Lacking | Kind::Clocked => 60,
            Kind::Guards | Kind::Ifs | Kind::Tests | Kind::Falling => 60,
            Kind::Committed | Kind::Bounces => 60,
            Kind::Churn => 30,
            Kind::Overlap | Kind::Quiet => 1,
            Kind::Still => 0,
            Kind::Full => 59,
            Kind::Gather => 8,
        };
        assert!(found.width >= least, "{kind:?}: {}", found.width);
    }
}

#[test]
fn all_seats_full() {
    for kind in [Kind::Full, Kind::Gather] {
        let pair = pair(kind, EVENTS);
        let found = search(&pair.log, &pair.formula, 0, WORDS).expect("no refusal");
        assert_eq!(found.width, MOST_SEATS, "{kind:?}");
    }
}

#[test]
fn tuned_rows_agree() {
    for kind in Kind::ALL {
        let pair = pair(kind, 150);
        let (mut plain, mut tuned) = (vec![0; ROW_WORDS * 150], vec![0; ROW_WORDS * 150]);
        let answer = analyse(&pair.log, &pair.formula, WORDS, &mut plain);
        let other = tuned::analyse(&pair.log, &pair.formula, WORDS, &mut tuned);
        assert_eq!((answer, plain), (other, tuned), "{kind:?}");
        for start in [0, 5, 100] {
            let answer = search(&pair.log, &pair.formula, start, WORDS);
            let other = tuned::search(&pair.log, &pair.formula, start, WORDS);
            assert_eq!(answer, other, "{kind:?}");
        }
    }
}

#[test]
fn lists_alike_fill_the_seats() {
    // One thread more than the source starts is one too many, so that all 64
    // wait at the end too.
    let mut pair = pair(Kind::Gather, 60);
    let window = test(0, 2, 37);
    let at = pair
        .formula
        .windows(window.len())
        .position(|part| part == window);
    let last = at.expect("the source's window") + window.len() - 1;
    assert!(search(&pair.log, &pair.formula, 0, WORDS).is_ok());
    pair.formula[last] += 1;
    let refusal = search(&pair.log, &pair.formula, 0, WORDS).expect_err("crowded");
    assert_eq!(refusal.triple(), (3, 11, 37));
}
