//! Runs: the least run, committed states, the limit of 32 steps.

use reference::compose::*;
use reference::search::{search, Answer, Verdict};

fn found(log: &[u8], formula: &[u8]) -> Answer {
    search(log, formula, 0, 64 * 192).expect("no refusal")
}

/// A log of one plain field with these values.
fn codes(values: &[u32]) -> Vec<u8> {
    let events: Vec<[u32; 1]> = values.iter().map(|&value| [value]).collect();
    let events: Vec<&[u32]> = events.iter().map(|event| &event[..]).collect();
    log(&[0], &events)
}

fn taken(answer: &Answer) -> (Vec<usize>, Vec<usize>) {
    let used = answer.count;
    (
        answer.events[..used].to_vec(),
        answer.steps[..used].to_vec(),
    )
}

#[test]
fn more_events_may_come_before_fewer() {
    // From state 1 straight to the end on code 9, or through state 2.
    let formula = file(&[
        join(&[state(0), step(1)]),
        join(&[state(0), step(3), test(0, 0, 9)]),
        join(&[step(2)]),
        join(&[state(0), step(3), test(0, 0, 9)]),
        state(2),
    ]);
    let answer = found(&codes(&[0, 0, 9]), &formula);
    assert_eq!(taken(&answer), (vec![0, 1, 2], vec![0, 1, 0]));
    // With no event between only the short one is there.
    let answer = found(&codes(&[0, 9]), &formula);
    assert_eq!(taken(&answer), (vec![0, 1], vec![0, 0]));
}

#[test]
fn the_last_event_decides_before_all_else() {
    // The lower step ends later.
    let formula = file(&[
        join(&[state(0), step(1), step(2)]),
        join(&[state(0), step(3), test(0, 0, 9)]),
        join(&[state(0), step(3), test(0, 0, 8)]),
        state(2),
    ]);
    let answer = found(&codes(&[0, 8, 9]), &formula);
    assert_eq!(taken(&answer), (vec![0, 1], vec![1, 0]));
}

#[test]
fn step_numbers_decide_last() {
    // Two paths over the same events; the first step number differs.
    let formula = file(&[
        join(&[state(0), step(2), step(1)]),
        join(&[state(0), step(3), step(4)]),
        join(&[state(0), step(5), step(4), step(3)]),
        state(2),
        state(3),
        state(0),
    ]);
    let answer = found(&codes(&[0, 0]), &formula);
    assert_eq!(taken(&answer), (vec![0, 1], vec![0, 1]));
    assert_eq!(answer.verdict, Verdict::Reject);
}

#[test]
fn events_decide_before_step_numbers() {
    // Merging paths: the higher step on the earlier event is the lesser run.
    let formula = file(&[
        join(&[state(0), step(1)]),
        join(&[state(0), step(2), test(0, 0, 5), step(2), test(0, 0, 4)]),
        join(&[state(0), step(3), test(0, 0, 9)]),
        state(2),
    ]);
    let answer = found(&codes(&[0, 4, 5, 9]), &formula);
    assert_eq!(taken(&answer), (vec![0, 1, 3], vec![0, 1, 0]));
    let answer = found(&codes(&[0, 5, 4, 9]), &formula);
    assert_eq!(taken(&answer), (vec![0, 1, 3], vec![0, 0, 0]));
}

#[test]
fn a_later_arrival_may_have_the_lesser_trail() {
    // States 1 and 2 are left once each, in either order, on the way to 3.
    let once = |state: u8| guard(op(NOT, &[count(state)]));
    let formula = file(&[
        join(&[state(0), step(1), step(2)]),
        join(&[
            state(0),
            step(2),
            test(0, 0, 6),
            once(2),
            step(3),
            test(0, 0, 8),
        ]),
        join(&[
            state(0),
            step(1),
            test(0, 0, 5),
            once(1),
            step(3),
            test(0, 0, 7),
        ]),
        join(&[state(0), step(4), test(0, 0, 9)]),
        state(2),
    ]);
    // Through 1 and 2 state 3 is reached on event 3, through 2 and 1 on
    // event 4 with the same counters.
    let answer = found(&codes(&[0, 5, 6, 7, 8, 9]), &formula);
    assert_eq!(taken(&answer), (vec![0, 1, 4, 5], vec![1, 0, 1, 0]));
}

#[test]
fn accept_has_no_preference() {
    let formula = file(&[state(0), step(1), step(2), state(3), state(2)]);
    assert_eq!(found(&codes(&[0]), &formula).verdict, Verdict::Reject);
    let formula = file(&[state(0), step(2), step(1), state(3), state(2)]);
    assert_eq!(found(&codes(&[0]), &formula).verdict, Verdict::Accept);
}

#[test]
fn a_committed_start_takes_the_lowest_step_on_the_start() {
    let formula = file(&[
        join(&[state(1), step(1), test(0, 0, 5), step(2), test(0, 3, 0)]),
        state(2),
        state(3),
    ]);
    assert_eq!(found(&codes(&[5]), &formula).verdict, Verdict::Accept);
    assert_eq!(found(&codes(&[4]), &formula).verdict, Verdict::Reject);
    // None fires on the start: no run, whatever comes.
    let answer = found(&codes(&[0, 5]), &formula);
    assert_eq!((answer.verdict, answer.width), (Verdict::None, 0));
}

#[test]
fn a_start_is_never_passed_over() {
    let formula = file(&[state(0), step(1), test(0, 0, 5), state(2)]);
    assert_eq!(found(&codes(&[0, 5]), &formula).verdict, Verdict::None);
}

#[test]
fn a_committed_state_takes_the_first_firing_event() {
    // Code 5 leads to a dead state, code 9 to the end.
    let formula = |kind: u8| {
        file(&[
            join(&[state(0), step(1)]),
            join(&[state(kind), step(2), test(0, 0, 9), step(3), test(0, 0, 5)]),
            state(2),
            state(0),
        ])
    };
    assert_eq!(
        found(&codes(&[0, 5, 9]), &formula(1)).verdict,
        Verdict::None
    );
    assert_eq!(
        found(&codes(&[0, 5, 9]), &formula(0)).verdict,
        Verdict::Accept
    );
    assert_eq!(
        found(&codes(&[0, 1, 9]), &formula(1)).verdict,
        Verdict::Accept
    );
}

#[test]
fn a_committed_state_takes_the_lowest_step() {
    let formula = file(&[
        join(&[state(0), step(1)]),
        join(&[state(1), step(3), step(2)]),
        state(2),
        state(0),
    ]);
    assert_eq!(found(&codes(&[0, 0, 0]), &formula).verdict, Verdict::None);
}

/// A committed loop of so many rounds and then out: rounds + 1 steps.
fn rounds(number: u32) -> Vec<u8> {
    file(&[
        join(&[state(0), step(1)]),
        join(&[
            state(1),
            step(1),
            guard(op(LESS, &[count(1), constant(number)])),
        ]),
        join(&[step(2)]),
        state(2),
    ])
}

#[test]
fn a_run_may_have_32_steps() {
    let log = codes(&[0; 40]);
    let answer = found(&log, &rounds(31));
    assert_eq!((answer.verdict, answer.count), (Verdict::Accept, 32));
    let events: Vec<usize> = (0..32).collect();
    assert_eq!(answer.events[..], events[..]);
    assert_eq!((answer.steps[30], answer.steps[31]), (0, 1));
}

#[test]
fn nothing_with_32_steps_waits() {
    // The 32nd step leads on, although the next one would end.
    let answer = found(&codes(&[0; 40]), &rounds(32));
    assert_eq!(
        (answer.verdict, answer.count, answer.width),
        (Verdict::None, 0, 1)
    );
}

#[test]
fn with_31_steps_a_committed_state_takes_its_lowest_step_into_nowhere() {
    // The second step would end on the 32nd event; the first one fires too.
    let loops = |first: u8, second: u8| {
        file(&[
            join(&[state(0), step(1)]),
            join(&[
                state(1),
                step(1),
                guard(op(LESS, &[count(1), constant(31)])),
            ]),
            join(&[step(first), step(second)]),
            state(2),
        ])
    };
    assert_eq!(found(&codes(&[0; 40]), &loops(1, 2)).verdict, Verdict::None);
    assert_eq!(
        found(&codes(&[0; 40]), &loops(2, 1)).verdict,
        Verdict::Accept
    );
}

#[test]
fn unused_entries_are_0() {
    let formula = file(&[state(0), step(1), bind(0, 2), state(2)]);
    let answer = found(&codes(&[6, 6]), &formula);
    assert_eq!((answer.count, answer.mask), (1, 4));
    assert_eq!(answer.values, [0, 0, 6, 0, 0, 0, 0, 0]);
    assert_eq!((answer.events, answer.steps), ([0; 32], [0; 32]));
    let none = found(&codes(&[6]), &file(&[state(0)]));
    assert_eq!((none.verdict, none.count, none.mask), (Verdict::None, 0, 0));
}
