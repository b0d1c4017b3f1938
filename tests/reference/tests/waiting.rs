//! Waiting configurations, width, crowded, seats.

use reference::compose::*;
use reference::search::{search, Answer, Verdict};

const SEAT: usize = 192;

/// Times rise, codes do not.
fn events(list: &[(u32, u32)]) -> Vec<u8> {
    let pairs: Vec<[u32; 2]> = list.iter().map(|&(time, code)| [time, code]).collect();
    let slices: Vec<&[u32]> = pairs.iter().map(|pair| &pair[..]).collect();
    log(&[1, 0], &slices)
}

fn found(log: &[u8], formula: &[u8], seats: usize) -> Answer {
    search(log, formula, 0, seats * SEAT).expect("no refusal")
}

fn crowded(log: &[u8], formula: &[u8], seats: usize) -> (u32, u32, usize) {
    let refusal = search(log, formula, 0, seats * SEAT);
    refusal.expect_err("crowded").triple()
}

/// State 1 with one step of these parts to accept.
fn waits(kind: u8, parts: &[Vec<u8>]) -> Vec<u8> {
    let first = join(&[state(0), step(1), bind(0, 0)]);
    file(&[first, state(kind), step(2), join(parts), state(2)])
}

#[test]
fn a_configuration_may_be_hopeless_on_arrival() {
    let list = events(&[(6, 0), (7, 0)]);
    assert_eq!(found(&list, &waits(0, &[test(0, 2, 6)]), 1).width, 0);
    assert_eq!(
        found(&list, &waits(0, &[test(0, 2, 7), test(1, 0, 9)]), 1).width,
        1
    );
    assert_eq!(found(&list, &waits(0, &[guard(constant(0))]), 1).width, 0);
    assert_eq!(found(&list, &waits(0, &[testv(0, 2, 0)]), 1).width, 0);
}

#[test]
fn a_state_without_steps_does_not_wait() {
    let formula = file(&[state(0), step(1), state(0)]);
    assert_eq!(found(&events(&[(1, 0), (2, 0)]), &formula, 1).width, 0);
}

#[test]
fn some_step_that_is_not_hopeless_is_enough() {
    let list = events(&[(6, 0), (7, 0)]);
    let parts = [test(0, 2, 6), step(2), test(1, 0, 9)];
    assert_eq!(found(&list, &waits(0, &parts), 1).width, 1);
}

#[test]
fn the_event_on_which_a_run_ends_is_not_counted() {
    // On event 1 two threads end or go on; nothing is crowded with one seat.
    let formula = file(&[
        join(&[state(0), step(1)]),
        join(&[state(0), step(1), step(2)]),
        state(2),
    ]);
    let answer = found(&events(&[(1, 0), (2, 0)]), &formula, 1);
    assert_eq!((answer.verdict, answer.width), (Verdict::Accept, 1));
    // A run of one step has no event before its last one.
    let formula = file(&[state(0), step(1), step(2), state(0), step(1), state(2)]);
    let answer = found(&events(&[(1, 0), (2, 0)]), &formula, 1);
    assert_eq!((answer.verdict, answer.width), (Verdict::Accept, 0));
}

#[test]
fn the_last_event_of_the_log_counts() {
    let loops = file(&[state(0), step(1), state(0), step(1)]);
    assert_eq!(crowded(&events(&[(1, 0), (1, 0)]), &loops, 1), (3, 11, 1));
    assert_eq!(found(&events(&[(1, 0), (1, 0)]), &loops, 2).width, 2);
    assert_eq!(found(&events(&[(1, 0)]), &loops, 1).width, 1);
}

#[test]
fn counters_that_no_guard_reads_keep_configurations_apart() {
    // Two ways to state 3 by different states.
    let formula = file(&[
        join(&[state(0), step(1), step(2)]),
        join(&[state(0), step(3)]),
        join(&[state(0), step(3)]),
        join(&[state(0), step(3), test(1, 0, 9)]),
    ]);
    let list = events(&[(1, 0), (2, 0)]);
    // After event 0: states 1 and 2; after event 1: these and 3 twice.
    assert_eq!(found(&list, &formula, 4).width, 4);
    assert_eq!(crowded(&list, &formula, 3), (3, 11, 1));
}

#[test]
fn held_with_value_0_differs_from_not_held() {
    let stuck = join(&[state(0), step(1), test(1, 0, 9)]);
    let formula = file(&[state(0), step(1), bind(1, 3), step(1), stuck]);
    assert_eq!(found(&events(&[(1, 0)]), &formula, 2).width, 2);
    assert_eq!(crowded(&events(&[(1, 0)]), &formula, 1), (3, 11, 0));
}

#[test]
fn equal_configurations_share_a_seat() {
    // Two steps to the same state, and the same state on a later event.
    let stuck = join(&[state(0), step(2), test(1, 0, 9)]);
    let formula = file(&[state(0), step(1), step(1), state(0), step(2), stuck]);
    // After event 0 one waits in state 1; later one in state 2 as well.
    let list = events(&[(1, 0), (2, 0), (3, 0)]);
    assert_eq!(found(&list, &formula, 2).width, 2);
}

#[test]
fn a_committed_configuration_left_and_reached_again() {
    // State 1 is ordinary and reaches committed state 2 on every event, always
    // with the same counters; state 2 leaves on the next code 5.
    let formula = file(&[
        join(&[state(0), step(1)]),
        join(&[state(0), step(2), test(1, 3, 0)]),
        join(&[state(1), step(3), test(1, 0, 5)]),
        join(&[state(0), step(3), test(1, 0, 9)]),
    ]);
    // Event 1 reaches state 2, event 2 leaves it for 3 and reaches it again.
    let list = events(&[(1, 0), (2, 1), (3, 5)]);
    assert_eq!(found(&list, &formula, 3).width, 3);
    assert_eq!(crowded(&list, &formula, 2), (3, 11, 2));
    // With code 6 instead nothing leaves and nothing new comes.
    let list = events(&[(1, 0), (2, 1), (3, 6)]);
    assert_eq!(found(&list, &formula, 2).width, 2);
}

#[test]
fn a_committed_state_waits_until_an_event_fires() {
    let list = events(&[(1, 0), (2, 0), (3, 9)]);
    let formula = waits(1, &[test(1, 0, 9)]);
    let answer = found(&list, &formula, 1);
    assert_eq!((answer.verdict, answer.width), (Verdict::Accept, 1));
    assert_eq!(&answer.events[..2], [0, 2]);
}

#[test]
fn dropping_loses_no_run() {
    // One step is hopeless, the other ends the run.
    let list = events(&[(5, 0), (6, 0), (7, 9)]);
    let parts = [test(0, 2, 6), step(2), test(1, 0, 9)];
    assert_eq!(found(&list, &waits(0, &parts), 1).verdict, Verdict::Accept);
}

#[test]
fn seats_from_words() {
    let loops = file(&[state(0), step(1), state(0), step(1)]);
    let list = events(&[(1, 0), (1, 0), (1, 0)]);
    let with = |words: usize| search(&list, &loops, 0, words).map_err(|r| r.triple());
    assert_eq!(with(0).err(), Some((3, 10, 192)));
    assert_eq!(with(191).err(), Some((3, 10, 192)));
    assert_eq!(with(192).err(), Some((3, 11, 1)));
    assert_eq!(with(2 * 192 - 1).err(), Some((3, 11, 1)));
    assert_eq!(with(2 * 192).err(), Some((3, 11, 2)));
    assert_eq!(with(3 * 192 - 1).err(), Some((3, 11, 2)));
    assert!(with(3 * 192).is_ok());
}

#[test]
fn more_than_64_seats_count_as_64() {
    // Each event binds another value: one configuration more an event.
    let values = (0..70).map(|time| (time, 0)).collect::<Vec<_>>();
    let formula = file(&[
        join(&[state(0), step(1)]),
        join(&[state(0), step(2), bind(0, 0)]),
        join(&[state(0), step(2), test(1, 0, 9)]),
    ]);
    assert_eq!(crowded(&events(&values), &formula, 64), (3, 11, 64));
    assert_eq!(crowded(&events(&values), &formula, 100), (3, 11, 64));
    assert_eq!(found(&events(&values[..64]), &formula, 100).width, 64);
}

#[test]
fn a_search_checks_its_start_before_its_words() {
    let list = events(&[(1, 0)]);
    let formula = file(&[state(0)]);
    let answer = search(&list, &formula, 1, 0).expect_err("a refusal");
    assert_eq!(answer.triple(), (3, 9, 1));
    let answer = search(&events(&[]), &formula, 0, 192).expect_err("a refusal");
    assert_eq!(answer.triple(), (3, 9, 0));
    // The files come first, the log before the formula.
    let answer = search(&[], &[], 1, 0).expect_err("a refusal");
    assert_eq!(answer.triple(), (1, 1, 0));
    let answer = search(&list, &[], 1, 0).expect_err("a refusal");
    assert_eq!(answer.triple(), (2, 1, 0));
}
