//! Rows: words, subsumption, what is written and what is not.

use reference::analysis::analyse;
use reference::compose::*;
use reference::program::text;

const SEATS: usize = 64 * 192;

/// Times rise, codes do not.
fn events(list: &[(u32, u32)]) -> Vec<u8> {
    let pairs: Vec<[u32; 2]> = list.iter().map(|&(time, code)| [time, code]).collect();
    let slices: Vec<&[u32]> = pairs.iter().map(|pair| &pair[..]).collect();
    log(&[1, 0], &slices)
}

/// The verdict of each row.
fn verdicts(log: &[u8], formula: &[u8]) -> Vec<u32> {
    let mut rows = vec![7; 12 * 64];
    analyse(log, formula, SEATS, &mut rows).expect("no refusal");
    let rows = rows.chunks(12).map(|row| row[0]);
    rows.filter(|&verdict| verdict != 7).collect()
}

/// From code 1 to the next code 2 (accept) or 3 (reject); the code that
/// starts and the time go into variables 0 and 1.
fn watch(ties: &[u8]) -> Vec<u8> {
    let ties: Vec<Vec<u8>> = ties.iter().map(|&variable| tied(variable)).collect();
    file(&[
        join(&ties),
        join(&[state(0), step(1), test(1, 4, 1), bind(1, 0), bind(0, 1)]),
        join(&[state(0), step(2), test(1, 0, 2), step(3), test(1, 0, 3)]),
        state(2),
        state(3),
    ])
}

#[test]
fn the_words_of_a_row() {
    let mut rows = vec![7; 12 * 3 + 2];
    let list = events(&[(5, 0), (6, 4), (6, 2)]);
    analyse(&list, &watch(&[]), SEATS, &mut rows).expect("no refusal");
    assert_eq!(rows[..12], [1, 2, 2, 3, 0, 5, 0, 0, 0, 0, 0, 0]);
    assert_eq!(rows[12..36], [0; 24]);
    assert_eq!(rows[36..], [7, 7]);
}

#[test]
fn an_earlier_run_that_overlaps_subsumes() {
    let list = events(&[(1, 1), (2, 1), (3, 2), (4, 1), (5, 2)]);
    assert_eq!(verdicts(&list, &watch(&[])), [1, 2, 0, 1, 0]);
    // A run that ends on the later start overlaps it.
    let any = file(&[
        join(&[state(0), step(1), test(1, 4, 2)]),
        join(&[state(0), step(2)]),
        state(2),
    ]);
    assert_eq!(
        verdicts(&events(&[(1, 1), (2, 2), (3, 9)]), &any),
        [1, 2, 0]
    );
}

#[test]
fn a_subsumed_run_subsumes_too() {
    // Runs over two events each: 0 to 1, 1 to 2, 2 to 3.
    let any = file(&[state(0), step(1), state(1), step(2), state(2)]);
    let list = events(&[(1, 0), (2, 0), (3, 0), (4, 0)]);
    assert_eq!(verdicts(&list, &any), [1, 2, 2, 0]);
}

#[test]
fn a_rejecting_run_subsumes_and_is_never_subsumed() {
    let list = events(&[(1, 1), (2, 1), (3, 3)]);
    assert_eq!(verdicts(&list, &watch(&[])), [3, 3, 0]);
    // Start 0 rejects on event 2, start 1 accepts there.
    let mixed = file(&[
        join(&[state(0), step(1), test(1, 0, 0), step(2), test(1, 0, 1)]),
        join(&[state(0), step(3), test(1, 0, 9)]),
        join(&[state(0), step(4), test(1, 0, 9)]),
        state(3),
        state(2),
    ]);
    let list = events(&[(1, 0), (2, 1), (3, 9)]);
    assert_eq!(verdicts(&list, &mixed), [3, 2, 0]);
    let list = events(&[(1, 1), (2, 0), (3, 9)]);
    assert_eq!(verdicts(&list, &mixed), [1, 3, 0]);
}

#[test]
fn tied_values_must_be_the_same() {
    let list = events(&[(1, 1), (1, 1), (1, 0), (2, 2)]);
    assert_eq!(verdicts(&list, &watch(&[])), [1, 2, 2, 0]);
    assert_eq!(verdicts(&list, &watch(&[0])), [1, 2, 1, 0]);
    assert_eq!(verdicts(&list, &watch(&[1])), [1, 2, 2, 0]);
    assert_eq!(verdicts(&list, &watch(&[0, 1])), [1, 2, 1, 0]);
    // Any earlier run will do, not only the last one.
    let list = events(&[(1, 1), (1, 0), (1, 1), (2, 2)]);
    assert_eq!(verdicts(&list, &watch(&[0])), [1, 1, 2, 0]);
}

/// From any other code to the next code 2. Code 0 binds variable 3 to it, code
/// 3 variable 4 to the time, code 5 both; 1 and 4 bind nothing, and what starts
/// on 4 rejects.
fn some_hold(ties: &[u8]) -> Vec<u8> {
    let ties: Vec<Vec<u8>> = ties.iter().map(|&variable| tied(variable)).collect();
    let starts = |code: u32, binds: &[Vec<u8>]| join(&[step(1), test(1, 0, code), join(binds)]);
    file(&[
        join(&ties),
        join(&[state(0), starts(0, &[bind(1, 3)]), starts(1, &[])]),
        starts(3, &[bind(0, 4)]),
        starts(5, &[bind(1, 3), bind(0, 4)]),
        join(&[step(2), test(1, 0, 4)]),
        join(&[state(0), step(3), test(1, 0, 2)]),
        join(&[state(0), step(4), test(1, 0, 2)]),
        join(&[state(2), state(3)]),
    ])
}

#[test]
fn held_by_one_only_is_not_the_same() {
    // The value that is held is 0, as that of a variable that is not.
    let list = events(&[(1, 0), (2, 1), (3, 2)]);
    assert_eq!(verdicts(&list, &some_hold(&[3])), [1, 1, 0]);
    let list = events(&[(1, 1), (2, 0), (3, 2)]);
    assert_eq!(verdicts(&list, &some_hold(&[3])), [1, 1, 0]);
    let list = events(&[(1, 0), (2, 0), (3, 2)]);
    assert_eq!(verdicts(&list, &some_hold(&[3])), [1, 2, 0]);
}

#[test]
fn held_by_neither_is_not_the_same() {
    let list = events(&[(1, 1), (2, 1), (3, 2)]);
    assert_eq!(verdicts(&list, &some_hold(&[3])), [1, 1, 0]);
    // Without TIED nothing has to be held.
    assert_eq!(verdicts(&list, &some_hold(&[])), [1, 2, 0]);
    // A variable that no step binds.
    let list = events(&[(1, 1), (1, 1), (1, 0), (2, 2)]);
    assert_eq!(verdicts(&list, &watch(&[5])), [1, 1, 1, 0]);
}

#[test]
fn every_tied_variable_has_to_be_held() {
    // Held by both with one value: variable 3 alone, 4 alone, then both.
    let list = events(&[(1, 0), (1, 0), (2, 2)]);
    assert_eq!(verdicts(&list, &some_hold(&[3])), [1, 2, 0]);
    assert_eq!(verdicts(&list, &some_hold(&[3, 4])), [1, 1, 0]);
    assert_eq!(verdicts(&list, &some_hold(&[4, 3])), [1, 1, 0]);
    let list = events(&[(1, 3), (1, 3), (2, 2)]);
    assert_eq!(verdicts(&list, &some_hold(&[4])), [1, 2, 0]);
    assert_eq!(verdicts(&list, &some_hold(&[3, 4])), [1, 1, 0]);
    let list = events(&[(1, 5), (1, 5), (2, 2)]);
    assert_eq!(verdicts(&list, &some_hold(&[3, 4])), [1, 2, 0]);
    assert_eq!(verdicts(&list, &some_hold(&[3, 4, 7])), [1, 1, 0]);
}

#[test]
fn a_rejecting_run_that_lacks_the_value_does_not_subsume() {
    for later in [0, 1] {
        let list = events(&[(1, 4), (2, later), (3, 2)]);
        assert_eq!(verdicts(&list, &some_hold(&[3])), [3, 1, 0]);
        assert_eq!(verdicts(&list, &some_hold(&[])), [3, 2, 0]);
    }
    // It stays rejected, whatever came before.
    let list = events(&[(1, 1), (2, 4), (3, 2)]);
    assert_eq!(verdicts(&list, &some_hold(&[3])), [1, 3, 0]);
    assert_eq!(verdicts(&list, &some_hold(&[])), [1, 3, 0]);
}

#[test]
fn runs_between_that_lack_the_value_do_not_count() {
    let list = events(&[(1, 0), (2, 1), (3, 0), (4, 1), (5, 2)]);
    assert_eq!(verdicts(&list, &some_hold(&[3])), [1, 1, 2, 1, 0]);
    let list = events(&[(1, 1), (2, 0), (3, 4), (4, 0), (5, 2)]);
    assert_eq!(verdicts(&list, &some_hold(&[3])), [1, 1, 3, 2, 0]);
}

#[test]
fn checks_of_an_analysis() {
    let list = events(&[(1, 1), (2, 2)]);
    let check = |words: usize, lent: usize| {
        let mut rows = vec![7; lent];
        let answer = analyse(&list, &watch(&[]), words, &mut rows);
        let untouched = rows.iter().all(|&word| word == 7);
        (answer.err().map(|refusal| refusal.triple()), untouched)
    };
    assert_eq!(check(191, 23), (Some((3, 10, 192)), true));
    assert_eq!(check(192, 23), (Some((3, 10, 24)), true));
    assert_eq!(check(192, 0), (Some((3, 10, 24)), true));
    assert_eq!(check(192, 24), (None, false));
}

#[test]
fn files_are_checked_before_the_lent_words() {
    let refusal = |log: &[u8], formula: &[u8]| {
        let answer = analyse(log, formula, 0, &mut []);
        answer.expect_err("a refusal").triple()
    };
    assert_eq!(refusal(&[], &[]), (1, 1, 0));
    assert_eq!(refusal(&events(&[(1, 1)]), &[]), (2, 1, 0));
    assert_eq!(refusal(&events(&[(1, 1)]), &watch(&[])), (3, 10, 192));
}

#[test]
fn a_crowded_start_leaves_its_row_and_the_later_ones() {
    // Code 5 ends at once; code 1 loops and crowds.
    let formula = file(&[
        join(&[state(0), step(2), test(1, 0, 5), step(1), test(1, 0, 1)]),
        join(&[state(0), step(1)]),
        state(2),
    ]);
    let list = events(&[(1, 5), (2, 0), (3, 1), (4, 1), (5, 5)]);
    let mut rows = vec![7; 60];
    let refusal = analyse(&list, &formula, 192, &mut rows).expect_err("crowded");
    assert_eq!(refusal.triple(), (3, 11, 2));
    assert_eq!(rows[..12], [1, 0, 1, 0, 0, 0, 0, 0, 0, 0, 0, 0]);
    assert_eq!(rows[12..24], [0; 12]);
    assert_eq!(rows[24..], [7; 36]);
}

#[test]
fn the_program_prints_only_the_refusal_when_crowded() {
    // One configuration more an event: 65 wait after event 64.
    let formula = file(&[
        join(&[state(0), step(1), test(1, 0, 1)]),
        join(&[state(0), step(2), bind(0, 0)]),
        join(&[state(0), step(2), test(1, 0, 9)]),
    ]);
    let mut list = vec![(0, 0), (0, 1)];
    list.extend((1..=64).map(|time| (time, 0)));
    assert_eq!(text(&events(&list), &formula), "refused 3 11 1\n");
    list.pop();
    let lines = text(&events(&list), &formula);
    assert_eq!(lines.lines().count(), 65);
}

#[test]
fn the_lines_of_the_program() {
    let list = events(&[(0, 0), (6, 0), (6, 2), (7, 1), (8, 3)]);
    let expected = "0 alert 2 2 v0=0 v1=0\n1 subsumed 2 2 v0=0 v1=6\n2 none\n\
                    3 rejected 4 2 v0=1 v1=7\n4 none\n";
    assert_eq!(text(&list, &watch(&[])), expected);
    assert_eq!(text(&events(&[]), &watch(&[])), "");
    assert_eq!(text(&events(&[]), &hex("1000")), "refused 2 1 2\n");
}
