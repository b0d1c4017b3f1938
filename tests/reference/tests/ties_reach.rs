//! Rolled cases meet ties where they count in rows, and what is told of a row
//! is what it shows.

use reference::analysis::{analyse, ROW_WORDS};
use reference::compose::*;
use reference::random::{case, small, Case};
use reference::reach::ties::{shown, NAMES, SHOWN};
use reference::search::read_both;

const SEATS: usize = 64 * 192;

/// What the rows of an analysis show; nothing where it is refused.
fn told(log: &[u8], formula: &[u8]) -> Option<[usize; SHOWN]> {
    let (read, tied) = read_both(log, formula).ok()?;
    let mut rows = vec![0; ROW_WORDS * read.events()];
    analyse(log, formula, SEATS, &mut rows).ok()?;
    Some(shown(&tied, &rows))
}

fn tallied(cases: impl Iterator<Item = Case>) -> [usize; SHOWN] {
    let mut times = [0; SHOWN];
    for case in cases {
        let told = told(&case.log, &case.formula).unwrap_or_default();
        let tallied = times.iter_mut().zip(told);
        tallied.for_each(|(times, told)| *times += told);
    }
    for (times, name) in times.iter().zip(NAMES) {
        println!("{times:6} {name}");
    }
    times
}

#[test]
fn ties_count_in_rows() {
    for times in [tallied((0..3000).map(small)), tallied((0..3000).map(case))] {
        assert!(times.iter().all(|&times| times >= 40), "{times:?}");
    }
}

/// Runs from each event to the last. A code's bits say whether the run holds
/// variable 0, holds variable 1 and rejects; a field gives the value of both.
fn shows(ties: &[u8], starts: &[(u32, u32)]) -> Vec<&'static str> {
    let ties: Vec<Vec<u8>> = ties.iter().map(|&variable| tied(variable)).collect();
    let step_of = |code: u32| {
        let binds = (0..2).filter(|&v| code >> v & 1 == 1).map(|v| bind(1, v));
        let binds: Vec<Vec<u8>> = binds.collect();
        let target = if code & 4 == 4 { 2 } else { 1 };
        join(&[step(target), test(0, 0, code), join(&binds)])
    };
    let steps: Vec<Vec<u8>> = (0..8).map(step_of).collect();
    let ends = test(0, 0, 9);
    let formula = file(&[
        join(&[join(&ties), state(0), join(&steps)]),
        join(&[state(0), step(3), ends.clone()]),
        join(&[state(0), step(4), ends]),
        join(&[state(2), state(3)]),
    ]);
    let mut parts = vec![field(0), field(0)];
    parts.extend(starts.iter().map(|&(code, value)| event(&[code, value])));
    parts.push(event(&[9, 0]));
    let told = told(&file(&parts), &formula).expect("rows");
    let names = NAMES.into_iter().zip(told);
    names
        .filter(|(_, times)| *times > 0)
        .map(|(name, times)| {
            assert_eq!(times, 1, "{name}");
            name
        })
        .collect()
}

#[test]
fn each_way_by_itself() {
    let [neither, one_alone, two_values, rejecting, another, tied, untied, past] = NAMES;
    assert_eq!(shows(&[0], &[(0, 7), (0, 7)]), [neither]);
    assert_eq!(shows(&[0], &[(1, 7), (0, 7)]), [one_alone]);
    assert_eq!(shows(&[0], &[(0, 7), (1, 7)]), [one_alone]);
    assert_eq!(shows(&[0], &[(1, 7), (1, 8)]), [two_values]);
    assert_eq!(shows(&[0], &[(4, 7), (0, 7)]), [neither, rejecting]);
    assert_eq!(shows(&[0], &[(4, 7), (1, 7)]), [one_alone, rejecting]);
    assert_eq!(shows(&[0], &[(5, 7), (0, 7)]), [one_alone]);
    assert_eq!(shows(&[0], &[(5, 7), (1, 8)]), [two_values]);
    assert_eq!(shows(&[0, 1], &[(1, 7), (1, 7)]), [neither, another]);
    assert_eq!(shows(&[0, 1], &[(3, 7), (1, 7)]), [one_alone, another]);
    assert_eq!(shows(&[0], &[(1, 7), (1, 7)]), [tied]);
    assert_eq!(shows(&[], &[(0, 7), (0, 7)]), [untied]);
    assert_eq!(shows(&[0], &[(1, 7), (4, 7), (1, 7)]), [tied, past]);
    // Nothing of a rejected run, nor where nothing overlaps.
    assert_eq!(shows(&[0], &[(1, 7), (4, 7)]), [] as [&str; 0]);
    assert_eq!(shows(&[0], &[(0, 7)]), [] as [&str; 0]);
}
