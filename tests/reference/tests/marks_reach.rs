//! Rolled cases meet marks where they count: in reading, in runs, in waiting
//! and in hopeless steps.

use reference::log::Log;
use reference::machine::Setting;
use reference::random::{case, small, Case};
use reference::reach::marks::{met, read, MET, NAMES, OF_LOGS, READ};
use reference::refusal::Refusal;
use reference::runs::{threads, Outcome};
use reference::search::read_both;

const LIMIT: usize = 3000;

#[test]
fn marks_count_in_searches() {
    let mut times = [0; MET];
    for case in (0..4000).map(small) {
        let Ok((log, formula)) = read_both(&case.log, &case.formula) else {
            continue;
        };
        let setting = Setting {
            log: &log,
            formula: &formula,
        };
        if log.marks > 0 && case.start < log.events() {
            let shows = met(&setting, case.start, LIMIT).unwrap_or_default();
            let tallied = times.iter_mut().zip(shows);
            tallied.for_each(|(times, shows)| *times += usize::from(shows));
        }
    }
    for (times, name) in times.iter().zip(NAMES) {
        println!("{times:6} {name}");
    }
    assert!(times.iter().all(|&times| times >= 20), "{times:?}");
}

#[test]
fn marks_stand_in_accepted_and_refused_logs() {
    let mut times = [0; READ];
    for seed in 0..6000 {
        let tallied = times.iter_mut().zip(read(&case(seed).log));
        tallied.for_each(|(times, shows)| *times += usize::from(shows));
    }
    for (times, name) in times.iter().zip(OF_LOGS) {
        println!("{times:6} {name}");
    }
    assert!(times.iter().all(|&times| times >= 10), "{times:?}");
}

/// The events of one stretch, as a log of its own.
fn alone(log: &Log, n: usize) -> Log {
    let around = log.around(n);
    Log {
        rising: log.rising.clone(),
        recorded: log.recorded[around.clone()].to_vec(),
        stretch: vec![0; around.len()],
        marks: 0,
    }
}

/// The outcome with event numbers that much higher.
fn moved(mut outcome: Outcome, first: usize) -> Outcome {
    match &mut outcome {
        Outcome::Crowded(n) => *n += first,
        Outcome::Done { run: Some(run), .. } => run.events.iter_mut().for_each(|n| *n += first),
        Outcome::Done { run: None, .. } => {}
    }
    outcome
}

/// Searches from every start of a marked log answer as on the start's stretch
/// alone.
fn compare(case: &Case) -> Result<usize, Refusal> {
    let (log, formula) = read_both(&case.log, &case.formula)?;
    let formula = &formula;
    let mut compared = 0;
    for start in (0..log.events()).filter(|_| log.marks > 0) {
        let part = alone(&log, start);
        let first = log.around(start).start;
        for seats in [1, 3, 64] {
            let whole = threads::search(&Setting { log: &log, formula }, start, seats);
            let parted = threads::search(
                &Setting {
                    log: &part,
                    formula,
                },
                start - first,
                seats,
            );
            assert_eq!(whole, moved(parted, first), "{case:?}");
            compared += 1;
        }
    }
    Ok(compared)
}

#[test]
fn a_stretch_is_searched_as_a_log_of_its_own() {
    let cases = (0..4000).map(small).chain((0..2000).map(case));
    let compared: usize = cases.map(|case| compare(&case).unwrap_or(0)).sum();
    println!("{compared} searches compared");
    assert!(compared > 10_000);
}
