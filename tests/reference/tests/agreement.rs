//! The fast search gives what the definitions give, word for word.

use reference::analysis::{analyse, ROW_WORDS};
use reference::formula::Kind;
use reference::machine::Setting;
use reference::random::{case, small, Case};
use reference::refusal::Refusal;
use reference::runs::{literal, threads, Outcome, Run};
use reference::search::{answer, read_both, search};

const LIMIT: usize = 3000;

/// The search's answer with the literal definitions; nothing where a check
/// fails or there are too many runs.
fn literal_answer(case: &Case) -> Option<String> {
    let (log, formula) = read_both(&case.log, &case.formula).ok()?;
    let setting = Setting {
        log: &log,
        formula: &formula,
    };
    if case.start >= log.events() || case.words < 192 {
        return None;
    }
    let seats = (case.words / 192).min(64);
    let outcome = literal::search(&setting, case.start, seats, LIMIT)?;
    Some(format!("{:?}", answer(&setting, &outcome)))
}

fn compare_answers(cases: impl Iterator<Item = Case>) -> usize {
    let mut compared = 0;
    for case in cases {
        if let Some(expected) = literal_answer(&case) {
            let found = search(&case.log, &case.formula, case.start, case.words);
            assert_eq!(format!("{found:?}"), expected, "{case:?}");
            compared += 1;
        }
    }
    compared
}

#[test]
fn searches_agree_on_small_cases() {
    let compared = compare_answers((0..30_000).map(small));
    println!("{compared} small searches compared");
    assert!(compared > 20_000);
}

#[test]
fn searches_agree_on_cases_of_any_kind() {
    let compared = compare_answers((0..6_000).map(case));
    println!("{compared} searches compared");
    assert!(compared > 2_000);
}

/// Every start with every number of seats from 1 to 8.
#[test]
fn searches_agree_on_all_starts_and_seats() {
    let mut crowded = 0;
    let mut wide = 0;
    for seed in 50_000..56_000 {
        let case = small(seed);
        let Ok((log, formula)) = read_both(&case.log, &case.formula) else {
            continue;
        };
        let setting = Setting {
            log: &log,
            formula: &formula,
        };
        for start in 0..log.events() {
            let Some(all) = literal::all(&setting, start, LIMIT) else {
                continue;
            };
            for seats in 1..=8 {
                let found = threads::search(&setting, start, seats);
                assert_eq!(found, all.outcome(&setting, start, seats), "{case:?}");
                match found {
                    Outcome::Crowded(_) => crowded += 1,
                    Outcome::Done { width, .. } => wide += usize::from(width > 3),
                }
            }
        }
    }
    println!("{crowded} crowded, {wide} wider than 3");
    assert!(crowded > 1000 && wide > 1000);
}

/// Dropping must matter often, or the comparison says little about it.
#[test]
fn small_cases_often_have_hopeless_configurations() {
    let mut differ = 0;
    for seed in 0..3000 {
        let case = small(seed);
        let Ok((log, formula)) = read_both(&case.log, &case.formula) else {
            continue;
        };
        let setting = Setting {
            log: &log,
            formula: &formula,
        };
        let all = (!log.rising.is_empty() && log.events() > 0)
            .then(|| literal::all(&setting, 0, LIMIT))
            .flatten();
        let differs = |all: literal::All| {
            (0..log.events()).any(|n| all.alive(&setting, n) != all.waiting(&setting, n))
        };
        differ += usize::from(all.is_some_and(differs));
    }
    println!("{differ} cases with a hopeless configuration");
    assert!(differ > 300);
}

/// Every list of events and every list of step numbers, kept where it replays.
fn by_trying_all(setting: &Setting, start: usize) -> Vec<Run> {
    let mut found = Vec::new();
    let states = setting.formula.states.iter();
    let most = states.map(|state| state.steps.len()).max().unwrap_or(0);
    let mut open: Vec<(Vec<usize>, Vec<usize>)> = vec![(vec![start], Vec::new())];
    while let Some((events, steps)) = open.pop() {
        if steps.len() < events.len() {
            for number in 0..most {
                let mut more = steps.clone();
                more.push(number);
                open.push((events.clone(), more));
            }
            continue;
        }
        for n in events[events.len() - 1] + 1..setting.log.events() {
            let mut more = events.clone();
            more.push(n);
            open.push((more, steps.clone()));
        }
        if let Some(end) = literal::replay(setting, start, &events, &steps) {
            found.push(Run { events, steps, end });
        }
    }
    found
}

#[test]
fn no_run_is_missing_from_the_list_of_all() {
    let mut compared = 0;
    for seed in 80_000..81_500 {
        let case = small(seed);
        let Ok((log, formula)) = read_both(&case.log, &case.formula) else {
            continue;
        };
        if log.events() == 0 || log.events() > 5 {
            continue;
        }
        let setting = Setting {
            log: &log,
            formula: &formula,
        };
        let Some(all) = literal::all(&setting, 0, LIMIT) else {
            continue;
        };
        let mut listed: Vec<Run> = all.ended.into_iter().chain(all.partial).collect();
        let mut tried = by_trying_all(&setting, 0);
        let key = |run: &Run| (run.events.clone(), run.steps.clone());
        listed.sort_by_key(key);
        tried.sort_by_key(key);
        assert_eq!(listed, tried, "{case:?}");
        compared += 1;
    }
    assert!(compared > 500);
}

/// The rows by their definition; the refusal is the crowded start's.
fn literal_rows(case: &Case) -> Option<(Vec<Vec<u32>>, Option<Refusal>)> {
    let (log, formula) = read_both(&case.log, &case.formula).ok()?;
    let setting = Setting {
        log: &log,
        formula: &formula,
    };
    let seats = (case.words / 192).min(64);
    let mut named: Vec<Option<Run>> = Vec::new();
    let mut refusal = None;
    for start in 0..log.events() {
        match literal::search(&setting, start, seats, LIMIT)? {
            Outcome::Crowded(_) => {
                refusal = Some(Refusal::new(3, 11, start));
                break;
            }
            Outcome::Done { run, .. } => named.push(run),
        }
    }
    let rows = (0..named.len()).map(|start| literal_row(&setting, &named, start));
    Some((rows.collect(), refusal))
}

fn literal_row(setting: &Setting, named: &[Option<Run>], start: usize) -> Vec<u32> {
    let Some(run) = &named[start] else {
        return vec![0; 12];
    };
    let covers = |other: &Run| {
        let overlaps = other.events.last() >= Some(&start);
        let mut tied = (0..8).filter(|&v| setting.formula.tied[v]);
        overlaps
            && tied.all(|v| match (other.end.held[v], run.end.held[v]) {
                (Some(earlier), Some(later)) => earlier == later,
                _ => false,
            })
    };
    let verdict = if setting.kind(&run.end) == Kind::Reject {
        3
    } else if named[..start].iter().flatten().any(covers) {
        2
    } else {
        1
    };
    let last = run.events[run.events.len() - 1] as u32;
    let held = run.end.held;
    let mask = (0..8).map(|v| u32::from(held[v].is_some()) << v).sum();
    let mut row = vec![verdict, last, run.events.len() as u32, mask];
    row.extend(held.map(|value| value.unwrap_or(0)));
    row
}

#[test]
fn rows_agree() {
    let mut compared = 0;
    let cases = (0..12_000).map(small).chain((0..3_000).map(case));
    for case in cases.filter(|case| case.words >= 192) {
        let Some((expected, refusal)) = literal_rows(&case) else {
            continue;
        };
        let spare = 5;
        let events = reference::log::Log::read(&case.log).map_or(0, |log| log.events());
        let mut rows = vec![77; ROW_WORDS * events + spare];
        let found = analyse(&case.log, &case.formula, case.words, &mut rows);
        assert_eq!(found.err(), refusal, "{case:?}");
        let written = expected.concat();
        assert_eq!(rows[..written.len()], written[..], "{case:?}");
        assert!(rows[written.len()..].iter().all(|&word| word == 77));
        compared += 1;
    }
    println!("{compared} analyses compared");
    assert!(compared > 8_000);
}
