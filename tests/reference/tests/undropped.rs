//! Longer logs, against a search that drops nothing: it keeps every
//! configuration with its arrival, up to the next mark, and counts the waiting
//! ones by definition.

use reference::formula::Kind;
use reference::machine::{Config, Setting};
use reference::random::{case, Case};
use reference::runs::{threads, Outcome, Run};
use reference::search::read_both;
use std::collections::{BTreeMap, BTreeSet};

const LIMIT: usize = 4000;

type Trail = (Vec<usize>, Vec<usize>);
type Kept = BTreeMap<(Config, usize), Trail>;

/// The configurations one event on, and the least run that ends there.
fn advance(setting: &Setting, kept: &Kept, n: usize) -> (Kept, Option<Run>) {
    let mut next = Kept::new();
    let mut least: Option<(Trail, Config)> = None;
    for ((config, arrival), trail) in kept {
        let mut stays = true;
        for (number, step) in setting.state(config).steps.iter().enumerate() {
            let Some(end) = setting.fire(config, step, n) else {
                continue;
            };
            let mut longer = trail.clone();
            longer.0.push(n);
            longer.1.push(number);
            if setting.kind(&end).ends() {
                if least.as_ref().is_none_or(|known| longer < known.0) {
                    least = Some((longer, end));
                }
            } else if longer.0.len() < 32 {
                keep(&mut next, (end, n), longer);
            }
            if setting.kind(config) == Kind::Committed {
                stays = false;
                break;
            }
        }
        if stays {
            keep(&mut next, (config.clone(), *arrival), trail.clone());
        }
    }
    let run = least.map(|((events, steps), end)| Run { events, steps, end });
    (next, run)
}

fn keep(kept: &mut Kept, key: (Config, usize), trail: Trail) {
    let known = kept.entry(key).or_insert_with(|| trail.clone());
    if trail < *known {
        *known = trail;
    }
}

fn search(setting: &Setting, start: usize, seats: usize) -> Option<Outcome> {
    let mut kept = Kept::new();
    kept.insert((Config::START, 0), (Vec::new(), Vec::new()));
    let mut width = 0;
    for n in start..setting.log.events() {
        if !setting.log.one_stretch(start, n) {
            kept.clear();
        }
        let (mut next, run) = advance(setting, &kept, n);
        next.retain(|_, trail| !trail.0.is_empty());
        if run.is_some() {
            return Some(Outcome::Done { run, width });
        }
        let configs = next.keys().map(|(config, _)| config.clone());
        let waiting: BTreeSet<Config> = configs.filter(|c| setting.hopeful(c, n)).collect();
        if waiting.len() > seats {
            return Some(Outcome::Crowded(n));
        }
        width = width.max(waiting.len());
        if next.len() > LIMIT {
            return None;
        }
        kept = next;
    }
    Some(Outcome::Done { run: None, width })
}

fn compare(case: &Case) -> usize {
    let Ok((log, formula)) = read_both(&case.log, &case.formula) else {
        return 0;
    };
    let setting = Setting {
        log: &log,
        formula: &formula,
    };
    let mut compared = 0;
    for start in (0..log.events()).step_by(5) {
        for seats in [1, 2, 4, 8, 64] {
            if let Some(expected) = search(&setting, start, seats) {
                let found = threads::search(&setting, start, seats);
                assert_eq!(found, expected, "{case:?}");
                compared += 1;
            }
        }
    }
    compared
}

#[test]
fn dropping_changes_no_answer() {
    let compared: usize = (0..3000).map(|seed| compare(&case(seed))).sum();
    println!("{compared} searches compared");
    assert!(compared > 10_000);
}
