//! Rolled cases meet lists that are hard to tell apart, and equal ones by
//! several trails.

use reference::machine::{Config, Lists, Setting};
use reference::random::small;
use reference::runs::literal::{self, All};
use reference::search::read_both;
use std::collections::BTreeSet;

const LIMIT: usize = 3000;

/// In how many cases two waiting configurations differ in their lists alone,
/// though these agree in some way; and in how many one that has gathered is
/// reached by several trails.
#[derive(Debug, Default)]
struct Tally {
    apart: usize,
    same_sets: usize,
    same_values: usize,
    same_tallies: usize,
    exchanged: usize,
    merged: usize,
}

fn lists(config: &Config) -> Vec<Vec<u32>> {
    (0..4).map(|list| config.lists.of(list).to_vec()).collect()
}

fn sets(config: &Config) -> Vec<BTreeSet<u32>> {
    let set = |list: &Vec<u32>| list.iter().copied().collect();
    lists(config).iter().map(set).collect()
}

fn sorted(config: &Config) -> Vec<Vec<u32>> {
    let mut lists = lists(config);
    lists.iter_mut().for_each(|list| list.sort());
    lists
}

/// All that a guard can see of each list.
fn tallies(config: &Config) -> Vec<(u32, usize, usize)> {
    let sum = |list: &[u32]| {
        list.iter()
            .fold(0, |sum: u32, one| sum.saturating_add(*one))
    };
    let of = lists(config).into_iter().zip(sets(config));
    of.map(|(list, set)| (sum(&list), list.len(), set.len()))
        .collect()
}

/// The lists of all variables in one, sorted.
fn together(config: &Config) -> Vec<u32> {
    let mut all = lists(config).concat();
    all.sort();
    all
}

fn pairs(waiting: &BTreeSet<Config>) -> Vec<(&Config, &Config)> {
    let bare = |config: &Config| (config.state, config.counts, config.held);
    let all: Vec<&Config> = waiting.iter().collect();
    let mut pairs = Vec::new();
    for (at, &one) in all.iter().enumerate() {
        let others = all[at + 1..]
            .iter()
            .filter(|other| bare(other) == bare(one));
        pairs.extend(others.map(|&other| (one, other)));
    }
    pairs
}

fn look(tally: &mut Tally, setting: &Setting, all: &All) {
    let waiting: Vec<BTreeSet<Config>> = (0..setting.log.events())
        .map(|n| all.waiting(setting, n))
        .collect();
    let pairs: Vec<(&Config, &Config)> = waiting.iter().flat_map(pairs).collect();
    let some = |alike: &dyn Fn(&Config, &Config) -> bool| {
        usize::from(pairs.iter().any(|(one, other)| alike(one, other)))
    };
    tally.apart += some(&|_, _| true);
    tally.same_sets += some(&|one, other| sets(one) == sets(other));
    tally.same_values += some(&|one, other| sorted(one) == sorted(other));
    tally.same_tallies += some(&|one, other| tallies(one) == tallies(other));
    tally.exchanged +=
        some(&|one, other| together(one) == together(other) && tallies(one) != tallies(other));
    let mut seen = BTreeSet::new();
    let gathered = |config: &Config| config.lists != Lists::EMPTY;
    let mut ends = all.partial.iter().map(|run| &run.end);
    tally.merged += usize::from(ends.any(|end| gathered(end) && !seen.insert(end.clone())));
}

#[test]
fn rolled_lists_are_often_alike() {
    let mut tally = Tally::default();
    for seed in 0..6000 {
        let case = small(seed);
        let Ok((log, formula)) = read_both(&case.log, &case.formula) else {
            continue;
        };
        let setting = Setting {
            log: &log,
            formula: &formula,
        };
        if log.events() > 0 {
            if let Some(all) = literal::all(&setting, 0, LIMIT) {
                look(&mut tally, &setting, &all);
            }
        }
    }
    println!("{tally:?}");
    let least = [
        tally.apart,
        tally.same_sets,
        tally.same_values,
        tally.same_tallies,
        tally.exchanged,
        tally.merged,
    ];
    assert!(least.iter().all(|&times| times > 30), "{tally:?}");
}
