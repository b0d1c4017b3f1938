//! The stand-in's own search: that of the reference, with the faults that a
//! product may have in treating lists and absent fields.

use super::absent::{self, Named};
use super::fault::{has, Fault};
use super::marks;
use reference::formula::{Expression, Formula, Kind, State, Step, LISTS, VARIABLES};
use reference::machine::{trend, value, Config, Lists, Setting, Trend, Trends};
use reference::runs::{Outcome, Run, MOST_RUN};
use std::collections::BTreeMap;

/// Whether two configurations count as one: equal keys.
type Key = (u8, [u8; 16], [Option<u32>; 8], Vec<Vec<u32>>);
type Trail = (Vec<usize>, Vec<usize>);
type Threads = BTreeMap<Key, (Config, Trail)>;

fn key(config: &Config) -> Key {
    let lists = (0..LISTS).map(|list| listed(config.lists.of(list)));
    let lists = lists.collect();
    (config.state, config.counts, config.held, lists)
}

/// What of a list tells configurations apart.
fn listed(list: &[u32]) -> Vec<u32> {
    let mut kept = list.to_vec();
    if has(Fault::ListsIgnored) {
        kept.clear();
    }
    if has(Fault::ListsAsSets) || has(Fault::ListsUnordered) {
        kept.sort();
    }
    if has(Fault::ListsAsSets) {
        kept.dedup();
    }
    if has(Fault::ListsByTallies) {
        kept.sort();
        kept.dedup();
        let sum = list
            .iter()
            .fold(0, |sum: u32, one| sum.saturating_add(*one));
        kept = vec![sum, list.len() as u32, kept.len() as u32];
    }
    if has(Fault::ListsByEnds) {
        let last = list.last().copied().unwrap_or(0);
        kept = vec![list.len() as u32, last];
    }
    kept
}

/// A guard in which each sum stands as a number that wraps around.
fn wrapped(part: &Expression, lists: &Lists) -> Expression {
    let of = |operand: &Expression| Box::new(wrapped(operand, lists));
    match part {
        Expression::Sum(list) => {
            let values = lists.of(*list).iter();
            Expression::Const(values.fold(0, |sum: u32, &one| sum.wrapping_add(one)))
        }
        Expression::Not(inner) => Expression::Not(of(inner)),
        Expression::Two(pair, first, second) => Expression::Two(*pair, of(first), of(second)),
        Expression::If(condition, first, second) => {
            Expression::If(of(condition), of(first), of(second))
        }
        leaf => leaf.clone(),
    }
}

/// Is the guard 0 in the configuration?
fn is_zero(guard: &Expression, config: &Config) -> bool {
    match has(Fault::SumWraps) {
        true => value(&wrapped(guard, &config.lists), config) == 0,
        false => value(guard, config) == 0,
    }
}

/// The lists with the values that the step would gather; it gathers into each
/// at most once. A length counts a value that is not known, too.
fn gathered(setting: &Setting, lists: &Lists, step: &Step, n: usize) -> Lists {
    let mut after = lists.clone();
    for gather in &step.gathers {
        let latest = setting.log.latest(gather.field, n);
        if latest.is_some() || !has(Fault::LengthWithoutUnknown) {
            after.add(gather.list, latest.unwrap_or(0));
        }
    }
    after
}

/// A step twice: without its guard, for the reference, which knows all but what
/// the faults change; and its guard.
struct Own {
    bare: Step,
    guard: Option<Expression>,
}

/// The steps of every state.
fn steps(formula: &Formula) -> Vec<Vec<Own>> {
    let own = |step: &Step| {
        let mut bare = step.clone();
        let guard = bare.guard.take();
        if has(Fault::LastListLost) {
            bare.gathers.retain(|gather| gather.list + 1 < LISTS);
        }
        Own { bare, guard }
    };
    let of_state = |state: &State| state.steps.iter().map(own).collect();
    formula.states.iter().map(of_state).collect()
}

fn fire(setting: &Setting, config: &Config, step: &Own, n: usize) -> Option<Config> {
    let bare = absent::read(&step.bare, setting.log.event(n));
    let after = setting.fire(config, &bare, n)?;
    let Some(guard) = &step.guard else {
        return Some(after);
    };
    let zero = match has(Fault::GuardBeforeGather) {
        true => {
            let mut before = after.clone();
            before.lists = config.lists.clone();
            is_zero(guard, &before)
        }
        false => is_zero(guard, &after),
    };
    (!zero).then_some(after)
}

fn hopeless(setting: &Setting, config: &Config, own: &Own, n: usize) -> bool {
    let step = &own.bare;
    let late = setting.hopeless(config, step, n) || absent::too_late(setting, step, n);
    late || own.guard.as_ref().is_some_and(|guard| {
        let mut after = config.clone();
        for variable in 0..VARIABLES {
            let taken = absent::taken(setting, config, step, variable, n);
            after.held[variable] = config.held[variable].or(taken);
        }
        if !has(Fault::ExpiryWithoutGather) {
            after.lists = gathered(setting, &config.lists, step, n);
        }
        after.counts[usize::from(config.state)] += 1;
        let named = Named {
            setting,
            config,
            step,
            n,
            after: &after,
        };
        let falling = trend(guard, &trends(setting, config, step)).falling;
        is_zero(guard, &after) && falling && !named.lets_off(guard)
    })
}

fn hopeful(setting: &Setting, steps: &[Vec<Own>], config: &Config, n: usize) -> bool {
    let mut own = steps[usize::from(config.state)].iter();
    own.any(|step| !hopeless(setting, config, step, n))
}

fn fresh(rising: bool) -> Trend {
    match rising {
        true => Trend::RISING,
        false => Trend::NEITHER,
    }
}

fn trends(setting: &Setting, config: &Config, step: &Step) -> Trends {
    let rising = &setting.log.rising;
    let variable = |variable: usize| match config.held[variable] {
        Some(_) => Trend::BOTH,
        None => {
            let mut binds = step.binds.iter();
            let first = binds.find(|bind| bind.variable == variable);
            fresh(first.is_some_and(|bind| rising[bind.field]))
        }
    };
    let into = |list: usize| step.gathers.iter().find(|gather| gather.list == list);
    let sum = |list: usize| match into(list) {
        None if has(Fault::SumOfNoneNeither) => Trend::NEITHER,
        None if has(Fault::AnyGatherCounts) && !step.gathers.is_empty() => Trend::NEITHER,
        None => Trend::BOTH,
        Some(_) if has(Fault::SumBoth) => Trend::BOTH,
        Some(_) if has(Fault::PlainSumRises) => Trend::RISING,
        Some(gather) => fresh(rising[gather.field]),
    };
    let different = |list: usize| match into(list) {
        None if has(Fault::DifferentNeither) => Trend::NEITHER,
        None => Trend::BOTH,
        Some(_) if has(Fault::DifferentBoth) => Trend::BOTH,
        Some(gather) if has(Fault::DifferentRises) => fresh(rising[gather.field]),
        Some(_) => Trend::NEITHER,
    };
    Trends {
        variables: std::array::from_fn(variable),
        sums: std::array::from_fn(sum),
        different: std::array::from_fn(different),
    }
}

/// Takes the steps of one configuration on event n; tells whether it stays.
fn spread(
    setting: &Setting,
    steps: &[Vec<Own>],
    (config, trail): &(Config, Trail),
    n: usize,
    found: &mut Vec<(Config, Trail)>,
) -> bool {
    for (number, step) in steps[usize::from(config.state)].iter().enumerate() {
        if let Some(after) = fire(setting, config, step, n) {
            let mut longer = trail.clone();
            longer.0.push(n);
            longer.1.push(number);
            found.push((after, longer));
            if setting.kind(config) == Kind::Committed {
                return false;
            }
        }
    }
    true
}

/// Seats the threads that may go on, each with its lesser trail.
fn seat(threads: &mut Threads, open: Vec<(Config, Trail)>) {
    for (config, trail) in open.into_iter().filter(|open| open.1 .0.len() < MOST_RUN) {
        let known = threads.entry(key(&config));
        let known = known.or_insert_with(|| (config.clone(), trail.clone()));
        if trail < known.1 {
            *known = (config, trail);
        }
    }
}

pub fn search(setting: &Setting, start: usize, seats: usize) -> Outcome {
    let steps = steps(setting.formula);
    let seen = absent::seen(setting.log);
    let firing = Setting {
        log: &seen,
        formula: setting.formula,
    };
    let begin = (Config::START, (Vec::new(), Vec::new()));
    let mut threads = Threads::new();
    let mut width = 0;
    for n in start..marks::end(setting.log, start) {
        if !setting.log.one_stretch(start, n) {
            threads.retain(|_, (config, _)| marks::crosses(setting.kind(config)));
        }
        let mut found = Vec::new();
        match n == start {
            true => drop(spread(&firing, &steps, &begin, n, &mut found)),
            false => threads.retain(|_, thread| spread(&firing, &steps, thread, n, &mut found)),
        }
        let (ended, open): (Vec<_>, Vec<_>) = found
            .into_iter()
            .partition(|(config, _)| setting.kind(config).ends());
        if let Some((end, trail)) = ended.into_iter().min_by(|a, b| a.1.cmp(&b.1)) {
            let (events, steps) = trail;
            let run = Some(Run { events, steps, end });
            return Outcome::Done { run, width };
        }
        seat(&mut threads, open);
        let judged = Setting {
            log: &absent::judged(setting.log, start, n),
            formula: setting.formula,
        };
        threads.retain(|_, (config, _)| hopeful(&judged, &steps, config, n));
        let waiting = marks::counted(setting.log, n, threads.len());
        if waiting > seats {
            return Outcome::Crowded(n);
        }
        width = width.max(waiting);
    }
    Outcome::Done { run: None, width }
}
