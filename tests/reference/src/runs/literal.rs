//! Runs, waiting, crowded and width word for word. Takes time without bound:
//! for small cases only, so every list has a limit.

use super::{Outcome, Run, MOST_RUN};
use crate::formula::Kind;
use crate::machine::{Config, Setting};
use std::collections::BTreeSet;

/// All runs from a start, ended or not.
pub struct All {
    pub ended: Vec<Run>,
    pub partial: Vec<Run>,
}

/// May step `number` be taken on event n from a configuration reached on
/// event `arrival`? Gives where it leads.
fn taken(
    setting: &Setting,
    config: &Config,
    arrival: Option<usize>,
    n: usize,
    number: usize,
) -> Option<Config> {
    let steps = &setting.state(config).steps;
    let fires = |number: usize, n: usize| setting.fire(config, &steps[number], n);
    let after = fires(number, n)?;
    if setting.kind(config) == Kind::Committed {
        let lower = (0..number).any(|other| fires(other, n).is_some());
        // At the start there is no arrival: the first step is on n itself.
        let first = arrival.map_or(n, |event| event + 1);
        let passed = (first..n).any(|m| (0..steps.len()).any(|other| fires(other, m).is_some()));
        if lower || passed {
            return None;
        }
    }
    Some(after)
}

/// Where the listed steps on the listed events lead, if they are a run or a
/// partial run from the start: events on both sides of a mark are none.
pub fn replay(
    setting: &Setting,
    start: usize,
    events: &[usize],
    steps: &[usize],
) -> Option<Config> {
    let rising = events.windows(2).all(|pair| pair[0] < pair[1]);
    let length = events.len() == steps.len() && (1..=MOST_RUN).contains(&events.len());
    if !rising || !length || events[0] != start {
        return None;
    }
    let mut config = Config::START;
    let mut arrival = None;
    for (&n, &number) in events.iter().zip(steps) {
        if n >= setting.log.events() || number >= setting.state(&config).steps.len() {
            return None;
        }
        if !setting.log.one_stretch(start, n) {
            return None;
        }
        config = taken(setting, &config, arrival, n, number)?;
        arrival = Some(n);
    }
    Some(config)
}

/// Every run and partial run from the start; nothing if there are more than
/// `limit` of them.
pub fn all(setting: &Setting, start: usize, limit: usize) -> Option<All> {
    let mut found = All {
        ended: Vec::new(),
        partial: Vec::new(),
    };
    let none = Run {
        events: Vec::new(),
        steps: Vec::new(),
        end: Config::START,
    };
    let mut open = longer(setting, &none, start..start + 1);
    while let Some(run) = open.pop() {
        if found.ended.len() + found.partial.len() + open.len() > limit {
            return None;
        }
        if setting.kind(&run.end).ends() {
            found.ended.push(run);
            continue;
        }
        if run.events.len() < MOST_RUN {
            let behind = run.events[run.events.len() - 1] + 1;
            open.extend(longer(setting, &run, behind..setting.log.events()));
        }
        found.partial.push(run);
    }
    Some(found)
}

/// The runs with one step more, taken on one of the given events that is not
/// on the other side of a mark.
fn longer(setting: &Setting, run: &Run, events: std::ops::Range<usize>) -> Vec<Run> {
    let mut found = Vec::new();
    let arrival = run.events.last().copied();
    let near = |n: &usize| arrival.is_none_or(|last| setting.log.one_stretch(last, *n));
    for n in events.filter(near) {
        for number in 0..setting.state(&run.end).steps.len() {
            if let Some(end) = taken(setting, &run.end, arrival, n, number) {
                let mut next = run.clone();
                next.events.push(n);
                next.steps.push(number);
                next.end = end;
                found.push(next);
            }
        }
    }
    found
}

impl All {
    /// The least run: by last event, then the events, then the step numbers.
    pub fn least(&self) -> Option<&Run> {
        let key = |run: &Run| {
            (
                run.events.last().copied(),
                run.events.clone(),
                run.steps.clone(),
            )
        };
        self.ended.iter().min_by_key(|run| key(run))
    }

    /// The configurations of partial runs up to event n, with no mark since
    /// their last event, in which no committed state has let a firing event
    /// pass.
    pub fn alive(&self, setting: &Setting, n: usize) -> BTreeSet<Config> {
        let lives = |run: &&Run| {
            let last = run.events[run.events.len() - 1];
            let near = last <= n && setting.log.one_stretch(last, n);
            let fires = |m: usize| {
                let steps = &setting.state(&run.end).steps;
                steps
                    .iter()
                    .any(|step| setting.fire(&run.end, step, m).is_some())
            };
            let committed = setting.kind(&run.end) == Kind::Committed;
            run.events.len() < MOST_RUN && near && !(committed && (last + 1..=n).any(fires))
        };
        self.partial
            .iter()
            .filter(lives)
            .map(|run| run.end.clone())
            .collect()
    }

    /// The configurations that wait after event n.
    pub fn waiting(&self, setting: &Setting, n: usize) -> BTreeSet<Config> {
        let mut alive = self.alive(setting, n);
        alive.retain(|config| setting.hopeful(config, n));
        alive
    }

    /// Crowded and width by their definitions.
    pub fn outcome(&self, setting: &Setting, start: usize, seats: usize) -> Outcome {
        let events = setting.log.events();
        let ended_by = |n: usize| self.ended.iter().any(|run| run.events.last() <= Some(&n));
        let crowded = |&n: &usize| !ended_by(n) && self.waiting(setting, n).len() > seats;
        if let Some(n) = (start..events).find(crowded) {
            return Outcome::Crowded(n);
        }
        let run = self.least().cloned();
        let last = run.as_ref().and_then(|run| run.events.last().copied());
        let counted = start..last.unwrap_or(events);
        let width = counted.map(|n| self.waiting(setting, n).len()).max();
        Outcome::Done {
            run,
            width: width.unwrap_or(0),
        }
    }
}

/// A search by the definitions; nothing where there are too many runs.
pub fn search(setting: &Setting, start: usize, seats: usize, limit: usize) -> Option<Outcome> {
    Some(all(setting, start, limit)?.outcome(setting, start, seats))
}
