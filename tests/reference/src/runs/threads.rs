//! A search over long logs: one thread a waiting configuration, each with the
//! least trail that leads there. Equal configurations have taken equally many
//! steps (their counters sum to that), so the lesser trail stays the lesser
//! one whatever follows.

use super::{Outcome, Run, MOST_RUN};
use crate::formula::Kind;
use crate::machine::{Config, Setting};
use std::collections::btree_map::Entry;
use std::collections::BTreeMap;

/// The events, then the step numbers: trails compare in that order. Of two
/// trails that are compared neither is a beginning of the other, so unused
/// entries never decide.
#[derive(Clone, Copy, PartialEq, Eq, PartialOrd, Ord)]
pub struct Trail {
    pub events: [u16; MOST_RUN],
    pub steps: [u8; MOST_RUN],
    pub length: usize,
}

impl Trail {
    pub const EMPTY: Trail = Trail {
        events: [0; MOST_RUN],
        steps: [0; MOST_RUN],
        length: 0,
    };

    pub fn with(&self, n: usize, number: usize) -> Trail {
        let mut longer = *self;
        longer.events[self.length] = n as u16;
        longer.steps[self.length] = number as u8;
        longer.length += 1;
        longer
    }

    pub fn run(&self, end: Config) -> Run {
        let used = self.length;
        Run {
            events: self.events[..used].iter().map(|&n| n.into()).collect(),
            steps: self.steps[..used].iter().map(|&s| s.into()).collect(),
            end,
        }
    }
}

type Threads = BTreeMap<Config, Trail>;
type Fresh = Vec<(Config, Trail)>;

/// Looks no further than the start's stretch.
pub fn search(setting: &Setting, start: usize, seats: usize) -> Outcome {
    let mut threads = Threads::new();
    let mut fresh = Fresh::new();
    let mut width = 0;
    spread(setting, &Config::START, &Trail::EMPTY, start, &mut fresh);
    for n in start..setting.log.around(start).end {
        if n > start {
            threads.retain(|config, trail| spread(setting, config, trail, n, &mut fresh));
        }
        if let Some((end, trail)) = settle(setting, &mut threads, &mut fresh) {
            let run = Some(trail.run(end));
            return Outcome::Done { run, width };
        }
        threads.retain(|config, _| setting.hopeful(config, n));
        if threads.len() > seats {
            return Outcome::Crowded(n);
        }
        width = width.max(threads.len());
        if threads.is_empty() {
            break;
        }
    }
    Outcome::Done { run: None, width }
}

/// Takes the steps a thread may take on event n; tells whether it stays too.
fn spread(setting: &Setting, config: &Config, trail: &Trail, n: usize, fresh: &mut Fresh) -> bool {
    let state = setting.state(config);
    for (number, step) in state.steps.iter().enumerate() {
        if let Some(after) = setting.fire(config, step, n) {
            fresh.push((after, trail.with(n, number)));
            if state.kind == Kind::Committed {
                return false;
            }
        }
    }
    true
}

/// Seats the fresh threads and gives the least one that has ended.
fn settle(setting: &Setting, threads: &mut Threads, fresh: &mut Fresh) -> Option<(Config, Trail)> {
    let mut least: Option<(Config, Trail)> = None;
    for (config, trail) in fresh.drain(..) {
        if setting.kind(&config).ends() {
            if least.as_ref().is_none_or(|(_, known)| trail < *known) {
                least = Some((config, trail));
            }
        } else if trail.length < MOST_RUN {
            match threads.entry(config) {
                Entry::Vacant(place) => {
                    place.insert(trail);
                }
                Entry::Occupied(mut place) => {
                    let known = place.get_mut();
                    *known = trail.min(*known);
                }
            }
        }
    }
    least
}
