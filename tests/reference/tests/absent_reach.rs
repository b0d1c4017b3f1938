//! Rolled cases meet absent fields where they count: in firing, in hopeless
//! steps and in refusals.

use reference::log::{Event, Log};
use reference::machine::Setting;
use reference::random::{case, small};
use reference::reach::{reached, NAMES, REACHED};
use reference::search::read_both;
use std::collections::BTreeMap;

const LIMIT: usize = 3000;

#[test]
fn absent_fields_count_in_firing_and_hopeless_steps() {
    let mut times = [0; REACHED];
    for seed in 0..4000 {
        let case = small(seed);
        let Ok((log, formula)) = read_both(&case.log, &case.formula) else {
            continue;
        };
        let setting = Setting {
            log: &log,
            formula: &formula,
        };
        let shows = match case.start < log.events() {
            true => reached(&setting, case.start, LIMIT).unwrap_or_default(),
            false => continue,
        };
        for (times, shows) in times.iter_mut().zip(shows) {
            *times += usize::from(shows);
        }
    }
    for (times, name) in times.iter().zip(NAMES) {
        println!("{times:6} {name}");
    }
    assert!(times.iter().all(|&times| times >= 20), "{times:?}");
}

#[derive(Default)]
struct Tally(BTreeMap<&'static str, usize>);

impl Tally {
    fn add(&mut self, name: &'static str, shows: bool) {
        *self.0.entry(name).or_default() += usize::from(shows);
    }
}

/// What a rolled case shows in its log alone.
fn read(tally: &mut Tally, bytes: &[u8]) {
    let answer = Log::read(bytes);
    let refused = answer.as_ref().err().map(|refusal| refusal.triple());
    let at = |number: u32, command: u8| {
        let here = |place: usize| bytes.get(place) == Some(&command);
        refused.is_some_and(|(_, known, place)| known == number && here(place))
    };
    tally.add("cut short", at(1, 0x03));
    tally.add("value", at(3, 0x03));
    tally.add("step back", at(6, 0x03));
    let events = answer.map_or(Vec::new(), |log| log.recorded);
    let lacks = |event: &Event| event.contains(&None);
    let nothing = |event: &Event| event.iter().all(Option::is_none);
    let mixed = events.iter().any(lacks) && !events.iter().all(lacks);
    tally.add("lacking and whole events", mixed);
    tally.add("nothing present", events.iter().any(nothing));
    for (field, name) in FIELDS.into_iter().enumerate() {
        let lacks = |event: &Event| event.get(field) == Some(&None);
        tally.add(name, events.iter().any(lacks));
    }
}

const FIELDS: [&str; 8] = [
    "field 0", "field 1", "field 2", "field 3", "field 4", "field 5", "field 6", "field 7",
];

#[test]
fn absent_fields_stand_in_accepted_and_refused_logs() {
    let mut tally = Tally::default();
    for seed in 0..6000 {
        read(&mut tally, &case(seed).log);
    }
    for (name, times) in &tally.0 {
        println!("{times:6} {name}");
    }
    assert!(tally.0.values().all(|&times| times >= 10), "{:?}", tally.0);
}
