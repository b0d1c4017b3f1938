//! What is compared: rolled cases with many calls each, files cut and spoiled
//! at every byte, cases at a limit, and heavy ones.

use crate::checks::{Check, Comparison, Files};
use crate::files::{self, Pair};
use crate::guards;
use crate::heavy::{self, Kind};
use crate::lacking;
use crate::marks;
use reference::analysis::ROW_WORDS;
use reference::log::Log;
use reference::machine::Setting;
use reference::random::{self, Case};
use reference::reach::marks::met;
use reference::reach::reached;
use reference::search::{read_both, MOST_SEATS, SEAT_WORDS};

/// Numbers of work words around the limits that count.
const WORDS: [usize; 8] = [
    0,
    SEAT_WORDS - 1,
    SEAT_WORDS,
    2 * SEAT_WORDS - 1,
    2 * SEAT_WORDS,
    8 * SEAT_WORDS,
    MOST_SEATS * SEAT_WORDS,
    (MOST_SEATS + 1) * SEAT_WORDS,
];

const ALL_SEATS: usize = MOST_SEATS * SEAT_WORDS;

/// Logs up to so many events are analysed with every number of work words.
const FEW_EVENTS: usize = 16;

/// Searches from so many starts, with up to so many runs, are asked where
/// absent fields and marks count in them.
const FEW_STARTS: usize = 4;
const FEW_RUNS: usize = 300;

fn events(files: Files) -> usize {
    Log::read(files.log).map_or(0, |log| log.events())
}

fn fields(files: Files) -> usize {
    Log::read(files.log).map_or(2, |log| log.rising.len())
}

/// The three cases that a seed rolls, each with many calls, and bad logs made
/// of one of them.
pub fn rolled(comparison: &mut Comparison, seed: u64) -> Check {
    let small = random::small(seed);
    case(comparison, &random::case(seed))?;
    case(comparison, &small)?;
    case(comparison, &guards::case(seed))?;
    bad_logs(comparison, &small, seed)
}

/// The log cut at every byte, and with one bit of each byte flipped.
fn bad_logs(comparison: &mut Comparison, case: &Case, seed: u64) -> Check {
    let flipped = |at: usize| {
        let mut copy = case.log.clone();
        copy[at] ^= 1 << ((seed as usize + at) % 8);
        copy
    };
    let flips: Vec<Vec<u8>> = (0..case.log.len()).map(flipped).collect();
    for log in cuts(&case.log).iter().chain(&flips) {
        let formula = &case.formula;
        comparison.read_log(Files { log, formula })?;
    }
    Ok(())
}

fn case(comparison: &mut Comparison, case: &Case) -> Check {
    let files = Files {
        log: &case.log,
        formula: &case.formula,
    };
    comparison.counts.cases += 1;
    readers(comparison, files)?;
    comparison.search(files, case.start, case.words)?;
    comparison.analysis(files, case.words, case.row_words)?;
    if read_both(files.log, files.formula).is_err() {
        return refused_files(comparison, files);
    }
    told(comparison, files);
    starts(comparison, files)?;
    work_words(comparison, files, case)?;
    row_words(comparison, files)
}

/// Tells where absent fields count in searches from the first events, and
/// marks in those from the first events of a stretch too.
fn told(comparison: &mut Comparison, files: Files) {
    let Ok((log, formula)) = read_both(files.log, files.formula) else {
        return;
    };
    let setting = Setting {
        log: &log,
        formula: &formula,
    };
    let lacking = log.recorded.iter().any(|event| event.contains(&None));
    for start in (0..log.events().min(FEW_STARTS)).filter(|_| lacking) {
        let reached = reached(&setting, start, FEW_RUNS);
        comparison.counts.absent(&reached.unwrap_or_default());
    }
    let is_first = |n: &usize| *n < FEW_STARTS || !log.one_stretch(*n - 1, *n);
    let starts = (0..log.events()).filter(is_first).take(2 * FEW_STARTS);
    for start in starts.filter(|_| log.marks > 0) {
        let met = met(&setting, start, FEW_RUNS);
        comparison.counts.marks(&met.unwrap_or_default());
    }
}

/// The formula is read against other numbers of fields too.
fn readers(comparison: &mut Comparison, files: Files) -> Check {
    comparison.read_log(files)?;
    for fields in (0..=9).chain([255, 256, 1000]) {
        comparison.read_formula(files, fields)?;
    }
    Ok(())
}

/// A bad file decides before a bad start and before too few words.
fn refused_files(comparison: &mut Comparison, files: Files) -> Check {
    comparison.search(files, usize::MAX, 0)?;
    comparison.search(files, 0, ALL_SEATS)?;
    comparison.analysis(files, 0, 0)?;
    comparison.analysis(files, SEAT_WORDS, 100)
}

fn starts(comparison: &mut Comparison, files: Files) -> Check {
    let events = events(files);
    let last = events.saturating_sub(1);
    for start in [0, 1, events / 2, last, events, events + 1, usize::MAX] {
        comparison.search(files, start, ALL_SEATS)?;
    }
    // A bad start decides before too few words.
    comparison.search(files, events, 0)
}

fn work_words(comparison: &mut Comparison, files: Files, case: &Case) -> Check {
    let events = events(files);
    let start = case.start.min(events.saturating_sub(1));
    for (number, words) in WORDS.into_iter().enumerate() {
        comparison.search(files, start, words)?;
        comparison.search(files, 0, words)?;
        if events <= FEW_EVENTS || number == case.log.len() % WORDS.len() {
            comparison.analysis(files, words, ROW_WORDS * events)?;
        }
    }
    Ok(())
}

fn row_words(comparison: &mut Comparison, files: Files) -> Check {
    let needed = ROW_WORDS * events(files);
    for rows in [
        0,
        needed / 2,
        needed.saturating_sub(1),
        needed + 1,
        needed + 25,
    ] {
        comparison.analysis(files, 3 * SEAT_WORDS, rows)?;
    }
    // Too few work words decide before too few row words.
    comparison.analysis(files, SEAT_WORDS - 1, needed.saturating_sub(1))
}

/// Files cut short at every byte, and with every byte spoiled.
pub fn spoiled(comparison: &mut Comparison) -> Check {
    let examples = files::examples();
    let mut small = vec![files::everything()];
    small.extend(files::accepted(12));
    for pair in examples.iter().chain(&small) {
        each_spoiled(pair, cuts, |files| brief(comparison, files))?;
        each_spoiled(pair, left_out, |files| brief(comparison, files))?;
        each_spoiled(pair, doubled, |files| brief(comparison, files))?;
    }
    for pair in &small {
        each_spoiled(pair, set_to_few, |files| brief(comparison, files))?;
    }
    for pair in &examples {
        each_spoiled(pair, set_to_all, |files| brief(comparison, files))?;
    }
    Ok(())
}

/// Spoils the log, then the formula, in each way.
fn each_spoiled(
    pair: &Pair,
    ways: fn(&[u8]) -> Vec<Vec<u8>>,
    mut check: impl FnMut(Files) -> Check,
) -> Check {
    let (log, formula) = (&pair.log, &pair.formula);
    for log in &ways(log) {
        check(Files { log, formula })?;
    }
    for formula in &ways(formula) {
        check(Files { log, formula })?;
    }
    Ok(())
}

/// Cut at every byte.
fn cuts(bytes: &[u8]) -> Vec<Vec<u8>> {
    (0..bytes.len()).map(|end| bytes[..end].to_vec()).collect()
}

/// Each byte left out.
fn left_out(bytes: &[u8]) -> Vec<Vec<u8>> {
    let without = |at: usize| [&bytes[..at], &bytes[at + 1..]].concat();
    (0..bytes.len()).map(without).collect()
}

/// Each byte twice.
fn doubled(bytes: &[u8]) -> Vec<Vec<u8>> {
    let twice = |at: usize| [&bytes[..=at], &bytes[at..]].concat();
    (0..bytes.len()).map(twice).collect()
}

fn set_to_few(bytes: &[u8]) -> Vec<Vec<u8>> {
    set_to(bytes, &[0, 1, 2, 3, 4, 255])
}

fn set_to_all(bytes: &[u8]) -> Vec<Vec<u8>> {
    let all: Vec<u8> = (0..=255).collect();
    set_to(bytes, &all)
}

/// Each byte set to each of the values.
fn set_to(bytes: &[u8], values: &[u8]) -> Vec<Vec<u8>> {
    let mut changed = Vec::new();
    for at in 0..bytes.len() {
        for &value in values.iter().filter(|&&value| value != bytes[at]) {
            let mut copy = bytes.to_vec();
            copy[at] = value;
            changed.push(copy);
        }
    }
    changed
}

/// A few calls: the readers, one search and one analysis.
fn brief(comparison: &mut Comparison, files: Files) -> Check {
    comparison.counts.cases += 1;
    comparison.read_log(files)?;
    comparison.read_formula(files, fields(files))?;
    comparison.search(files, 0, 4 * SEAT_WORDS)?;
    comparison.analysis(files, 4 * SEAT_WORDS, ROW_WORDS * events(files) + 5)
}

/// Absent states, broken events and marks, fields that never arrive, events,
/// marks and seats at their limits, heavy formulas on shorter logs.
pub fn limits(comparison: &mut Comparison) -> Check {
    for pair in [files::absent(), lacking::broken(), marks::broken()].concat() {
        brief(comparison, pair.files())?;
    }
    for pair in lacking::unarrived() {
        brief(comparison, pair.files())?;
        starts(comparison, pair.files())?;
    }
    stretches(comparison)?;
    longest(comparison)?;
    crowds(comparison)?;
    for kind in Kind::ALL {
        let pair = heavy::pair(kind, 200);
        brief(comparison, pair.files())?;
        comparison.search(pair.files(), 100, ALL_SEATS)?;
        comparison.analysis(pair.files(), ALL_SEATS, ROW_WORDS * 200)?;
    }
    Ok(())
}

/// Every start of logs with marks, with few seats and with all.
fn stretches(comparison: &mut Comparison) -> Check {
    for pair in marks::stretches() {
        told(comparison, pair.files());
        brief(comparison, pair.files())?;
        for start in 0..events(pair.files()) {
            for seats in [1, 2, 3, MOST_SEATS] {
                comparison.search(pair.files(), start, seats * SEAT_WORDS)?;
            }
        }
    }
    Ok(())
}

/// As many events and marks as may be, and one more.
fn longest(comparison: &mut Comparison) -> Check {
    for over in [0, 1] {
        for pair in [
            files::longest(over),
            lacking::longest(over),
            marks::longest(over),
        ] {
            brief(comparison, pair.files())?;
            comparison.analysis(pair.files(), ALL_SEATS, ROW_WORDS * 1024 - 1)?;
            comparison.analysis(pair.files(), ALL_SEATS, ROW_WORDS * 1024)?;
            comparison.search(pair.files(), 1023, SEAT_WORDS)?;
        }
    }
    Ok(())
}

/// Configurations around the number of seats.
fn crowds(comparison: &mut Comparison) -> Check {
    for events in [MOST_SEATS - 1, MOST_SEATS, MOST_SEATS + 1, MOST_SEATS + 2] {
        let pair = files::crowd(events);
        comparison.counts.cases += 1;
        for seats in [MOST_SEATS - 1, MOST_SEATS, MOST_SEATS + 1] {
            for words in [seats * SEAT_WORDS, (seats + 1) * SEAT_WORDS - 1] {
                comparison.search(pair.files(), 0, words)?;
                comparison.analysis(pair.files(), words, ROW_WORDS * events)?;
            }
        }
    }
    Ok(())
}
