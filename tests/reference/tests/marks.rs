//! The clock set on site: reading marks, runs and waiting within a stretch,
//! values that are not kept across one.

use reference::compose::*;
use reference::formula;
use reference::log::{Log, MOST_MARKS};
use reference::machine::{Config, Setting};
use reference::program::text;
use reference::search::{search, Answer, Verdict};

const SEAT: usize = 192;

fn refused(bytes: &[u8]) -> (u32, u32, usize) {
    Log::read(bytes).expect_err("a refusal").triple()
}

fn read(bytes: &[u8]) -> Log {
    Log::read(bytes).expect("a log")
}

fn found(log: &[u8], formula: &[u8], start: usize) -> Answer {
    search(log, formula, start, SEAT).expect("no refusal")
}

/// Whole events in stretches, with a mark before each but the first.
fn marked(kinds: &[u8], stretches: &[&[&[u32]]]) -> Vec<u8> {
    let mut parts: Vec<Vec<u8>> = kinds.iter().map(|&kind| field(kind)).collect();
    for (number, events) in stretches.iter().enumerate() {
        parts.extend((number > 0).then(mark));
        parts.extend(events.iter().map(|values| event(values)));
    }
    file(&parts)
}

/// Trip with code 1, its time bound, then open with code 2.
fn trip_then_open(kind: u8) -> Vec<u8> {
    let trip = join(&[state(0), step(1), test(1, 0, 1), bind(0, 0)]);
    let open = join(&[state(kind), step(2), test(1, 0, 2)]);
    file(&[trip, open, state(2)])
}

#[test]
fn bytes_of_a_mark() {
    let bytes = marked(&[1], &[&[&[5]], &[], &[&[4], &[6]]]);
    assert_eq!(
        bytes,
        hex("0101 02 00000005 04 04 02 00000004 02 00000006 00")
    );
    let log = read(&bytes);
    assert_eq!((log.events(), log.marks), (3, 2));
    assert_eq!(log.stretch, [0, 2, 2]);
    assert_eq!(log.around(0), 0..1);
    assert_eq!(log.around(2), 1..3);
}

#[test]
fn where_a_mark_may_stand() {
    // Before the first event, before END, without any event, twice running.
    for (text, stretch) in [
        ("0100 04 00", vec![]),
        ("0100 04 04 00", vec![]),
        ("0100 04 02 00000001 00", vec![1]),
        ("0100 02 00000001 04 00", vec![0]),
        ("0100 04 04 02 00000001 04 04 00", vec![2]),
        ("0100 02 00000001 04 03 00 00000000 00", vec![0, 1]),
    ] {
        assert_eq!(read(&hex(text)).stretch, stretch, "{text}");
    }
    // Behind END it is a byte too many.
    assert_eq!(refused(&hex("0100 00 04")), (1, 5, 3));
    // END is still missing behind it.
    assert_eq!(refused(&hex("0100 04")), (1, 1, 3));
}

#[test]
fn a_mark_before_the_first_field() {
    assert_eq!(refused(&hex("04")), (1, 2, 0));
    assert_eq!(refused(&hex("04 0100 00")), (1, 2, 0));
}

#[test]
fn a_field_behind_a_mark() {
    assert_eq!(refused(&hex("0100 04 0100 00")), (1, 2, 3));
    assert_eq!(refused(&hex("0100 04 04 0100 00")), (1, 2, 4));
    // Foreign before surplus, cut short and value.
    let eight = [0x01, 0x00].repeat(8);
    assert_eq!(refused(&[eight, hex("04 0100")].concat()), (1, 2, 17));
    assert_eq!(refused(&hex("0100 04 01")), (1, 2, 3));
    assert_eq!(refused(&hex("0100 04 0107")), (1, 2, 3));
    // Behind an event of a later stretch as well.
    assert_eq!(refused(&hex("0100 04 02 00000000 0100 00")), (1, 2, 8));
}

#[test]
fn the_mark_after_64() {
    let marks = |count: usize| [hex("0100"), vec![0x04; count]].concat();
    let all = [marks(64), vec![0x00]].concat();
    assert_eq!(read(&all).marks, MOST_MARKS);
    assert_eq!(refused(&[marks(65), vec![0x00]].concat()), (1, 4, 66));
    // Nothing that follows it counts, nor that nothing does.
    assert_eq!(refused(&marks(65)), (1, 4, 66));
    assert_eq!(refused(&marks(70)), (1, 4, 66));
    // The place is the mark's, with events between.
    let mut parts = vec![field(1)];
    for time in 0..64 {
        parts.push(join(&[event(&[64 - time]), mark()]));
    }
    assert_eq!(read(&file(&parts)).stretch[63], 63);
    parts.push(join(&[event(&[0]), mark()]));
    assert_eq!(refused(&file(&parts)), (1, 4, 2 + 64 * 6 + 5));
    // Before the first FIELD foreign stands before surplus.
    assert_eq!(refused(&[0x04; 65]), (1, 2, 0));
}

#[test]
fn marks_and_events_are_counted_apart() {
    let mut parts = vec![field(0)];
    parts.extend((0..1024).map(|_| event(&[1])));
    parts.push(vec![0x04; 64]);
    assert_eq!(read(&file(&parts)).events(), 1024);
    let place = 2 + 1024 * 5 + 64;
    for next in [event(&[1]), lacking(&[None]), mark()] {
        let bytes = [parts.concat(), next].concat();
        assert_eq!(refused(&bytes), (1, 4, place));
    }
    // The longest log.
    let mut parts = vec![field(0); 8];
    parts.push(vec![0x04; 64]);
    parts.extend((0..1024).map(|_| lacking(&[None; 8])));
    assert_eq!(file(&parts).len(), 34_897);
    assert!(Log::read(&file(&parts)).is_ok());
}

#[test]
fn a_rising_field_begins_afresh() {
    assert_eq!(refused(&marked(&[1], &[&[&[5], &[4]]])), (1, 6, 7));
    let log = read(&marked(&[1], &[&[&[5]], &[&[4]]]));
    assert_eq!(log.stretch, [0, 1]);
    // Since the mark it may not fall either.
    assert_eq!(
        refused(&marked(&[1], &[&[&[5]], &[&[4], &[3]]])),
        (1, 6, 13)
    );
    let log = read(&marked(&[1], &[&[&[5]], &[&[3], &[4]], &[&[0]]]));
    assert_eq!(log.stretch, [0, 1, 1, 2]);
    // A mark before the fall by one event is no help.
    assert_eq!(refused(&marked(&[1], &[&[], &[&[5], &[4]]])), (1, 6, 8));
}

#[test]
fn the_last_present_value_since_the_mark() {
    let one = |value: u32| [Some(value)];
    let (five, four, none) = (one(5), one(4), [None]);
    // Absent before the mark, absent behind it.
    let bytes = log_marked(&[1], &[&[&five, &none], &[&none, &four]]);
    let log = read(&bytes);
    let latest: Vec<_> = (0..4).map(|n| log.latest(0, n)).collect();
    assert_eq!(latest, [Some(5), Some(5), None, Some(4)]);
    let fall = log_marked(&[1], &[&[&four], &[&five, &none, &four]]);
    assert_eq!(refused(&fall), (1, 6, 2 + 5 + 1 + 5 + 6));
    let plain = log_marked(&[0], &[&[&five], &[&none]]);
    assert_eq!(read(&plain).latest(0, 1), None);
}

#[test]
fn no_run_has_events_on_both_sides() {
    let cut = marked(&[1, 0], &[&[&[500, 1]], &[&[500, 2]]]);
    let whole = log(&[1, 0], &[&[500, 1], &[500, 2]]);
    for kind in [0, 1] {
        assert_eq!(text(&cut, &trip_then_open(kind)), "0 none\n1 none\n");
        let run = "0 alert 1 2 v0=500\n1 none\n";
        assert_eq!(text(&whole, &trip_then_open(kind)), run);
    }
    // The configuration waited after event 0, and behind it nothing does.
    assert_eq!(found(&cut, &trip_then_open(0), 0).width, 1);
    // Two marks running part as one does.
    let two = marked(&[1, 0], &[&[&[500, 1]], &[], &[&[500, 2]]]);
    assert_eq!(text(&two, &trip_then_open(0)), "0 none\n1 none\n");
    // Marks at both ends part nothing.
    let ends = marked(&[1, 0], &[&[], &[&[500, 1], &[500, 2]], &[]]);
    assert_eq!(
        text(&ends, &trip_then_open(0)),
        text(&whole, &trip_then_open(0))
    );
}

#[test]
fn event_numbers_run_through() {
    // Each stretch has a run; the time begins again at 500.
    let stretch: [&[u32]; 2] = [&[500, 1], &[510, 2]];
    let bytes = marked(&[1, 0], &[&stretch, &[], &stretch, &[&[7, 2]]]);
    let expected = "0 alert 1 2 v0=500\n1 none\n2 alert 3 2 v0=500\n3 none\n4 none\n";
    assert_eq!(text(&bytes, &trip_then_open(0)), expected);
    let answer = found(&bytes, &trip_then_open(0), 2);
    assert_eq!(&answer.events[..2], [2, 3]);
    let outside = search(&bytes, &trip_then_open(0), 5, SEAT).expect_err("a refusal");
    assert_eq!(outside.triple(), (3, 9, 5));
    // Rows: the run from 0 ends before event 2, so nothing is subsumed there,
    // and within a stretch all is as ever.
    let three: [&[u32]; 3] = [&[1, 1], &[2, 1], &[3, 2]];
    let bytes = marked(&[1, 0], &[&three, &three]);
    let expected = "0 alert 2 2 v0=1\n1 subsumed 2 2 v0=2\n2 none\n\
                    3 alert 5 2 v0=1\n4 subsumed 5 2 v0=2\n5 none\n";
    assert_eq!(text(&bytes, &trip_then_open(0)), expected);
}

/// Every event adds a configuration that waits, until one has code 1.
fn one_more_an_event() -> Vec<u8> {
    let source = join(&[state(0), step(1), state(0), step(2), bind(0, 0)]);
    file(&[source, state(0), step(3), test(1, 0, 1), state(2)])
}

#[test]
fn what_waits_after_the_last_event_of_a_stretch() {
    let long: [&[u32]; 3] = [&[1, 0], &[2, 0], &[3, 0]];
    let short: [&[u32]; 2] = [&[1, 0], &[2, 0]];
    let formula = one_more_an_event();
    let bytes = marked(&[1, 0], &[&long, &short]);
    // With two seats the first stretch is crowded on its last event.
    let crowded = search(&bytes, &formula, 0, 2 * SEAT).expect_err("crowded");
    assert_eq!(crowded.triple(), (3, 11, 2));
    // The second is not, and nothing of the first waits there.
    let answer = search(&bytes, &formula, 3, 2 * SEAT).expect("no refusal");
    assert_eq!((answer.verdict, answer.width), (Verdict::None, 2));
    // The other way round the first would be crowded but for the mark.
    let bytes = marked(&[1, 0], &[&short, &long]);
    let answer = search(&bytes, &formula, 0, 2 * SEAT).expect("no refusal");
    assert_eq!((answer.verdict, answer.width), (Verdict::None, 2));
    let crowded = search(&bytes, &formula, 2, 2 * SEAT).expect_err("crowded");
    assert_eq!(crowded.triple(), (3, 11, 4));
    let three = search(&bytes, &formula, 2, 3 * SEAT).expect("no refusal");
    assert_eq!(three.width, 3);
}

#[test]
fn a_run_that_ends_on_the_last_event_of_a_stretch() {
    let stretch: [&[u32]; 3] = [&[1, 0], &[2, 0], &[3, 1]];
    let bytes = marked(&[1, 0], &[&stretch, &stretch]);
    for start in [0, 3] {
        let answer = search(&bytes, &one_more_an_event(), start, 2 * SEAT).expect("a run");
        assert_eq!(answer.events[2], start + 2);
        assert_eq!(answer.width, 2);
    }
}

/// A bare step to a state whose step asks for a time less than 5.
fn soon() -> Vec<u8> {
    let soon = join(&[state(0), step(2), test(0, 2, 5)]);
    file(&[state(0), step(1), soon, state(2)])
}

#[test]
fn hopeless_by_values_since_the_mark_alone() {
    let (nine, four, none) = ([Some(9)], [Some(4)], [None]);
    // 9 was there before the mark; since it no time has arrived.
    let bytes = log_marked(&[1], &[&[&nine], &[&none, &none]]);
    assert_eq!(found(&bytes, &soon(), 1).width, 1);
    let whole = log_marked(&[1], &[&[&nine, &none, &none]]);
    assert_eq!(found(&whole, &soon(), 1).width, 0);
    // The time that arrives then is smaller, and the step fires.
    let bytes = log_marked(&[1], &[&[&nine], &[&none, &four]]);
    let answer = found(&bytes, &soon(), 1);
    assert_eq!((answer.verdict, answer.count), (Verdict::Accept, 2));
    assert_eq!(&answer.events[..2], [1, 2]);
    // Up to n looks back to before the start, within the stretch.
    let bytes = log_marked(&[1], &[&[], &[&nine, &none, &none]]);
    assert_eq!(found(&bytes, &soon(), 1).width, 0);
}

/// After which events is a step of state 1 hopeless on these stretches of a
/// rising field?
fn hopeless(stretches: &[&[&[Option<u32>]]], parts: &[Vec<u8>]) -> Vec<bool> {
    let log = read(&log_marked(&[1], stretches));
    let bytes = file(&[state(0), step(1), state(0), step(1), join(parts)]);
    let formula = formula::read(&bytes, &log).expect("a formula");
    let setting = Setting {
        log: &log,
        formula: &formula,
    };
    let mut config = Config::START;
    config.state = 1;
    let step = &formula.states[1].steps[0];
    let after = |n| setting.hopeless(&config, step, n);
    (0..log.events()).map(after).collect()
}

#[test]
fn tests_and_guards_by_values_since_the_mark() {
    let (five, four, none) = ([Some(5)], [Some(4)], [None]);
    let stretches: [&[&[Option<u32>]]; 2] = [&[&five, &none], &[&none, &four, &none]];
    let after = |parts: &[Vec<u8>]| hopeless(&stretches, parts);
    let first = [true, true, false, false, false];
    assert_eq!(after(&[test(0, 2, 5)]), first);
    assert_eq!(after(&[test(0, 2, 4)]), [true, true, false, true, true]);
    let late = guard(op(LESS, &[var(1), constant(5)]));
    assert_eq!(after(&[bind(0, 1), late]), first);
    let most = guard(op(LESS, &[sum(8), constant(5)]));
    assert_eq!(after(&[gather(0, 8), most]), first);
    // What arrived only before the mark is named in vain: 0 for good, but let
    // off until the field arrives.
    let never = guard(op(LESS, &[sum(8), constant(0)]));
    assert_eq!(
        after(&[gather(0, 8), never]),
        [true, true, false, true, true]
    );
    // A length counts the value all the same.
    let none = guard(op(LESS, &[length(8), constant(1)]));
    assert_eq!(after(&[gather(0, 8), none]), [true; 5]);
}

#[test]
fn each_stretch_answers_as_a_log_of_its_own() {
    let one: [&[u32]; 3] = [&[7, 1], &[8, 0], &[9, 2]];
    let other: [&[u32]; 4] = [&[1, 1], &[1, 1], &[2, 2], &[2, 1]];
    let bytes = marked(&[1, 0], &[&one, &other]);
    for formula in [trip_then_open(0), trip_then_open(1), one_more_an_event()] {
        for (events, first) in [(&one[..], 0), (&other[..], 3)] {
            let alone = log(&[1, 0], events);
            for start in 0..events.len() {
                let mut expected = search(&alone, &formula, start, 8 * SEAT).expect("an answer");
                let used = expected.count;
                expected.events[..used].iter_mut().for_each(|n| *n += first);
                let answer = search(&bytes, &formula, first + start, 8 * SEAT);
                assert_eq!(answer, Ok(expected));
            }
        }
    }
}
