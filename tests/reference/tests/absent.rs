//! Readings that never arrived: reading, firing, waiting, hopeless steps.

use reference::compose::*;
use reference::formula;
use reference::log::Log;
use reference::machine::{Config, Setting};
use reference::program::text;
use reference::search::{search, Answer, Verdict};

const SEAT: usize = 192;

type Values<'a> = &'a [Option<u32>];

fn refused(bytes: &[u8]) -> (u32, u32, usize) {
    Log::read(bytes).expect_err("a refusal").triple()
}

fn found(log: &[u8], formula: &[u8], start: usize) -> Answer {
    search(log, formula, start, SEAT).expect("no refusal")
}

/// Trip with code 1, its time bound, then open with code 2.
fn trip_then_open() -> Vec<u8> {
    let trip = join(&[state(0), step(1), test(1, 0, 1), bind(0, 0)]);
    let open = join(&[state(0), step(2), test(1, 0, 2)]);
    file(&[trip, open, state(2)])
}

#[test]
fn bytes_of_an_event_that_lacks_a_field() {
    let log = Log::read(&hex("0101 0100 03 02 00000000 00000001 00")).expect("a log");
    assert_eq!(log.event(0), [None, Some(1)]);
    let bytes = log_lacking(&[1, 0], &[&[None, Some(1)], &[Some(5), Some(2)]]);
    let written = hex("0101 0100 03 02 00000000 00000001 02 00000005 00000002 00");
    assert_eq!(bytes, written);
    // Bit k is field k, from the lowest on.
    let log = Log::read(&hex("0100 0100 0100 03 05 00000007 00000000 00000009 00"));
    assert_eq!(log.expect("a log").event(0), [Some(7), None, Some(9)]);
    // All eight.
    let mut all = vec![None; 8];
    all[7] = Some(1);
    let bytes = log_lacking(&[0; 8], &[&all]);
    assert_eq!(bytes[16..18], [0x03, 0x80]);
    assert_eq!(Log::read(&bytes).expect("a log").event(0), all);
}

#[test]
fn all_bits_0_are_a_correct_event() {
    let log = Log::read(&hex("0101 0100 03 00 00000000 00000000 00")).expect("a log");
    assert_eq!(log.event(0), [None, None]);
    // A step that reads nothing fires on it.
    let bare = file(&[state(0), step(1), state(2)]);
    let empty = log_lacking(&[0], &[&[None]]);
    assert_eq!(text(&empty, &bare), "0 alert 0 1\n");
    let counted = guard(op(EQUAL, &[count(0), constant(1)]));
    let counting = file(&[state(0), step(1), counted, state(2)]);
    assert_eq!(text(&empty, &counting), "0 alert 0 1\n");
}

#[test]
fn a_bit_beyond_the_fields() {
    for bits in 1..=255u8 {
        let bytes = [hex("0100 03"), vec![bits], hex("00000000 00")].concat();
        let expected = (bits > 1).then_some((1, 3, 2));
        let answer = Log::read(&bytes).err().map(|refusal| refusal.triple());
        assert_eq!(answer, expected, "{bits}");
    }
    assert_eq!(
        refused(&hex("0100 0100 03 07 00000001 00000001 00")),
        (1, 3, 4)
    );
    // With eight fields every bit is a field's.
    let full = [
        [1, 0].repeat(8),
        hex("03 FF"),
        [0, 0, 0, 1].repeat(8),
        vec![0],
    ];
    let log = Log::read(&full.concat()).expect("a log");
    assert_eq!(log.event(0), [Some(1); 8]);
}

#[test]
fn a_value_byte_of_an_absent_field() {
    for at in 0..8 {
        let mut bytes = hex("0100 0100 02 00000001 00000001 03 00 00000000 00000000 00");
        assert!(Log::read(&bytes).is_ok());
        bytes[15 + at] = 1 << at;
        assert_eq!(refused(&bytes), (1, 3, 13));
        // Of the other field it is a value.
        bytes[14] = 1 << (at / 4);
        assert!(Log::read(&bytes).is_ok());
    }
}

#[test]
fn the_order_within_the_command() {
    // 2 before 1: there is no field yet.
    assert_eq!(refused(&hex("03")), (1, 2, 0));
    // 4 before 1 and 3.
    let mut parts = vec![field(1)];
    parts.extend((0..512).map(|_| event(&[1])));
    parts.extend((0..512).map(|_| lacking(&[None])));
    let place = 2 + 512 * 5 + 512 * 6;
    assert_eq!(Log::read(&file(&parts)).expect("a log").events(), 1024);
    for next in ["03", "03 02 00000000", "03 01 00000001", "02 00000001"] {
        let bytes = [parts.concat(), hex(next)].concat();
        assert_eq!(refused(&bytes), (1, 4, place));
    }
    // 1 before 3, at every byte.
    let cut = hex("0100 03 02 00000001");
    for end in 3..8 {
        assert_eq!(refused(&cut[..end]), (1, 1, 2));
    }
    assert_eq!(refused(&cut), (1, 3, 2));
    // 3 before 6.
    let both = hex("0101 0100 02 00000005 00000000 03 01 00000004 00000001 00");
    assert_eq!(refused(&both), (1, 3, 13));
    let fall = hex("0101 0100 02 00000005 00000000 03 01 00000004 00000000 00");
    assert_eq!(refused(&fall), (1, 6, 13));
    // A FIELD behind it is foreign.
    assert_eq!(refused(&hex("0100 03 00 00000000 0100 00")), (1, 2, 8));
}

#[test]
fn a_rising_field_falls_across_events_that_lack_it() {
    let times = |list: &[Option<u32>]| {
        let events: Vec<Values> = list.chunks(1).collect();
        log_lacking(&[1], &events)
    };
    let fall = times(&[Some(5), None, Some(4)]);
    assert_eq!(refused(&fall), (1, 6, 13));
    let fall = times(&[Some(5), None, None, Some(4), Some(9)]);
    assert_eq!(refused(&fall), (1, 6, 19));
    // Equal is allowed; before the first there is nothing to fall from.
    assert!(Log::read(&times(&[Some(5), None, Some(5)])).is_ok());
    assert!(Log::read(&times(&[None, Some(0), None, Some(1)])).is_ok());
    // A plain field may fall.
    let plain = log_lacking(&[0], &[&[Some(5)], &[None], &[Some(4)]]);
    assert!(Log::read(&plain).is_ok());
    // Each field by itself: field 1 falls, field 0 is absent.
    let second: [Values; 3] = [&[Some(1), Some(7)], &[Some(2), None], &[None, Some(6)]];
    assert_eq!(refused(&log_lacking(&[1, 1], &second)), (1, 6, 23));
}

#[test]
fn every_bit_set_answers_as_a_whole_event() {
    let whole = log(&[1, 0], &[&[500, 1], &[500, 2]]);
    let bits = hex("0101 0100 03 03 000001F4 00000001 03 03 000001F4 00000002 00");
    let mixed = hex("0101 0100 02 000001F4 00000001 03 03 000001F4 00000002 00");
    for other in [bits, mixed] {
        let formula = trip_then_open();
        assert_eq!(text(&other, &formula), text(&whole, &formula));
        assert_eq!(found(&other, &formula, 0), found(&whole, &formula, 0));
    }
    let back = hex("0101 03 01 00000002 03 01 00000001 00");
    assert_eq!(refused(&back), (1, 6, 8));
}

#[test]
fn a_trip_without_its_time_between_two_with_times() {
    let events: [Values; 4] = [
        &[Some(500), Some(1)],
        &[None, Some(1)],
        &[Some(510), Some(1)],
        &[Some(520), Some(2)],
    ];
    let log = log_lacking(&[1, 0], &events);
    let expected = "0 alert 3 2 v0=500\n1 none\n2 subsumed 3 2 v0=510\n3 none\n";
    assert_eq!(text(&log, &trip_then_open()), expected);
    // A run that waits stays waiting over it: the second trip asks for a time
    // of at most 515, and gets it on event 2.
    let formula = file(&[
        join(&[state(0), step(1), test(1, 0, 1), bind(0, 0)]),
        join(&[
            state(1),
            step(2),
            test(1, 0, 1),
            test(0, 4, 515),
            bind(0, 1),
        ]),
        state(2),
    ]);
    let answer = found(&log, &formula, 0);
    assert_eq!(&answer.events[..3], [0, 2, 0]);
    assert_eq!((answer.width, answer.values[1]), (1, 510));
    assert_eq!(found(&log, &formula, 1).verdict, Verdict::None);
}

/// Does a step with these parts, behind one that binds 7 to variable 0, fire
/// on an event that lacks field 0 and has 7 in field 1?
fn fires(parts: &[Vec<u8>]) -> bool {
    let log = log_lacking(&[0, 0], &[&[Some(7), Some(7)], &[None, Some(7)]]);
    let formula = file(&[
        join(&[state(0), step(1), bind(0, 0)]),
        join(&[state(1), step(2), join(parts)]),
        state(2),
    ]);
    found(&log, &formula, 0).verdict == Verdict::Accept
}

#[test]
fn what_reads_an_absent_field_keeps_a_step_from_firing() {
    assert!(fires(&[]));
    for operator in 0..6 {
        for value in [0, 1, 7, u32::MAX] {
            assert!(!fires(&[test(0, operator, value)]));
        }
        assert!(!fires(&[testv(0, operator, 0)]));
    }
    assert!(!fires(&[bind(0, 0)]));
    assert!(!fires(&[bind(0, 1)]));
    assert!(!fires(&[gather(0, 8)]));
    // Also beside what holds, in any order.
    assert!(fires(&[test(1, 0, 7), bind(1, 0), gather(1, 8)]));
    assert!(!fires(&[bind(1, 1), bind(0, 1)]));
    assert!(!fires(&[bind(0, 1), bind(1, 1)]));
    assert!(!fires(&[gather(1, 8), gather(0, 9)]));
    assert!(!fires(&[test(1, 0, 7), test(0, 1, 3)]));
    // A guard may go on reading what is held.
    assert!(fires(&[guard(op(EQUAL, &[var(0), constant(7)]))]));
}

/// After which events is a step of state 1 hopeless, with these values of a
/// rising field 0 and a plain field 1? Variable 0 is held as given.
fn hopeless(events: &[Values], held: Option<u32>, parts: &[Vec<u8>]) -> Vec<bool> {
    let log = Log::read(&log_lacking(&[1, 0], events)).expect("a log");
    let reaches = join(&[state(0), step(1), bind(1, 0)]);
    let bytes = file(&[reaches, state(0), step(1), join(parts)]);
    let formula = formula::read(&bytes, &log).expect("a formula");
    let setting = Setting {
        log: &log,
        formula: &formula,
    };
    let mut config = Config::START;
    config.state = 1;
    config.held[0] = held;
    let step = &formula.states[1].steps[0];
    let after = |n| setting.hopeless(&config, step, n);
    (0..log.events()).map(after).collect()
}

/// The field is 4, absent, 5, absent.
const SEEN: [Values; 4] = [
    &[Some(4), Some(9)],
    &[None, Some(9)],
    &[Some(5), Some(9)],
    &[None, None],
];

/// The field never arrives.
const NEVER: [Values; 2] = [&[None, Some(9)], &[None, None]];

#[test]
fn tests_are_judged_by_the_last_present_value() {
    let after = |parts: &[Vec<u8>]| hopeless(&SEEN, Some(5), parts);
    assert_eq!(after(&[test(0, 2, 5)]), [false, false, true, true]);
    assert_eq!(after(&[test(0, 2, 4)]), [true; 4]);
    assert_eq!(after(&[test(0, 4, 4)]), [false, false, true, true]);
    assert_eq!(after(&[testv(0, 2, 0)]), [false, false, true, true]);
    assert_eq!(after(&[testv(0, 4, 0)]), [false; 4]);
    for operator in [0, 1, 3, 5] {
        assert_eq!(after(&[test(0, operator, 3)]), [false; 4]);
    }
    assert_eq!(after(&[test(1, 2, 0)]), [false; 4]);
}

#[test]
fn a_test_of_a_field_that_never_arrived() {
    for operator in 0..6 {
        assert_eq!(
            hopeless(&NEVER, Some(0), &[test(0, operator, 0)]),
            [false; 2]
        );
        assert_eq!(
            hopeless(&NEVER, Some(0), &[testv(0, operator, 0)]),
            [false; 2]
        );
    }
    // Its other reasons remain.
    let zero = guard(constant(0));
    assert_eq!(hopeless(&NEVER, None, &[test(0, 2, 9), zero]), [true; 2]);
}

#[test]
fn a_guard_is_judged_by_the_last_present_value() {
    let late = || guard(op(LESS, &[var(1), constant(5)]));
    let after = |parts: &[Vec<u8>]| hopeless(&SEEN, Some(5), parts);
    assert_eq!(after(&[bind(0, 1), late()]), [false, false, true, true]);
    // A sum as well: it would be 4, then 5.
    let most = guard(op(AT_MOST, &[sum(8), constant(4)]));
    assert_eq!(after(&[gather(0, 8), most]), [false, false, true, true]);
    // The first BIND's field gives the value, whatever the second's does.
    let both = [bind(0, 1), bind(1, 1), late()];
    assert_eq!(after(&both), [false, false, true, true]);
}

#[test]
fn a_guard_that_names_what_never_arrived() {
    let zero_if = |named: Vec<u8>| guard(op(LESS, &[named, constant(0)]));
    // The variable, and the sum, would take it.
    assert_eq!(
        hopeless(&NEVER, None, &[bind(0, 1), zero_if(var(1))]),
        [false; 2]
    );
    assert_eq!(
        hopeless(&NEVER, None, &[gather(0, 8), zero_if(sum(8))]),
        [false; 2]
    );
    // Anywhere in the guard, next to what is 0 for good.
    let beside = guard(op(AND, &[constant(0), op(LESS, &[var(1), constant(9)])]));
    assert_eq!(hopeless(&NEVER, None, &[bind(0, 1), beside]), [false; 2]);
    // The second of two BINDs has a value; the first decides.
    let two = [bind(0, 1), bind(1, 1), zero_if(var(1))];
    assert_eq!(hopeless(&NEVER, None, &two), [false; 2]);
    // A guard that does not name it.
    let unnamed = [bind(0, 1), gather(0, 8), guard(constant(0))];
    assert_eq!(hopeless(&NEVER, None, &unnamed), [true; 2]);
}

#[test]
fn a_branch_that_is_not_taken_names_too() {
    let late = op(LESS, &[var(1), constant(9)]);
    let choice =
        |when: u32, one: Vec<u8>, other: Vec<u8>| guard(op(IF, &[constant(when), one, other]));
    for (when, one, other) in [
        (0, late.clone(), constant(0)),
        (1, constant(0), late.clone()),
    ] {
        let parts = [bind(0, 1), choice(when, one, other)];
        assert_eq!(hopeless(&NEVER, None, &parts), [false; 2]);
        // With a value the same guard is falling and 0.
        assert_eq!(hopeless(&SEEN, None, &parts), [true; 4]);
    }
    let sums = [
        gather(0, 8),
        choice(1, constant(0), op(LESS, &[sum(8), constant(9)])),
    ];
    assert_eq!(hopeless(&NEVER, None, &sums), [false; 2]);
    assert_eq!(hopeless(&SEEN, None, &sums), [true; 4]);
}

#[test]
fn a_held_variable_takes_nothing() {
    let late = guard(op(LESS, &[var(0), constant(5)]));
    let again = [bind(0, 0), late.clone()];
    assert_eq!(hopeless(&NEVER, Some(5), &again), [true; 2]);
    assert_eq!(hopeless(&NEVER, Some(4), &again), [false; 2]);
    assert_eq!(hopeless(&NEVER, None, &again), [false; 2]);
}

#[test]
fn a_sum_that_the_step_does_not_gather_into() {
    let never = guard(op(LESS, &[sum(9), constant(0)]));
    let parts = [gather(0, 8), never];
    assert_eq!(hopeless(&NEVER, None, &parts), [true; 2]);
}

#[test]
fn a_length_counts_the_value_all_the_same() {
    let short = |most: u32| guard(op(LESS, &[length(8), constant(most)]));
    // It would have one value.
    assert_eq!(hopeless(&NEVER, None, &[gather(0, 8), short(1)]), [true; 2]);
    assert_eq!(
        hopeless(&NEVER, None, &[gather(0, 8), short(2)]),
        [false; 2]
    );
    assert_eq!(hopeless(&SEEN, None, &[gather(0, 8), short(1)]), [true; 4]);
    // A plain field, absent in event 3 alone, and one gathered elsewhere.
    assert_eq!(hopeless(&SEEN, None, &[gather(1, 8), short(1)]), [true; 4]);
    assert_eq!(
        hopeless(&NEVER, None, &[gather(0, 9), short(1)]),
        [false; 2]
    );
}

/// A bare step to a state whose step asks for a time less than 5.
fn soon() -> Vec<u8> {
    let soon = join(&[state(0), step(2), test(0, 2, 5)]);
    file(&[state(0), step(1), soon, state(2)])
}

#[test]
fn the_look_back_reaches_before_the_start() {
    let late = log_lacking(&[1], &[&[Some(5)], &[None], &[None]]);
    // From event 1 on no time arrives, and 5 was there before.
    assert_eq!(found(&late, &soon(), 1).width, 0);
    let early = log_lacking(&[1], &[&[Some(4)], &[None], &[None]]);
    assert_eq!(found(&early, &soon(), 1).width, 1);
    let never = log_lacking(&[1], &[&[None], &[None], &[None]]);
    assert_eq!(found(&never, &soon(), 1).width, 1);
}

#[test]
fn hopeless_shows_in_width_and_crowded() {
    // Each event adds a thread that waits for a time less than 5.
    let formula = file(&[
        join(&[state(0), step(1)]),
        join(&[state(0), step(1), step(2), test(0, 2, 5)]),
        state(2),
    ]);
    let open = log_lacking(&[1], &[&[None], &[None], &[None]]);
    let refusal = search(&open, &formula, 0, 2 * SEAT).expect_err("crowded");
    assert_eq!(refusal.triple(), (3, 11, 2));
    let window = file(&[
        join(&[state(0), step(1)]),
        join(&[state(0), step(1), test(0, 2, 5)]),
    ]);
    let closed = log_lacking(&[1], &[&[Some(4)], &[Some(4)], &[Some(5)], &[None]]);
    let answer = search(&closed, &window, 0, 2 * SEAT).expect("no refusal");
    assert_eq!((answer.verdict, answer.width), (Verdict::None, 2));
}
