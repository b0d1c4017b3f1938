//! Readings gathered along a run: reading, firing, waiting, hopeless steps.

use reference::compose::*;
use reference::formula;
use reference::log::Log;
use reference::machine::{value, Config, Lists, Setting};
use reference::program::text;
use reference::search::{search, Answer, Verdict};

const SEAT: usize = 192;
const TOP: u32 = 4294967295;

fn found(log: &[u8], formula: &[u8], seats: usize) -> Answer {
    search(log, formula, 0, seats * SEAT).expect("no refusal")
}

fn crowded(log: &[u8], formula: &[u8], seats: usize) -> (u32, u32, usize) {
    let refusal = search(log, formula, 0, seats * SEAT);
    refusal.expect_err("crowded").triple()
}

/// The refusal of a formula, read against a rising field 0 and a plain field 1.
fn outcome(text: &str) -> Option<(u32, u32, usize)> {
    let log = Log::read(&hex("0101 0100 00")).expect("a log");
    let formula = formula::read(&hex(text), &log);
    formula.err().map(|refusal| refusal.triple())
}

/// Trips with code 1, opens with code 2; bounces are added up from the trip to
/// the open, and more than 10 of them accept.
fn bounces(events: &[(u32, u32)]) -> (Vec<u8>, Vec<u8>) {
    let pairs: Vec<[u32; 2]> = events.iter().map(|&(code, count)| [code, count]).collect();
    let slices: Vec<&[u32]> = pairs.iter().map(|pair| &pair[..]).collect();
    let many = guard(op(LESS, &[constant(10), sum(8)]));
    let formula = file(&[
        join(&[state(0), step(1), test(0, 0, 1), gather(1, 8)]),
        join(&[state(1), step(1), test(0, 0, 3), gather(1, 8)]),
        join(&[step(2), test(0, 0, 2), gather(1, 8), many]),
        state(2),
    ]);
    (log(&[0, 0], &slices), formula)
}

#[test]
fn a_run_accepts_by_its_sum() {
    let (log, formula) = bounces(&[(1, 2), (3, 4), (3, 4), (2, 1)]);
    let expected = "0 alert 3 4\n1 none\n2 none\n3 none\n";
    assert_eq!(text(&log, &formula), expected);
    // One bounce less.
    let (log, formula) = bounces(&[(1, 2), (3, 4), (3, 3), (2, 1)]);
    assert_eq!(text(&log, &formula), "0 none\n1 none\n2 none\n3 none\n");
}

fn gathered(lists: &[&[u32]]) -> Lists {
    let mut all = Lists::EMPTY;
    for (list, values) in lists.iter().enumerate() {
        values.iter().for_each(|&value| all.add(list, value));
    }
    all
}

/// The value of an expression where so much was gathered.
fn evaluated(lists: &[&[u32]], expression: Vec<u8>) -> u32 {
    let log = Log::read(&hex("0100 00")).expect("a log");
    let bytes = file(&[state(0), step(0), guard(expression)]);
    let formula = formula::read(&bytes, &log).expect("a formula");
    let guard = formula.states[0].steps[0].guard.as_ref().expect("a guard");
    let mut config = Config::START;
    config.lists = gathered(lists);
    value(guard, &config)
}

#[test]
fn a_sum_stops_at_the_largest_value() {
    assert_eq!(evaluated(&[&[TOP - 1, 1]], sum(8)), TOP);
    assert_eq!(evaluated(&[&[TOP, 1]], sum(8)), TOP);
    assert_eq!(evaluated(&[&[1, TOP, TOP]], sum(8)), TOP);
    assert_eq!(evaluated(&[&[TOP - 2, 1]], sum(8)), TOP - 1);
    // Through a search: 4294967295 and 2 are 4294967295, not 1.
    let formula = file(&[
        join(&[state(0), step(1), gather(0, 11)]),
        join(&[state(0), step(2), gather(0, 11)]),
        guard(op(EQUAL, &[sum(11), constant(TOP)])),
        state(2),
    ]);
    let run = found(&log(&[0], &[&[TOP], &[2]]), &formula, 1);
    assert_eq!((run.verdict, run.count), (Verdict::Accept, 2));
    let none = found(&log(&[0], &[&[TOP - 3], &[2]]), &formula, 1);
    assert_eq!(none.verdict, Verdict::None);
}

#[test]
fn lengths_and_different_values() {
    let lists: [&[u32]; 4] = [&[3, 3, 5, 3], &[], &[7], &[0, TOP, 0]];
    for (list, expected) in [(8, (14, 4, 2)), (9, (0, 0, 0)), (10, (7, 1, 1))] {
        let of = |expression: Vec<u8>| evaluated(&lists, expression);
        let found = (of(sum(list)), of(length(list)), of(different(list)));
        assert_eq!(found, expected);
    }
    assert_eq!(evaluated(&lists, sum(11)), TOP);
    assert_eq!(evaluated(&lists, length(11)), 3);
    assert_eq!(evaluated(&lists, different(11)), 2);
}

#[test]
fn a_list_never_gathered_is_empty() {
    let zero = |expression: Vec<u8>| op(NOT, &[expression]);
    let empty = |list: u8| {
        let others = op(AND, &[zero(length(list)), zero(different(list))]);
        guard(op(AND, &[zero(sum(list)), others]))
    };
    let fires = |list: u8| {
        let formula = file(&[state(0), step(1), gather(0, 9), empty(list), state(2)]);
        found(&log(&[0], &[&[5]]), &formula, 1).verdict == Verdict::Accept
    };
    assert_eq!(
        [8, 9, 10, 11].map(fires),
        [true, false, true, true],
        "only list 9 is gathered into"
    );
}

#[test]
fn the_guard_reads_the_lists_after_the_step() {
    let one = guard(op(EQUAL, &[length(8), constant(1)]));
    let formula = file(&[state(0), step(1), gather(0, 8), one, state(2)]);
    let answer = found(&log(&[0], &[&[0]]), &formula, 1);
    assert_eq!(answer.verdict, Verdict::Accept);
    // Nothing of a list shows in the answer.
    assert_eq!((answer.mask, answer.values), (0, [0; 8]));
}

#[test]
fn a_gather_keeps_no_step_from_firing() {
    let formula = file(&[
        join(&[state(0), step(1), gather(0, 8), gather(0, 9), bind(0, 0)]),
        join(&[state(0), step(2), gather(0, 8), gather(1, 9)]),
        state(2),
    ]);
    let answer = found(&log(&[0, 0], &[&[4, 5], &[6, 7]]), &formula, 1);
    assert_eq!((answer.verdict, answer.mask), (Verdict::Accept, 1));
}

/// Events 1 and 2 of the given readings lead to one state by one counter each;
/// a configuration may pass either over.
fn either(first: u32, second: u32) -> (Vec<u8>, Vec<u8>) {
    let log = log(&[0, 0], &[&[0, 0], &[first, 1], &[second, 1], &[0, 2]]);
    let formula = file(&[
        join(&[state(0), step(1)]),
        join(&[state(0), step(2), test(1, 0, 1), gather(0, 8)]),
        join(&[state(0), step(3), test(1, 0, 9)]),
        state(2),
    ]);
    (log, formula)
}

#[test]
fn configurations_that_differ_in_a_list_wait_apart() {
    // State 1, and state 2 with the list [4] or [5].
    let (log, formula) = either(4, 5);
    assert_eq!(found(&log, &formula, 3).width, 3);
    assert_eq!(crowded(&log, &formula, 2), (3, 11, 2));
    // Equal readings: state 1, and state 2 with the list [4].
    let (log, formula) = either(4, 4);
    assert_eq!(found(&log, &formula, 2).width, 2);
    assert_eq!(crowded(&log, &formula, 1), (3, 11, 1));
}

/// Waiting in state 3 with two of the three readings, in their order.
fn two_of(readings: [u32; 3]) -> usize {
    let events: Vec<[u32; 1]> = [0].into_iter().chain(readings).map(|one| [one]).collect();
    let slices: Vec<&[u32]> = events.iter().map(|one| &one[..]).collect();
    let formula = file(&[
        join(&[state(0), step(1)]),
        join(&[state(0), step(2), gather(0, 8)]),
        join(&[state(0), step(3), gather(0, 8)]),
        join(&[state(0), step(3), test(0, 0, 99)]),
    ]);
    // Event 3 is behind them all: state 1, state 2 with one reading each.
    found(&log(&[0], &slices), &formula, 64).width
}

#[test]
fn lists_are_sequences() {
    // State 1 alone, [7] in state 2, [7, 7] in state 3.
    assert_eq!(two_of([7, 7, 7]), 1 + 1 + 1);
    // [7] and [8] in state 2; [7, 8], [7, 7] and [8, 7] in state 3: the two
    // lists of one multiset are two.
    assert_eq!(two_of([7, 8, 7]), 1 + 2 + 3);
    // Likewise [0, 3] and [3, 0]; [0, 3] by two events is one.
    assert_eq!(two_of([0, 3, 0]), 1 + 2 + 3);
    assert_eq!(two_of([0, 3, 3]), 1 + 2 + 2);
}

#[test]
fn the_same_value_in_another_list_is_another_configuration() {
    let stuck = join(&[state(0), step(1), test(0, 0, 99)]);
    let formula = |one: u8, other: u8| {
        let both = join(&[step(1), gather(0, one), step(1), gather(0, other)]);
        file(&[state(0), both, stuck.clone()])
    };
    let log = log(&[0], &[&[5]]);
    assert_eq!(found(&log, &formula(8, 9), 2).width, 2);
    assert_eq!(crowded(&log, &formula(8, 9), 1), (3, 11, 0));
    assert_eq!(found(&log, &formula(10, 10), 1).width, 1);
}

#[test]
fn an_empty_list_differs_from_one_with_a_0() {
    let stuck = join(&[state(0), step(1), test(0, 0, 99)]);
    let formula = file(&[state(0), step(1), gather(0, 8), step(1), stuck]);
    assert_eq!(found(&log(&[0], &[&[0]]), &formula, 2).width, 2);
}

#[test]
fn one_step_gathers_a_variable_twice() {
    assert_eq!(outcome("1000 1101 170008 170109 1002 00"), None);
    assert_eq!(outcome("1000 1101 170008 170108 1002 00"), Some((2, 12, 7)));
    assert_eq!(
        outcome("1000 1101 17000B 140000 170009 17000B 1002 00"),
        Some((2, 12, 13))
    );
    // Another step may.
    assert_eq!(outcome("1000 1101 170008 1101 170008 1002 00"), None);
    assert_eq!(outcome("1000 1101 170008 1000 1102 170008 1002 00"), None);
}

#[test]
fn twice_stands_between_cut_short_and_value() {
    // Foreign behind the guard, surplus as a ninth, cut short.
    let step = "1000 1101 170008";
    assert_eq!(outcome(&format!("{step} 15 2C08 170008")), Some((2, 2, 10)));
    let seven = "140000".repeat(7);
    let ninth = format!("{step} {seven} 170008");
    assert_eq!(outcome(&ninth), Some((2, 4, 28)));
    assert_eq!(outcome(&format!("{step} 1700")), Some((2, 1, 7)));
    assert_eq!(outcome(&format!("{step} 17")), Some((2, 1, 7)));
    // Before a field that is not there.
    assert_eq!(outcome(&format!("{step} 170908 00")), Some((2, 12, 7)));
    assert_eq!(outcome(&format!("{step} 170909 00")), Some((2, 3, 7)));
    // What names no list is a value, the second time too.
    for variable in ["00", "07", "0C", "FF"] {
        let bytes = format!("{step} 1700{variable} 1700{variable} 00");
        assert_eq!(outcome(&bytes), Some((2, 3, 7)), "{variable}");
    }
}

#[test]
fn list_variables_elsewhere_do_not_exist() {
    for variable in ["08", "09", "0A", "0B", "0C"] {
        let refused = |text: &str| outcome(&text.replace("??", variable));
        assert_eq!(refused("16?? 1000 00"), Some((2, 3, 0)));
        assert_eq!(refused("1000 1100 130000?? 00"), Some((2, 3, 4)));
        assert_eq!(refused("1000 1100 1400?? 00"), Some((2, 3, 4)));
        assert_eq!(refused("1000 1100 15 21?? 00"), Some((2, 3, 5)));
    }
    for code in ["2C", "2D", "2E"] {
        let guarded = |rest: &str| outcome(&format!("1000 1100 15 {code}{rest}"));
        for variable in ["00", "07", "0C", "FF"] {
            assert_eq!(guarded(&format!("{variable} 00")), Some((2, 3, 5)));
        }
        for variable in ["08", "09", "0A", "0B"] {
            assert_eq!(guarded(&format!("{variable} 00")), None);
        }
        assert_eq!(guarded(""), Some((2, 1, 5)));
    }
}

#[test]
fn gathers_count_with_tests_and_binds() {
    let eight = "170008 170009 17000A 17000B 140000 140000 140000 140000";
    let start = "1000 1101";
    assert_eq!(outcome(&format!("{start} {eight} 1002 00")), None);
    for part in ["140000", "170008", "17", "12"] {
        let bytes = format!("{start} {eight} {part}");
        assert_eq!(outcome(&bytes), Some((2, 4, 28)), "{part}");
    }
}

/// After which events is the step hopeless, from state 1 with the given lists?
/// Field 0 rises, field 1 is plain.
fn hopeless(lists: &[&[u32]], parts: &[Vec<u8>]) -> Vec<bool> {
    let bytes = log(&[1, 0], &[&[4, 9], &[5, 1], &[6, 5]]);
    let log = Log::read(&bytes).expect("a log");
    let first = join(&[state(0), step(1)]);
    let bytes = file(&[first, state(0), step(1), join(parts)]);
    let formula = formula::read(&bytes, &log).expect("a formula");
    let setting = Setting {
        log: &log,
        formula: &formula,
    };
    let mut config = Config::START;
    config.state = 1;
    config.lists = gathered(lists);
    let step = &formula.states[1].steps[0];
    (0..log.events())
        .map(|n| setting.hopeless(&config, step, n))
        .collect()
}

#[test]
fn a_falling_guard_over_a_sum() {
    let within = |most: u32| guard(op(AT_MOST, &[sum(8), constant(most)]));
    // 10 gathered before: 14, 15 and 16 with the event's own.
    let after = |field: u8| hopeless(&[&[10]], &[gather(field, 8), within(15)]);
    assert_eq!(after(0), [false, false, true]);
    // Of a plain field, 19, 11 and 15: never.
    assert_eq!(after(1), [false; 3]);
    // Rising, not falling: never.
    let beyond = guard(op(LESS, &[constant(90), sum(8)]));
    assert_eq!(hopeless(&[&[10]], &[gather(0, 8), beyond]), [false; 3]);
    // Not gathered into: both, at once or never.
    assert_eq!(hopeless(&[&[16]], &[within(15)]), [true; 3]);
    assert_eq!(hopeless(&[&[15]], &[within(15)]), [false; 3]);
    // Another list than the guard's does not matter.
    assert_eq!(hopeless(&[&[16]], &[gather(1, 9), within(15)]), [true; 3]);
}

#[test]
fn a_sum_that_has_stopped() {
    let less = guard(op(LESS, &[sum(8), constant(TOP)]));
    let after = hopeless(&[&[TOP - 5]], &[gather(0, 8), less]);
    assert_eq!(after, [false, true, true]);
}

#[test]
fn a_length_is_both() {
    let short = |most: u32| guard(op(AT_MOST, &[length(8), constant(most)]));
    // The step's own value counts, whatever its field.
    for field in [0, 1] {
        let after = |most: u32| hopeless(&[&[1, 1]], &[gather(field, 8), short(most)]);
        assert_eq!(after(2), [true; 3]);
        assert_eq!(after(3), [false; 3]);
    }
    assert_eq!(hopeless(&[&[1, 1]], &[short(1)]), [true; 3]);
    let equal = guard(op(EQUAL, &[length(8), constant(2)]));
    assert_eq!(hopeless(&[&[1, 1]], &[gather(1, 8), equal]), [true; 3]);
}

#[test]
fn different_values_are_both_where_the_step_gathers_none() {
    let few = || guard(op(AT_MOST, &[different(8), constant(1)]));
    assert_eq!(hopeless(&[&[1, 2]], &[few()]), [true; 3]);
    assert_eq!(hopeless(&[&[1, 2]], &[gather(1, 9), few()]), [true; 3]);
    assert_eq!(hopeless(&[&[1, 1]], &[few()]), [false; 3]);
    for field in [0, 1] {
        let after = hopeless(&[&[1, 2]], &[gather(field, 8), few()]);
        assert_eq!(after, [false; 3]);
    }
}

#[test]
fn a_sum_expires_after_the_event_that_passes_the_bound() {
    // Waiting for code 9 while the time, gathered, adds up to at most 15.
    let within = guard(op(AT_MOST, &[sum(8), constant(15)]));
    let formula = |field: u8| {
        file(&[
            join(&[state(0), step(1)]),
            join(&[state(0), step(2), test(1, 0, 9), gather(field, 8)]),
            within.clone(),
            state(2),
        ])
    };
    let waiting = |field: u8, events: &[&[u32]]| {
        let log = Log::read(&log(&[1, 0], events)).expect("a log");
        let formula = formula::read(&formula(field), &log).expect("a formula");
        let setting = Setting {
            log: &log,
            formula: &formula,
        };
        let start = setting.fire(&Config::START, &formula.states[0].steps[0], 0);
        let start = start.expect("it fires");
        let after: Vec<bool> = (0..log.events())
            .map(|n| setting.hopeful(&start, n))
            .collect();
        after
    };
    let events: [&[u32]; 3] = [&[14, 1], &[15, 30], &[16, 1]];
    assert_eq!(waiting(0, &events), [true, true, false]);
    assert_eq!(waiting(1, &events), [true, true, true]);
}

#[test]
fn thirty_two_values_in_four_lists() {
    let mut events: Vec<[u32; 2]> = Vec::new();
    for n in 0..32 {
        events.push([n, n % 2]);
    }
    let slices: Vec<&[u32]> = events.iter().map(|pair| &pair[..]).collect();
    let all = join(&[gather(0, 8), gather(1, 9), gather(0, 10), gather(1, 11)]);
    let equals = |expression: Vec<u8>, value: u32| op(EQUAL, &[expression, constant(value)]);
    let done = op(
        AND,
        &[
            op(AND, &[equals(sum(8), 31 * 16), equals(sum(9), 16)]),
            op(AND, &[equals(different(10), 32), equals(different(11), 2)]),
        ],
    );
    let formula = file(&[
        join(&[state(1), step(1), all.clone(), guard(done)]),
        join(&[step(0), all, guard(op(LESS, &[length(11), constant(32)]))]),
        state(2),
    ]);
    let answer = found(&log(&[1, 0], &slices), &formula, 1);
    assert_eq!((answer.verdict, answer.count), (Verdict::Accept, 32));
}
