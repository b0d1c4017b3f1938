//! Heavy cases that are legal: 8 fields, 16 states, 8 steps in every state
//! that may have them, up to 8 parts a step, long guards, seats nearly full.

use crate::files::Pair;
use reference::compose::*;

#[derive(Clone, Copy, Debug, PartialEq, Eq)]
pub enum Kind {
    /// About 60 threads wait in ordinary states until every 128th event.
    Ordinary,
    /// The same, and every event is one that may lack fields: field 6 never
    /// arrives, field 5 is absent in every fourth event.
    Lacking,
    /// As ordinary, and the clock is set behind every 128th event, by eight
    /// marks running.
    Clocked,
    /// About 60 threads wait behind guards of 31 commands, for 10 events each.
    Guards,
    /// The same behind guards of 31 commands with IFs, none of them hopeless.
    Ifs,
    /// About 60 threads wait behind TESTVs, for 10 events each.
    Tests,
    /// About 60 threads wait behind falling guards, one of which makes its step
    /// hopeless at every event.
    Falling,
    /// About 60 threads move on at every event through committed states.
    Committed,
    /// The same, and each of them gathers what its guard reads.
    Bounces,
    /// At every event each of up to 50 threads takes six steps, nearly all of
    /// which lead to configurations that wait already.
    Churn,
    /// Every start ends on the last event, and its tied value is new.
    Overlap,
    /// One thread a start waits to the end in vain.
    Quiet,
    /// No step of the first state ever fires.
    Still,
    /// All 64 seats are taken from event 63 on; no step of theirs ever fires.
    Full,
    /// All 64 seats are taken from event 36 on, 56 of them by configurations
    /// that differ in the order of their lists alone; no step ever fires.
    Gather,
}

impl Kind {
    pub const ALL: [Kind; 15] = [
        Kind::Ordinary,
        Kind::Lacking,
        Kind::Clocked,
        Kind::Guards,
        Kind::Ifs,
        Kind::Tests,
        Kind::Falling,
        Kind::Committed,
        Kind::Bounces,
        Kind::Churn,
        Kind::Overlap,
        Kind::Quiet,
        Kind::Still,
        Kind::Full,
        Kind::Gather,
    ];

    pub fn name(self) -> &'static str {
        match self {
            Kind::Ordinary => "ordinary",
            Kind::Lacking => "lacking",
            Kind::Clocked => "clocked",
            Kind::Guards => "guards",
            Kind::Ifs => "ifs",
            Kind::Tests => "tests",
            Kind::Falling => "falling",
            Kind::Committed => "committed",
            Kind::Bounces => "bounces",
            Kind::Churn => "churn",
            Kind::Overlap => "overlap",
            Kind::Quiet => "quiet",
            Kind::Still => "still",
            Kind::Full => "full",
            Kind::Gather => "gather",
        }
    }

    pub fn named(name: &str) -> Option<Kind> {
        Kind::ALL.into_iter().find(|kind| kind.name() == name)
    }
}

const EQUALS: u8 = 0;
const UNEQUAL: u8 = 1;
const LESS_THAN: u8 = 2;
const AT_LEAST: u8 = 5;

const TIME: u8 = 0;
const CODE: u8 = 2;
const FLAG: u8 = 4;

const REJECT_STATE: u8 = 14;
const ACCEPT_STATE: u8 = 15;

/// A log of so many events with a heavy formula.
pub fn pair(kind: Kind, events: usize) -> Pair {
    let period = match kind {
        Kind::Overlap => events,
        Kind::Churn => 20,
        _ => 128,
    };
    let states = match kind {
        Kind::Ordinary | Kind::Lacking | Kind::Clocked => ordinary(),
        Kind::Guards => guards(),
        Kind::Ifs => ifs(),
        Kind::Tests => tests(),
        Kind::Falling => falling(),
        Kind::Committed => committed(Vec::new()),
        Kind::Bounces => committed(bounce()),
        Kind::Churn => churn(),
        Kind::Overlap => overlap(),
        Kind::Quiet => quiet(),
        Kind::Still => still(),
        Kind::Full => full(),
        Kind::Gather => gathering(),
    };
    Pair {
        log: log_of(events as u32, period as u32, kind),
        formula: file(&states),
    }
}

/// Time, when threads grow old, one of 60 codes, when the start grows old, a
/// flag on the last event of each period, and three more; some may be absent,
/// and the clock may be set behind each period.
fn log_of(events: u32, period: u32, kind: Kind) -> Vec<u8> {
    let lack = kind == Kind::Lacking;
    let mut parts: Vec<Vec<u8>> = [1, 1, 0, 1, 0, 0, 1, 0].map(field).to_vec();
    for n in 0..events {
        let code = n * 7 % 60;
        let flag = u32::from(n % period == period - 1);
        let values = [n, n + 10, code, n + 11, flag, n % 3, n / 3, n * n];
        let mut kept = values.map(Some);
        kept[6] = None;
        kept[5] = kept[5].filter(|_| n % 4 != 1);
        parts.push(if lack { lacking(&kept) } else { event(&values) });
        parts.extend((kind == Kind::Clocked && flag == 1).then(|| vec![0x04; 8]));
    }
    file(&parts)
}

/// Seven tests that hold on every event.
fn seven() -> Vec<u8> {
    join(&[
        test(TIME, AT_LEAST, 0),
        test(1, AT_LEAST, 10),
        test(CODE, UNEQUAL, 60),
        test(3, AT_LEAST, 11),
        test(FLAG, UNEQUAL, 2),
        test(5, UNEQUAL, 3),
        test(7, UNEQUAL, 3),
    ])
}

/// A step of eight tests of which only the last does not hold; it is hopeless
/// from the start.
fn hopeless(target: u8) -> Vec<u8> {
    join(&[step(target), seven(), test(1, LESS_THAN, 10)])
}

/// A step of eight tests of which only the last does not hold; it is never
/// hopeless.
fn vain(target: u8) -> Vec<u8> {
    join(&[step(target), seven(), test(CODE, EQUALS, 60)])
}

fn times(count: usize, part: Vec<u8>) -> Vec<u8> {
    part.repeat(count)
}

/// A state that is reached by some path and by no run.
fn idle(kind: u8, next: u8) -> Vec<u8> {
    join(&[state(kind), times(7, hopeless(next)), vain(next)])
}

/// The first state: its last step fires on every event.
fn first(parts: Vec<u8>) -> Vec<u8> {
    let others = times(7, hopeless(REJECT_STATE));
    join(&[state(0), others, step(1), parts])
}

/// States from `from` up to the ends, which no run reaches, and the ends.
fn rest(from: u8, kind: u8) -> Vec<u8> {
    let idle: Vec<Vec<u8>> = (from..REJECT_STATE)
        .map(|number| idle(kind, number + 1))
        .collect();
    join(&[idle.concat(), state(3), state(2)])
}

/// Every code starts a thread in one of eight states; threads leave on a flag.
fn ordinary() -> Vec<Vec<u8>> {
    let mut parts = vec![first(bind(TIME, 7)), state(0)];
    for number in 2..10 {
        let eighth = test(7, UNEQUAL, 3);
        // Eight codes a state.
        let low = u32::from(number - 2) * 8;
        let range = join(&[test(CODE, AT_LEAST, low), test(CODE, LESS_THAN, low + 8)]);
        parts.push(join(&[step(number), eighth, range, bind(CODE, 0)]));
    }
    for number in 2..10 {
        let leave = join(&[step(ACCEPT_STATE), seven(), test(FLAG, EQUALS, 1)]);
        let next = if number == 9 { 10 } else { REJECT_STATE };
        parts.push(join(&[state(0), times(6, hopeless(next)), vain(10), leave]));
    }
    parts.push(rest(10, 0));
    parts
}

/// 31 commands that come to 0: sixteen leaves, of which `leaf` is one.
fn long_zero(leaf: Vec<u8>) -> Vec<u8> {
    let pair = |code: u8| op(code, &[var(3), count(1)]);
    let four = |one: u8, two: u8| op(AND, &[pair(one), pair(two)]);
    let low = op(OR, &[four(ADD, SUB), four(SUB, ADD)]);
    let high = op(
        AND,
        &[
            four(AT_MOST, LESS),
            op(AND, &[op(LESS, &[leaf, constant(0)]), pair(LESS)]),
        ],
    );
    op(AND, &[low, high])
}

/// Six threads an event for 10 events; each waits for 10 events behind eight
/// steps with the given parts, the first seven and the last. Its time and 10
/// more is in variable 3.
fn waiting(seven: Vec<u8>, last: Vec<u8>) -> Vec<Vec<u8>> {
    let mut parts = vec![first(bind(3, 4)), state(0)];
    for number in 2..10 {
        let young = testv(TIME, LESS_THAN, 4);
        let code = match number < 8 {
            true => test(CODE, LESS_THAN, 60),
            false => test(CODE, EQUALS, 60),
        };
        parts.push(join(&[step(number), young, code, bind(1, 3)]));
    }
    for number in 2..10 {
        let next = if number == 9 { 10 } else { ACCEPT_STATE };
        let others = times(7, join(&[step(next), seven.clone()]));
        parts.push(join(&[state(0), others, step(next), last.clone()]));
    }
    parts.push(rest(10, 0));
    parts
}

/// A thread's time is not over.
fn young() -> Vec<u8> {
    testv(TIME, LESS_THAN, 3)
}

/// Eight guards, of which seven are hopeless at once.
fn guards() -> Vec<Vec<u8>> {
    let settled = join(&[young(), guard(long_zero(var(3)))]);
    let open = join(&[young(), bind(CODE, 2), guard(long_zero(var(2)))]);
    waiting(settled, open)
}

/// 31 commands with IFs that come to 0, which depends on variable 2.
fn ifs() -> Vec<Vec<u8>> {
    let pair = |code: u8| op(code, &[var(3), count(1)]);
    // Not the sum but the difference is taken, which is not 0.
    let difference = op(IF, &[pair(LESS), pair(ADD), pair(SUB)]);
    let never = op(LESS, &[var(2), constant(0)]);
    let all = op(AND, &[difference.clone(), op(AND, &[difference, never])]);
    let later = op(LESS, &[count(1), var(3)]);
    let zero = op(IF, &[later, all, op(NOT, &[constant(1)])]);
    let open = join(&[young(), bind(CODE, 2), guard(zero)]);
    waiting(open.clone(), open)
}

/// Eight TESTVs of which only the last does not hold.
fn tests() -> Vec<Vec<u8>> {
    let held = join(&[
        young(),
        testv(1, AT_LEAST, 3),
        testv(3, AT_LEAST, 3),
        testv(TIME, UNEQUAL, 3),
        testv(3, UNEQUAL, 3),
        testv(FLAG, UNEQUAL, 3),
        testv(5, UNEQUAL, 3),
        testv(FLAG, EQUALS, 3),
    ]);
    waiting(held.clone(), held)
}

/// A step that never fires, with a falling guard of 29 commands: not so much
/// time has passed.
fn fading(passed: u32) -> Vec<u8> {
    let less = || {
        let since = op(SUB, &[var(2), var(3)]);
        op(LESS, &[since, constant(passed)])
    };
    let two = || op(AND, &[less(), less()]);
    let five = op(AND, &[two(), op(AND, &[less(), two()])]);
    join(&[test(CODE, EQUALS, 60), bind(1, 2), guard(five)])
}

/// As above; the steps of a thread become hopeless one after the other.
fn falling() -> Vec<Vec<u8>> {
    let mut parts = waiting(Vec::new(), Vec::new());
    for (number, part) in parts[10..18].iter_mut().enumerate() {
        let next = if number == 7 { 10 } else { ACCEPT_STATE };
        *part = state(0);
        for passed in 3..11 {
            part.extend(join(&[step(next), fading(passed)]));
        }
    }
    parts
}

/// Threads that move meet others and those that wait: the steps of a state lead
/// back to it, and only how many were taken and which of two variables are held
/// tells threads apart.
fn churn() -> Vec<Vec<u8>> {
    let to = |variable: u8| {
        let common = test(CODE, UNEQUAL, 60);
        join(&[step(1), common, bind(FLAG, variable)])
    };
    let moves = join(&[times(3, join(&[to(1), to(2)])), hopeless(2)]);
    let leave = join(&[step(ACCEPT_STATE), test(FLAG, EQUALS, 1)]);
    vec![
        first(bind(TIME, 7)),
        join(&[state(0), moves, leave]),
        rest(2, 0),
    ]
}

/// Gathers a code and asks for its list.
fn bounce() -> Vec<u8> {
    let few = op(LESS, &[length(8), constant(40)]);
    let some = op(LESS, &[constant(0), different(8)]);
    let much = op(AT_MOST, &[different(8), sum(9)]);
    let gathers = join(&[gather(CODE, 8), gather(TIME, 9)]);
    join(&[gathers, guard(op(AND, &[few, op(AND, &[some, much])]))])
}

/// Two threads an event, each of which takes its last step on every event
/// until it has taken 32 or there is a flag. That step has some more parts, or
/// as many tests as there may be.
fn committed(more: Vec<u8>) -> Vec<Vec<u8>> {
    let mut parts = vec![first(bind(TIME, 7)), state(0), times(6, hopeless(2))];
    parts.push(join(&[step(2), seven(), bind(TIME, 0)]));
    parts.push(join(&[step(8), seven(), bind(TIME, 0)]));
    for number in 2..REJECT_STATE {
        let next = if number == 13 { 2 } else { number + 1 };
        let leave = join(&[step(ACCEPT_STATE), seven(), test(FLAG, EQUALS, 1)]);
        let tests = match more.is_empty() {
            true => join(&[seven(), test(CODE, UNEQUAL, 60)]),
            false => test(CODE, UNEQUAL, 60),
        };
        let move_on = join(&[step(next), tests, more.clone()]);
        let others = times(6, hopeless(REJECT_STATE));
        parts.push(join(&[state(1), others, leave, move_on]));
    }
    parts.push(join(&[state(3), state(2)]));
    parts
}

/// All eight variables are tied; the last one differs from start to start.
fn overlap() -> Vec<Vec<u8>> {
    let mut parts: Vec<Vec<u8>> = (0..8).map(tied).collect();
    let same: Vec<Vec<u8>> = (0..7).map(|variable| bind(FLAG, variable)).collect();
    parts.push(first(join(&[same.concat(), bind(TIME, 7)])));
    let leave = join(&[step(ACCEPT_STATE), seven(), test(FLAG, EQUALS, 1)]);
    parts.push(join(&[state(0), times(6, hopeless(2)), vain(2), leave]));
    parts.push(rest(2, 0));
    parts
}

fn quiet() -> Vec<Vec<u8>> {
    vec![first(bind(TIME, 7)), rest(1, 0)]
}

fn still() -> Vec<Vec<u8>> {
    vec![rest(0, 0)]
}

/// A thread an event for 63 events, beside the one that they come from; each
/// tries eight steps of eight tests and binds and a guard of 31 commands on
/// every event.
fn full() -> Vec<Vec<u8>> {
    let young = test(TIME, LESS_THAN, 64);
    let begin = join(&[step(2), young, bind(TIME, 0), bind(1, 3)]);
    let others = join(&[times(6, hopeless(REJECT_STATE)), vain(REJECT_STATE)]);
    let source = join(&[state(0), others, begin]);
    let open = join(&[seven(), bind(CODE, 2), guard(long_zero(var(2)))]);
    let ends = times(7, join(&[step(ACCEPT_STATE), open.clone()]));
    let waiting = join(&[state(0), ends, step(3), open]);
    vec![first(bind(TIME, 7)), source, waiting, rest(3, 0)]
}

/// Rounds of each of the two loops that gather the same for all.
const ROUNDS: u32 = 12;

/// Gathers the time or what is 10 later into each of three lists, as the bits
/// of `choice` say, and one more into the fourth.
fn gathers(choice: u8) -> Vec<u8> {
    let field = |bit: u8| choice >> bit & 1;
    join(&[
        gather(field(0), 8),
        gather(field(1), 9),
        gather(field(2), 10),
        gather(3, 11),
    ])
}

/// A loop of so many rounds, the last of which leads on.
fn rounds(own: u8) -> Vec<u8> {
    let again = guard(op(LESS, &[count(own), constant(ROUNDS)]));
    let others = times(6, hopeless(REJECT_STATE));
    let round = join(&[step(own), gathers(0), again]);
    join(&[state(1), others, round, step(own + 1), gathers(0)])
}

/// On the event of this time one thread becomes as many as there are choices;
/// on the next each takes the choice that makes up for it, so that all sums
/// are again one number.
fn branches(own: u8, time: u32, choices: u8, sum_after: u32) -> Vec<u8> {
    let mut parts = vec![state(0), times(8 - usize::from(choices), hopeless(own))];
    for choice in 0..choices {
        let now = test(TIME, LESS_THAN, time + 1);
        parts.push(join(&[step(own + 1), now, gathers(choice)]));
    }
    parts.push(state(1));
    let is_even = |list: u8| op(EQUAL, &[sum(list), constant(sum_after)]);
    let all = op(AND, &[op(AND, &[is_even(8), is_even(9)]), is_even(10)]);
    for choice in 0..8 {
        parts.push(join(&[step(own + 2), gathers(choice), guard(all.clone())]));
    }
    join(&parts)
}

/// 31 commands over the lists that come to 0.
fn long_zero_of_lists() -> Vec<u8> {
    let pair = |code: u8, list: u8| op(code, &[sum(list), length(list)]);
    let four = |one: u8, two: u8, list: u8| op(AND, &[pair(one, list), pair(two, list)]);
    let low = op(OR, &[four(ADD, SUB, 8), four(SUB, ADD, 9)]);
    let never = op(LESS, &[different(11), constant(0)]);
    let high = op(
        AND,
        &[four(AT_MOST, LESS, 10), op(AND, &[never, pair(LESS, 8)])],
    );
    op(AND, &[low, high])
}

/// 56 threads with lists of 28 values, equal in sums and lengths; beside them a
/// source and seven threads that it starts. Each of the 63 tries eight steps of
/// eight tests and gathers and a guard of 31 commands on every event.
fn gathering() -> Vec<Vec<u8>> {
    let others = times(6, hopeless(REJECT_STATE));
    let begin = join(&[state(0), others.clone(), step(1), step(8)]);
    // The sum of the times 1 to 12, and of two events of which one is 10 later.
    let first = ROUNDS * (ROUNDS + 1) / 2;
    let two = |time: u32| time + time + 1 + 10;
    let (one, other) = (ROUNDS + 1, ROUNDS + 3);
    let open = join(&[seven(), gather(CODE, 8), guard(long_zero_of_lists())]);
    let ends = times(7, join(&[step(ACCEPT_STATE), open.clone()]));
    let waiting = join(&[state(0), ends, step(9), open]);
    let window = join(&[test(TIME, AT_LEAST, 30), test(TIME, LESS_THAN, 37)]);
    let start = join(&[step(7), window, gather(TIME, 8)]);
    let source = join(&[state(0), others, vain(REJECT_STATE), start]);
    vec![
        begin,
        rounds(1),
        branches(2, one, 7, first + two(one)),
        branches(4, other, 8, first + two(one) + two(other)),
        rounds(6),
        waiting,
        source,
        rest(9, 0),
    ]
}
