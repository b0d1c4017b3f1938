//! Where marks of the clock's setting count: in what a log's bytes are read
//! as, and in a search, told by the same events with no mark.

use crate::formula::Kind;
use crate::log::{Log, MOST_MARKS};
use crate::machine::{Config, Setting};
use crate::refusal::{FOREIGN, STEP_BACK, SURPLUS};
use crate::runs::{literal, threads, Outcome};

pub const READ: usize = 10;

/// What reading a log may meet, in the order of `read`.
pub const OF_LOGS: [&str; READ] = [
    "a fall that a mark allows",
    "a fall since a mark",
    "a mark before the first FIELD",
    "a FIELD right behind a mark",
    "a mark too many",
    "as many marks as may be",
    "two marks running",
    "a mark before the first event",
    "a mark before END",
    "a mark between events",
];

/// What the bytes of a log meet.
pub fn read(bytes: &[u8]) -> [bool; READ] {
    let mut met = [false; READ];
    match Log::read(bytes) {
        Ok(log) => accepted(&log, &mut met),
        Err(refusal) => {
            let at = bytes.get(refusal.place).copied();
            // The commands before the bad one.
            let before = [&bytes[..refusal.place], &[0x00]].concat();
            let before = Log::read(&before).unwrap_or_default();
            let behind_mark = before.marks > 0 && before.events() == 0;
            match (refusal.number, at) {
                (STEP_BACK, _) => met[1] = before.marks > 0,
                (FOREIGN, Some(0x04)) => met[2] = true,
                (FOREIGN, Some(0x01)) => met[3] = behind_mark,
                (SURPLUS, Some(0x04)) => met[4] = true,
                _ => {}
            }
        }
    }
    met
}

/// What an accepted log has.
fn accepted(log: &Log, met: &mut [bool; READ]) {
    if log.marks == 0 {
        return;
    }
    let plain = log.unmarked();
    let falls = |n: usize, field: usize| {
        let pair = log.event(n)[field].zip(plain.latest(field, n - 1));
        log.rising[field] && pair.is_some_and(|(now, before)| now < before)
    };
    let fields = log.rising.len();
    met[0] = (1..log.events()).any(|n| (0..fields).any(|field| falls(n, field)));
    met[5] = log.marks == MOST_MARKS;
    let first = log.stretch.first().copied().unwrap_or(log.marks);
    let last = log.stretch.last().copied().unwrap_or(0);
    let between = |least: usize| log.stretch.windows(2).any(|two| two[1] - two[0] >= least);
    met[6] = between(2) || first > 1 || log.marks - last > 1;
    met[7] = first > 0 && log.events() > 0;
    met[8] = log.marks > last;
    met[9] = between(1);
}

pub const MET: usize = 8;

/// What a search may meet, in the order of `met`.
pub const NAMES: [&str; MET] = [
    "a run cut by a mark",
    "another width for a mark",
    "crowded but for a mark",
    "crowded on the last event before a mark",
    "a configuration that waits up to a mark",
    "a committed state that would fire behind a mark",
    "a step let off since a mark",
    "a run behind a mark",
];

/// Few seats, so that searches are crowded often.
const SEATS: [usize; 4] = [1, 2, 4, 8];
const ALL_SEATS: usize = 64;

/// What a search from the start meets; nothing where there are more than
/// `limit` runs.
pub fn met(setting: &Setting, start: usize, limit: usize) -> Option<[bool; MET]> {
    let log = setting.log.unmarked();
    let plain = Setting {
        log: &log,
        formula: setting.formula,
    };
    let mut met = [false; MET];
    by_answers(setting, &plain, start, &mut met);
    let all = literal::all(setting, start, limit)?;
    by_waiting(setting, &plain, start, &all, &mut met);
    Some(met)
}

/// What the answers with marks and without them tell.
fn by_answers(setting: &Setting, plain: &Setting, start: usize, met: &mut [bool; MET]) {
    let answers = |seats: usize| {
        let ours = threads::search(setting, start, seats);
        (ours, threads::search(plain, start, seats))
    };
    if let (
        Outcome::Done { run, width },
        Outcome::Done {
            run: other,
            width: wider,
        },
    ) = answers(ALL_SEATS)
    {
        met[0] = run.is_none() && other.is_some();
        met[1] = width != wider;
        met[7] = run.is_some() && setting.log.stretch[start] > 0;
    }
    let behind = setting.log.around(start).end;
    for (ours, theirs) in SEATS.map(answers) {
        let is_crowded = |outcome: &Outcome| matches!(outcome, Outcome::Crowded(_));
        met[2] |= !is_crowded(&ours) && is_crowded(&theirs);
        met[3] |= behind < setting.log.events() && ours == Outcome::Crowded(behind - 1);
    }
}

/// What the configurations tell that wait up to the end of the stretch.
fn by_waiting(
    setting: &Setting,
    plain: &Setting,
    start: usize,
    all: &literal::All,
    met: &mut [bool; MET],
) {
    let (behind, events) = (setting.log.around(start).end, setting.log.events());
    let would_fire = |config: &Config| {
        let steps = &setting.state(config).steps;
        let fires = |n: usize| {
            let mut fired = steps.iter().map(|step| setting.fire(config, step, n));
            fired.any(|after| after.is_some())
        };
        setting.kind(config) == Kind::Committed && (behind..events).any(fires)
    };
    let waiting = all.waiting(setting, behind - 1);
    met[4] = behind < events && !waiting.is_empty();
    met[5] = waiting.iter().any(would_fire);
    met[6] = (start..behind).any(|n| {
        let let_off = |config: &Config| setting.hopeful(config, n) && !plain.hopeful(config, n);
        all.alive(setting, n).iter().any(let_off)
    });
}
