//! Stands in for the product's static library: the same functions, made of the
//! reference. A fault may be switched on, to see that the comparison shows it.

mod absent;
mod fault;
mod lists;
mod logs;
mod marks;
mod ties;

pub use fault::{switch, Fault};

use crate::checks::found_of;
use crate::product::{Found, LogRead, Refused, ACCEPT, NONE, REJECT};
use fault::has;
use reference::analysis;
use reference::formula;
use reference::log::Log;
use reference::machine::Setting;
use reference::refusal::{Refusal, CALL, CROWDED, FOREIGN, OUTSIDE, SHORT, SURPLUS};
use reference::refusal::{ABSENT_STATE, DEAD_START, TWICE, UNBOUND, VALUE};
use reference::runs::threads;
use reference::search::{self, Answer, SEAT_WORDS};

fn refused(refusal: &Refusal) -> Refused {
    Refused {
        file: refusal.file as usize,
        number: refusal.number as usize,
        place: refusal.place,
    }
}

/// SAFETY: pointer and length are those of a slice that outlives the use.
unsafe fn bytes<'a>(pointer: *const u8, len: usize) -> &'a [u8] {
    std::slice::from_raw_parts(pointer, len)
}

#[no_mangle]
unsafe extern "C" fn hikwallu_read_log(log: *const u8, log_len: usize) -> LogRead {
    // SAFETY: as the caller promises.
    let log = unsafe { bytes(log, log_len) };
    let mut answer = LogRead::default();
    match logs::read(log) {
        Ok(log) => {
            answer.fields = log.rising.len() - usize::from(has(Fault::LogFields));
            answer.events = log.events() + usize::from(has(Fault::LogEvents));
        }
        Err(refusal) => {
            answer.refused = refused(&refusal);
            answer.refused.place += usize::from(has(Fault::LogPlace));
            answer.refused.file += usize::from(has(Fault::LogFile));
            answer.events = usize::from(has(Fault::LogCountsOfRefused));
        }
    }
    answer
}

#[no_mangle]
unsafe extern "C" fn hikwallu_read_formula(
    formula: *const u8,
    formula_len: usize,
    fields: usize,
) -> Refused {
    // SAFETY: as the caller promises.
    let formula = unsafe { bytes(formula, formula_len) };
    let mut log = Log::default();
    log.rising = vec![false; if has(Fault::FieldsIgnored) { 8 } else { fields }];
    let Err(refusal) = formula::read(formula, &log) else {
        return Refused::default();
    };
    let mut answer = refused(&refusal);
    answer.place += usize::from(has(Fault::FormulaPlace));
    if has(Fault::FormulaNumber) && refusal.number == UNBOUND {
        answer.number = VALUE as usize;
    }
    if has(Fault::TwiceAsValue) && refusal.number == TWICE {
        answer.number = VALUE as usize;
    }
    if refusal.number == ABSENT_STATE {
        return absent(refusal, formula, &log);
    }
    match has(Fault::FormulaAccepted) || is_passed(&refusal, formula, fields) {
        true => Refused::default(),
        false if is_late(&refusal, formula, fields) => Refused {
            number: VALUE as usize,
            ..answer
        },
        false => answer,
    }
}

/// The answer for an absent state. The others are found by mending the first.
fn absent(refusal: Refusal, formula: &[u8], log: &Log) -> Refused {
    let is_count = formula[refusal.place] == 0x22;
    let mut mended = formula.to_vec();
    let mut last = refusal;
    let other = loop {
        mended[last.place + 1] = 0;
        match formula::read(&mended, log) {
            Err(next) if next.number == ABSENT_STATE => last = next,
            other => break other.err(),
        }
    };
    let mut answer = refused(&refusal);
    if has(Fault::AbsentAsValue) || (has(Fault::AbsentCountAsValue) && is_count) {
        answer.number = VALUE as usize;
    }
    match other {
        _ if has(Fault::AbsentLast) => refused(&last),
        Some(other) if has(Fault::AbsentAfterDeadStart) && other.number == DEAD_START => {
            refused(&other)
        }
        _ => answer,
    }
}

/// Does a fault pass the command that is refused?
fn is_passed(refusal: &Refusal, formula: &[u8], fields: usize) -> bool {
    let command = formula.get(refusal.place..).unwrap_or_default();
    match (refusal.number, command) {
        (TWICE, _) => has(Fault::TwiceAccepted),
        (SURPLUS, [0x17, ..]) => has(Fault::NinthGather),
        (FOREIGN, [0x17, ..]) => has(Fault::GatherAnywhere),
        (VALUE, [0x14, field, 8..=11, ..]) => {
            has(Fault::ListAsVariable) && usize::from(*field) < fields
        }
        _ => false,
    }
}

/// Is a field that does not exist told before the second GATHER?
fn is_late(refusal: &Refusal, formula: &[u8], fields: usize) -> bool {
    let absent = |field: &u8| usize::from(*field) >= fields;
    let twice = refusal.number == TWICE && has(Fault::TwiceAfterValue);
    twice && formula.get(refusal.place + 1).is_some_and(absent)
}

/// The words that count, with the faults of counting seats.
fn counted(words: usize) -> usize {
    match has(Fault::SeatsRoundedUp) {
        true if words >= SEAT_WORDS => words.div_ceil(SEAT_WORDS) * SEAT_WORDS,
        _ => words,
    }
}

/// The reference's search, with the stand-in's own log, lists and absent fields.
fn own(log: &[u8], formula: &[u8], start: usize, words: usize) -> Result<Answer, Refusal> {
    let log = logs::read(log)?;
    let formula = formula::read(formula, &log)?;
    if start >= log.events() {
        return Err(Refusal::new(CALL, OUTSIDE, start));
    }
    let seats = search::seats(words)?;
    let setting = Setting {
        log: &log,
        formula: &formula,
    };
    let answer = search::answer(&setting, &lists::search(&setting, start, seats));
    answer.map(|answer| marks::numbered(setting.log, start, answer))
}

/// A search in which more than 64 seats count.
fn uncapped(log: &[u8], formula: &[u8], start: usize, words: usize) -> Result<Answer, Refusal> {
    let (log, formula) = search::read_both(log, formula)?;
    let setting = Setting {
        log: &log,
        formula: &formula,
    };
    let outcome = threads::search(&setting, start, words / SEAT_WORDS);
    search::answer(&setting, &outcome)
}

fn searched(log: &[u8], formula: &[u8], start: usize, words: usize) -> Result<Answer, Refusal> {
    let answer = own(log, formula, start, counted(words));
    let Err(refusal) = answer else {
        return answer;
    };
    match refusal.number {
        OUTSIDE if has(Fault::WordsBeforeStart) => search::seats(words).and(Err(refusal)),
        CROWDED if has(Fault::CrowdedPlace) => Err(Refusal::new(CALL, CROWDED, start)),
        CROWDED if has(Fault::SeatsUncapped) => uncapped(log, formula, start, words),
        _ => Err(refusal),
    }
}

fn found(answer: &Answer) -> Found {
    let mut found = found_of(answer);
    if has(Fault::WidthZero) {
        found.width = 0;
    }
    if found.verdict != NONE {
        spoil_run(&mut found);
    }
    found
}

fn spoil_run(found: &mut Found) {
    let steps = found.steps;
    if has(Fault::VerdictExchanged) {
        found.verdict = ACCEPT + REJECT - found.verdict;
    }
    if has(Fault::StepCount) {
        found.steps += 1;
    }
    if has(Fault::LastEvent) {
        found.events[steps - 1] += 1;
    }
    if has(Fault::UnusedEvent) && steps < 32 {
        found.events[31] = 1;
    }
    if has(Fault::FirstNumber) {
        found.numbers[0] = 0;
    }
    if has(Fault::UnusedNumber) && steps < 32 {
        found.numbers[steps] = 7;
    }
    if let Some(variable) = (0..8).find(|&variable| found.held[variable] == 1) {
        if has(Fault::HeldByte) {
            found.held[variable] = 2;
        }
        if has(Fault::HeldLost) {
            found.held[variable] = 0;
        }
        if has(Fault::ValueLost) {
            found.values[variable] = 0;
        }
    }
    if let Some(variable) = (0..8).find(|&variable| found.held[variable] == 0) {
        if has(Fault::UnheldValue) {
            found.values[variable] = 1;
        }
    }
}

#[no_mangle]
unsafe extern "C" fn hikwallu_search(
    log: *const u8,
    log_len: usize,
    formula: *const u8,
    formula_len: usize,
    start: usize,
    work: *mut u32,
    work_len: usize,
) -> Found {
    // SAFETY: as the caller promises.
    let (log, formula) = unsafe { (bytes(log, log_len), bytes(formula, formula_len)) };
    let answer = searched(log, formula, start, work_len);
    spoil_work(&answer.as_ref().err().copied(), work, work_len);
    match &answer {
        Ok(answer) => found(answer),
        Err(refusal) => Found {
            refused: refused(refusal),
            verdict: usize::from(has(Fault::VerdictOfRefused)),
            width: usize::from(has(Fault::WidthOfRefused)),
            ..Found::default()
        },
    }
}

/// Writes into the seats, as a search does, and where a fault says.
fn spoil_work(refusal: &Option<Refusal>, work: *mut u32, words: usize) {
    let checked = refusal.is_some_and(|refusal| refusal.number != CROWDED);
    // SAFETY: all but the last lie within the lent words; that one lies in the
    // margin behind them.
    unsafe {
        if !checked {
            *work = 1;
        }
        if checked && words > 0 && has(Fault::WorkOfRefused) {
            *work.add(words / 2) = 1;
        }
        if !checked && !words.is_multiple_of(SEAT_WORDS) && has(Fault::WorkLeftOver) {
            *work.add(words - 1) = 1;
        }
        if has(Fault::WorkOverrun) {
            *work.add(words) = 1;
        }
    }
}

#[no_mangle]
unsafe extern "C" fn hikwallu_analyse(
    log: *const u8,
    log_len: usize,
    formula: *const u8,
    formula_len: usize,
    work: *mut u32,
    work_len: usize,
    rows: *mut u32,
    rows_len: usize,
) -> Refused {
    // SAFETY: as the caller promises.
    let (log, formula) = unsafe { (bytes(log, log_len), bytes(formula, formula_len)) };
    let lent = unsafe { std::slice::from_raw_parts_mut(rows, rows_len) };
    let before = lent.to_vec();
    let mut answer = analysis::analyse(log, formula, counted(work_len), lent).err();
    spoil_work(&answer, work, work_len);
    let events = Log::read(log).map_or(0, |log| log.events());
    match answer {
        None => {
            ties::judge_rows(log, formula, &mut lent[..12 * events]);
            spoil_rows(&mut lent[..12 * events], &before);
            marks::spoil_rows(log, &mut lent[..12 * events]);
        }
        Some(refusal) => spoil_refused_rows(&refusal, lent, &before),
    }
    if answer.is_none() && has(Fault::RowsBehind) && rows_len > 12 * events {
        lent[12 * events] = 0;
    }
    let short = Refusal::new(CALL, SHORT, SEAT_WORDS);
    if has(Fault::RowsBeforeWords) && answer == Some(short) && rows_len < 12 * events {
        answer = Some(Refusal::new(CALL, SHORT, 12 * events));
    }
    if has(Fault::RowsOverrun) {
        // SAFETY: that word lies in the margin behind the rows.
        unsafe { *rows.add(rows_len) = 1 };
    }
    answer.map_or(Refused::default(), |refusal| refused(&refusal))
}

fn spoil_rows(rows: &mut [u32], before: &[u32]) {
    let first: Vec<u32> = rows.iter().copied().take(12).collect();
    for (row, before) in rows.chunks_mut(12).zip(before.chunks(12)) {
        match row[0] {
            0 if has(Fault::NoneRowUntouched) => row.copy_from_slice(before),
            2 if has(Fault::SubsumedAsAlert) => row[0] = 1,
            3 if has(Fault::RejectedAsNone) => row.fill(0),
            1..=3 if has(Fault::RowLast) => row[1] += 1,
            1..=3 if has(Fault::RowMask) => row[3] ^= 0x80,
            _ => {}
        }
        if has(Fault::FirstRowCopied) {
            row[0] = first[0];
        }
    }
}

fn spoil_refused_rows(refusal: &Refusal, rows: &mut [u32], before: &[u32]) {
    match refusal.number {
        CROWDED if has(Fault::CrowdedRowWritten) => rows[12 * refusal.place] = 0,
        CROWDED if has(Fault::CrowdedRowsLost) => rows.copy_from_slice(before),
        CROWDED => {}
        _ if has(Fault::RowsOfRefused) && !rows.is_empty() => rows[0] = 0,
        _ => {}
    }
}
