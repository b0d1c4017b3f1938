//! The tuned program gives what the plain one gives, word for word.

use reference::analysis::{self, ROW_WORDS};
use reference::log::Log;
use reference::random::{case, small, Case};
use reference::refusal::CROWDED;
use reference::search::{self, Answer, Verdict};
use reference::tuned;

/// What row words hold before a call.
const FILL: u32 = 0xAAAA_AAAA;

/// Analyses and searches that were compared, and what they came to.
#[derive(Debug, Default)]
struct Tally {
    refused: usize,
    crowded: usize,
    rows: [usize; 4],
    searches: usize,
    named: usize,
    wide: usize,
}

impl Tally {
    /// Compares the analysis with so many row words, and notes its rows.
    fn rows(&mut self, case: &Case, row_words: usize) {
        let mut plain = vec![FILL; row_words];
        let mut tuned = plain.clone();
        let answer = analysis::analyse(&case.log, &case.formula, case.words, &mut plain);
        let other = tuned::analyse(&case.log, &case.formula, case.words, &mut tuned);
        assert_eq!(answer, other, "{case:?}");
        assert_eq!(plain, tuned, "{case:?}");
        match answer {
            Err(refusal) if refusal.number == CROWDED => self.crowded += 1,
            Err(_) => self.refused += 1,
            Ok(()) => {
                let rows = plain.chunks_exact(ROW_WORDS);
                let rows = rows.filter(|row| row[0] != FILL);
                rows.for_each(|row| self.rows[row[0] as usize] += 1);
            }
        }
    }

    /// Compares the search of one start, and notes its answer.
    fn search(&mut self, case: &Case, start: usize, words: usize) {
        let answer = search::search(&case.log, &case.formula, start, words);
        let other = tuned::search(&case.log, &case.formula, start, words);
        assert_eq!(answer, other, "start {start}, {words} words: {case:?}");
        self.searches += 1;
        let named = |answer: &Answer| answer.verdict != Verdict::None;
        self.named += usize::from(answer.as_ref().is_ok_and(named));
        self.wide += usize::from(answer.is_ok_and(|answer| answer.width > 3));
    }
}

/// As many row words as the log's events need.
fn needed(case: &Case) -> usize {
    ROW_WORDS * Log::read(&case.log).map_or(0, |log| log.events())
}

#[test]
fn rows_and_searches_agree_on_cases_of_any_kind() {
    let mut tally = Tally::default();
    for case in (0..6_000).map(case) {
        tally.rows(&case, case.row_words);
        tally.search(&case, case.start, case.words);
    }
    println!("{tally:?}");
    let rows = tally.rows.into_iter().min();
    assert!(tally.refused > 500 && tally.crowded > 300 && rows > Some(1000));
    assert!(tally.named > 1000 && tally.wide > 300);
}

#[test]
fn rows_agree_on_small_cases() {
    let mut tally = Tally::default();
    for case in (0..30_000).map(small) {
        tally.rows(&case, needed(&case) + 5);
    }
    println!("{tally:?}");
    assert!(tally.crowded > 1000 && tally.rows.into_iter().min() > Some(1000));
}

/// Every start with every number of seats from 1 to 8, and all of them.
#[test]
fn searches_agree_on_all_starts_and_seats() {
    let mut tally = Tally::default();
    for case in (50_000..54_000).map(small) {
        for start in 0..needed(&case) / ROW_WORDS {
            for seats in (1..=8).chain([64]) {
                tally.search(&case, start, 192 * seats);
            }
        }
    }
    println!("{tally:?}");
    assert!(tally.named > 10_000 && tally.wide > 1000);
}
