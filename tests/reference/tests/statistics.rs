//! Rolled cases reach every refusal, every verdict, long runs and crowds.

use reference::analysis::{analyse, ROW_WORDS};
use reference::random::case;
use reference::search::{search, Verdict};
use std::collections::BTreeMap;

const CASES: u64 = 6000;

#[derive(Default)]
struct Tally(BTreeMap<String, u32>);

impl Tally {
    fn add(&mut self, name: String) {
        *self.0.entry(name).or_default() += 1;
    }

    fn at_least(&self, name: &str, least: u32) {
        let found = self.0.get(name).copied().unwrap_or(0);
        assert!(found >= least, "{name}: {found} of {CASES}");
    }
}

fn tally_search(tally: &mut Tally, seed: u64) {
    let case = case(seed);
    match search(&case.log, &case.formula, case.start, case.words) {
        Err(refusal) => {
            tally.add(format!("search {} {}", refusal.file, refusal.number));
            if refusal.number == 11 {
                tally.add(format!("crowded at {} seats", case.words / 192));
            }
        }
        Ok(answer) => {
            tally.add(format!("verdict {:?}", answer.verdict));
            tally.add(format!("width {}", answer.width));
            if answer.verdict != Verdict::None {
                tally.add(format!("length {}", answer.count));
                tally.add(format!("held {}", answer.mask.count_ones()));
            }
        }
    }
}

fn tally_rows(tally: &mut Tally, seed: u64) {
    let case = case(seed);
    let mut rows = vec![9; case.row_words];
    let answer = analyse(&case.log, &case.formula, case.words, &mut rows);
    if let Err(refusal) = answer {
        tally.add(format!("rows {} {}", refusal.file, refusal.number));
        if refusal.number == 11 && refusal.place > 0 {
            tally.add(String::from("crowded behind written rows"));
        }
    }
    for row in rows.chunks_exact(ROW_WORDS).filter(|row| row[0] < 4) {
        tally.add(format!("row {}", row[0]));
    }
}

/// Refusals of the files and of the call.
fn check_refusals(tally: &Tally) {
    for name in ["search", "rows"] {
        for number in [1, 2, 3, 4, 5, 6] {
            tally.at_least(&format!("{name} 1 {number}"), 3);
        }
        for number in [1, 2, 3, 4, 5, 7, 8, 12] {
            tally.at_least(&format!("{name} 2 {number}"), 3);
        }
        for number in [10, 11] {
            tally.at_least(&format!("{name} 3 {number}"), 20);
        }
    }
    tally.at_least("search 3 9", 20);
    tally.at_least("crowded behind written rows", 3);
    for seats in 1..=8 {
        tally.at_least(&format!("crowded at {seats} seats"), 3);
    }
}

/// Verdicts, lengths, widths and held variables.
fn check_answers(tally: &Tally) {
    for verdict in ["None", "Accept", "Reject"] {
        tally.at_least(&format!("verdict {verdict}"), 100);
    }
    for verdict in 0..4 {
        tally.at_least(&format!("row {verdict}"), 100);
    }
    for length in [1, 2, 3, 4, 29, 30, 31, 32] {
        tally.at_least(&format!("length {length}"), 3);
    }
    for width in 0..=8 {
        tally.at_least(&format!("width {width}"), 3);
    }
    for held in 0..=4 {
        tally.at_least(&format!("held {held}"), 3);
    }
}

#[test]
fn every_answer_occurs() {
    let mut tally = Tally::default();
    for seed in 0..CASES {
        tally_search(&mut tally, seed);
        tally_rows(&mut tally, seed);
    }
    for (name, found) in &tally.0 {
        println!("{found:6} {name}");
    }
    check_refusals(&tally);
    check_answers(&tally);
}
