//! `reference` reads log.bin and formula.bin as the program does.
//! `reference LOG FORMULA` does so with other files.
//! `reference search LOG FORMULA START WORDS` prints a search's answer.
//! `reference rows LOG FORMULA WORDS ROWWORDS` prints an analysis' rows.
//! `reference case SEED LOG FORMULA` writes a rolled case and prints
//! its start, work words and row words.
//! `reference cases FROM TO` prints rolled cases with all their answers.

use reference::analysis::analyse;
use reference::program::text;
use reference::random::{case, Case};
use reference::search::{search, Answer, Verdict};
use std::io::Write;
use std::process::ExitCode;

/// What row words hold before the call.
const FILL: u32 = 0xAAAA_AAAA;

const USAGE: &str = "reference [LOG FORMULA]
reference search LOG FORMULA START WORDS
reference rows LOG FORMULA WORDS ROWWORDS
reference case SEED LOG FORMULA
reference cases FROM TO
";

fn main() -> ExitCode {
    let words: Vec<String> = std::env::args().skip(1).collect();
    let words: Vec<&str> = words.iter().map(String::as_str).collect();
    let (text, code) = match answer(&words) {
        Some(text) => (text, ExitCode::SUCCESS),
        None => (String::from(USAGE), ExitCode::FAILURE),
    };
    match std::io::stdout().write_all(text.as_bytes()) {
        Ok(()) => code,
        Err(_) => ExitCode::FAILURE,
    }
}

fn answer(words: &[&str]) -> Option<String> {
    match *words {
        [] => Some(text(&bytes("log.bin"), &bytes("formula.bin"))),
        [log, formula] => Some(text(&bytes(log), &bytes(formula))),
        ["search", log, formula, start, words] => {
            let (start, words) = (start.parse().ok()?, words.parse().ok()?);
            Some(search_line(&bytes(log), &bytes(formula), start, words) + "\n")
        }
        ["rows", log, formula, words, lent] => {
            let (words, lent) = (words.parse().ok()?, lent.parse().ok()?);
            Some(rows_line(&bytes(log), &bytes(formula), words, lent) + "\n")
        }
        ["case", seed, log, formula] => {
            let case = case(seed.parse().ok()?);
            std::fs::write(log, &case.log).ok()?;
            std::fs::write(formula, &case.formula).ok()?;
            Some(call_words(&case) + "\n")
        }
        ["cases", from, to] => {
            let seeds = from.parse().ok()?..to.parse().ok()?;
            Some(seeds.map(case_lines).collect())
        }
        _ => None,
    }
}

/// A missing file counts as empty.
fn bytes(path: &str) -> Vec<u8> {
    std::fs::read(path).unwrap_or_default()
}

/// The refusal, or verdict, step count, 32 events, 32 step numbers, mask,
/// 8 values and width.
fn search_line(log: &[u8], formula: &[u8], start: usize, words: usize) -> String {
    match search(log, formula, start, words) {
        Ok(answer) => answer_line(&answer),
        Err(refusal) => refusal.to_string(),
    }
}

fn answer_line(answer: &Answer) -> String {
    let verdict = match answer.verdict {
        Verdict::None => "none",
        Verdict::Accept => "accept",
        Verdict::Reject => "reject",
    };
    let (events, steps) = (list(&answer.events), list(&answer.steps));
    let (count, mask, width) = (answer.count, answer.mask, answer.width);
    let values = list(&answer.values);
    format!("{verdict} {count} {events} {steps} {mask} {values} {width}")
}

/// The refusal or `done`, then all lent row words; a word that was not written
/// shows the fill.
fn rows_line(log: &[u8], formula: &[u8], words: usize, lent: usize) -> String {
    let mut rows = vec![FILL; lent];
    let answer = match analyse(log, formula, words, &mut rows) {
        Ok(()) => String::from("done"),
        Err(refusal) => refusal.to_string(),
    };
    format!("{} {}", answer, list(&rows))
}

fn call_words(case: &Case) -> String {
    format!("{} {} {}", case.start, case.words, case.row_words)
}

/// Six lines a case: seed and call, log, formula (both in hexadecimal), then
/// the search's line, the rows' line and the program's text, quoted.
fn case_lines(seed: u64) -> String {
    let case = case(seed);
    let (log, formula) = (&case.log, &case.formula);
    let lines = [
        format!("case {} {}", seed, call_words(&case)),
        format!("log {}", hexadecimal(log)),
        format!("formula {}", hexadecimal(formula)),
        format!(
            "search {}",
            search_line(log, formula, case.start, case.words)
        ),
        format!(
            "rows {}",
            rows_line(log, formula, case.words, case.row_words)
        ),
        format!("program {:?}", text(log, formula)),
    ];
    lines.join("\n") + "\n"
}

fn hexadecimal(bytes: &[u8]) -> String {
    bytes.iter().map(|byte| format!("{byte:02X}")).collect()
}

fn list<T: ToString>(values: &[T]) -> String {
    let texts: Vec<String> = values.iter().map(T::to_string).collect();
    texts.join(",")
}
