//! One call to the product, the same to the reference, and the first
//! difference between the two answers.

use crate::counts::Counts;
use crate::lent::Lent;
use crate::product::{self, Found, LogRead, Refused, ACCEPT, NONE, REJECT};
use reference::analysis::{self, ROW_WORDS};
use reference::formula;
use reference::log::Log;
use reference::reach::ties;
use reference::refusal::{Refusal, CROWDED};
use reference::search::{self, Answer, Verdict, MOST_SEATS, SEAT_WORDS};

/// Where product and reference differ, with the files of the call.
#[derive(Clone, Debug)]
pub struct Disagreement {
    pub cause: String,
    pub log: Vec<u8>,
    pub formula: Vec<u8>,
}

pub type Check = Result<(), Disagreement>;

/// The two files of a call.
#[derive(Clone, Copy, Debug)]
pub struct Files<'a> {
    pub log: &'a [u8],
    pub formula: &'a [u8],
}

impl Files<'_> {
    fn differ(&self, call: &str, cause: String) -> Disagreement {
        Disagreement {
            cause: format!("{call}: {cause}"),
            log: self.log.to_vec(),
            formula: self.formula.to_vec(),
        }
    }
}

/// Names what differs, the product's first, if anything does.
fn compare<T: PartialEq + std::fmt::Debug>(
    what: &str,
    product: T,
    reference: T,
) -> Result<(), String> {
    match product == reference {
        true => Ok(()),
        false => Err(format!(
            "{what}: product {product:?}, reference {reference:?}"
        )),
    }
}

fn refused(refusal: &Refusal) -> Refused {
    Refused {
        file: refusal.file as usize,
        number: refusal.number as usize,
        place: refusal.place,
    }
}

/// The reference's answer to a search as the product gives it.
fn found(answer: &Result<Answer, Refusal>) -> Found {
    let answer = match answer {
        Ok(answer) => answer,
        Err(refusal) => {
            return Found {
                refused: refused(refusal),
                ..Found::default()
            }
        }
    };
    found_of(answer)
}

/// What the library gives for an answer of the reference.
pub fn found_of(answer: &Answer) -> Found {
    Found {
        refused: Refused::default(),
        verdict: match answer.verdict {
            Verdict::None => NONE,
            Verdict::Accept => ACCEPT,
            Verdict::Reject => REJECT,
        },
        steps: answer.count,
        events: answer.events.map(|event| event as u32),
        numbers: answer.steps.map(|number| number as u32),
        held: std::array::from_fn(|variable| (answer.mask >> variable & 1) as u8),
        values: answer.values,
        width: answer.width,
    }
}

fn same_found(product: &Found, reference: &Found) -> Result<(), String> {
    compare("refusal", product.refused, reference.refused)?;
    compare("verdict", product.verdict, reference.verdict)?;
    compare("steps", product.steps, reference.steps)?;
    compare("events", product.events, reference.events)?;
    compare("step numbers", product.numbers, reference.numbers)?;
    compare("held", product.held, reference.held)?;
    compare("values", product.values, reference.values)?;
    compare("width", product.width, reference.width)
}

/// Work words: untouched by a call that a check refuses; of any other only
/// the seats may be touched.
fn same_work(work: &Lent, words: usize, reference: &Refused) -> Result<(), String> {
    if work.overrun() {
        return Err(String::from("a word beside the work words was written"));
    }
    let checked = !matches!(reference.number as u32, 0 | CROWDED);
    let used = match checked {
        true => 0,
        false => SEAT_WORDS * (words / SEAT_WORDS).min(MOST_SEATS),
    };
    match work.changed_from(used) {
        Some(at) => Err(format!("work word {at} was written")),
        None => Ok(()),
    }
}

fn same_rows(product: &mut Lent, reference: &mut Lent) -> Result<(), String> {
    if product.overrun() {
        return Err(String::from("a word beside the rows was written"));
    }
    let (ours, theirs) = (product.words(), reference.words());
    for at in 0..ours.len() {
        let name = format_args!("row {} word {}", at / ROW_WORDS, at % ROW_WORDS);
        if ours[at] != theirs[at] {
            return compare(&name.to_string(), ours[at], theirs[at]);
        }
    }
    Ok(())
}

/// A log of so many fields and no events, for a formula to be read against.
pub fn bare_log(fields: usize) -> Log {
    let mut log = Log::default();
    log.rising = vec![false; fields];
    log
}

/// Makes the calls and counts them.
#[derive(Default)]
pub struct Comparison {
    pub counts: Counts,
}

impl Comparison {
    pub fn read_log(&mut self, files: Files) -> Check {
        let product = product::read_log(files.log);
        let reference = match Log::read(files.log) {
            Ok(log) => LogRead {
                refused: Refused::default(),
                fields: log.rising.len(),
                events: log.events(),
            },
            Err(refusal) => LogRead {
                refused: refused(&refusal),
                ..LogRead::default()
            },
        };
        self.counts.logs += 1;
        self.counts.log_refusal(&reference.refused, files.log);
        self.counts.clock(files.log);
        compare("refusal", product.refused, reference.refused)
            .and_then(|()| compare("fields", product.fields, reference.fields))
            .and_then(|()| compare("events", product.events, reference.events))
            .map_err(|cause| files.differ("read_log", cause))
    }

    pub fn read_formula(&mut self, files: Files, fields: usize) -> Check {
        let product = product::read_formula(files.formula, fields);
        let reference = match formula::read(files.formula, &bare_log(fields)) {
            Ok(_) => Refused::default(),
            Err(refusal) => refused(&refusal),
        };
        self.counts.formulas += 1;
        self.counts.refusal(&reference);
        compare("refusal", product, reference)
            .map_err(|cause| files.differ(&format!("read_formula with {fields} fields"), cause))
    }

    pub fn search(&mut self, files: Files, start: usize, words: usize) -> Check {
        let mut work = Lent::new(words);
        let product = product::search(files.log, files.formula, start, work.words());
        let reference = found(&search::search(files.log, files.formula, start, words));
        self.counts.searches += 1;
        self.counts.refusal(&reference.refused);
        if reference.refused.number == 0 {
            let (verdict, steps, width) = (reference.verdict, reference.steps, reference.width);
            self.counts.run(verdict, steps, width);
        }
        same_found(&product, &reference)
            .and_then(|()| same_work(&work, words, &reference.refused))
            .map_err(|cause| {
                let call = format!("search from {start} with {words} work words");
                files.differ(&call, cause)
            })
    }

    pub fn analysis(&mut self, files: Files, words: usize, row_words: usize) -> Check {
        let mut work = Lent::new(words);
        let mut ours = Lent::new(row_words);
        let mut theirs = Lent::new(row_words);
        let product = product::analyse(files.log, files.formula, work.words(), ours.words());
        let reference = analysis::analyse(files.log, files.formula, words, theirs.words());
        let answer = match &reference {
            Ok(()) => Refused::default(),
            Err(refusal) => refused(refusal),
        };
        self.counts.analyses += 1;
        self.counts.refusal(&answer);
        if answer.number == 0 {
            self.count_rows(files, theirs.words());
        }
        compare("answer", product, answer)
            .and_then(|()| same_rows(&mut ours, &mut theirs))
            .and_then(|()| same_work(&work, words, &answer))
            .map_err(|cause| {
                let call = format!("analysis with {words} work words and {row_words} row words");
                files.differ(&call, cause)
            })
    }

    fn count_rows(&mut self, files: Files, rows: &[u32]) {
        let Ok((log, formula)) = search::read_both(files.log, files.formula) else {
            return;
        };
        let rows = &rows[..ROW_WORDS * log.events()];
        for row in rows.chunks(ROW_WORDS) {
            self.counts.rows[row[0] as usize] += 1;
        }
        self.counts.ties(&ties::shown(&formula, rows));
    }
}
