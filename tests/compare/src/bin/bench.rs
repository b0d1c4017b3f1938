//! `bench [--repeat N] [--events N] [KIND..]` times the product, the plain
//! reference and its tuned form on the same heavy cases, turn by turn: every
//! start's analysis, then the search of one start. What differs anywhere is
//! not timed.
//! `bench --once analysis|search KIND product|plain|tuned [EVENTS]` makes one
//! call alone, for a count of instructions.

use compare::clock;
use compare::files::Pair;
use compare::heavy::{self, Kind};
use compare::product;
use reference::analysis::{self, ROW_WORDS};
use reference::log::MOST_EVENTS;
use reference::search::{self, Answer, MOST_SEATS, SEAT_WORDS};
use reference::tuned;
use std::hint::black_box;
use std::process::ExitCode;
use std::time::Duration;

const WORDS: usize = MOST_SEATS * SEAT_WORDS;

/// A search alone is repeated until so much time has passed.
const LEAST: Duration = Duration::from_millis(100);

const USAGE: &str = "bench [--repeat N] [--events N] [KIND..]
bench --once analysis|search KIND product|plain|tuned [EVENTS]
kinds: ordinary lacking clocked guards ifs tests falling committed bounces churn
       overlap quiet still full gather";

struct Options {
    repeat: usize,
    events: usize,
    kinds: Vec<Kind>,
}

fn main() -> ExitCode {
    let words: Vec<String> = std::env::args().skip(1).collect();
    let words: Vec<&str> = words.iter().map(String::as_str).collect();
    let done = match *words {
        ["--once", call, kind, which] => once(call, kind, which, MOST_EVENTS),
        ["--once", call, kind, which, events] => match events.parse() {
            Ok(events) => once(call, kind, which, events),
            Err(_) => None,
        },
        _ => options(&words).map(|options| measure(&options)),
    };
    match done {
        Some(true) => ExitCode::SUCCESS,
        Some(false) => ExitCode::FAILURE,
        None => {
            eprintln!("{USAGE}");
            ExitCode::from(2)
        }
    }
}

fn options(words: &[&str]) -> Option<Options> {
    let mut options = Options {
        repeat: 3,
        events: MOST_EVENTS,
        kinds: Vec::new(),
    };
    let mut words = words.iter();
    while let Some(&word) = words.next() {
        match word {
            "--repeat" => options.repeat = words.next()?.parse().ok()?,
            "--events" => options.events = words.next()?.parse().ok()?,
            kind => options.kinds.push(Kind::named(kind)?),
        }
    }
    if options.kinds.is_empty() {
        options.kinds = Kind::ALL.to_vec();
    }
    let legal = options.repeat > 0 && (1..=MOST_EVENTS).contains(&options.events);
    legal.then_some(options)
}

/// The product's analysis; a name for tools that count instructions.
#[no_mangle]
#[inline(never)]
pub fn bench_product(pair: &Pair, work: &mut [u32], rows: &mut [u32]) -> usize {
    product::analyse(&pair.log, &pair.formula, work, rows).number
}

/// The reference's analysis; a name for tools that count instructions.
#[no_mangle]
#[inline(never)]
pub fn bench_plain(pair: &Pair, _work: &mut [u32], rows: &mut [u32]) -> usize {
    let answer = analysis::analyse(&pair.log, &pair.formula, WORDS, rows);
    answer.err().map_or(0, |refusal| refusal.number as usize)
}

/// The tuned analysis; a name for tools that count instructions.
#[no_mangle]
#[inline(never)]
pub fn bench_tuned(pair: &Pair, _work: &mut [u32], rows: &mut [u32]) -> usize {
    let answer = tuned::analyse(&pair.log, &pair.formula, WORDS, rows);
    answer.err().map_or(0, |refusal| refusal.number as usize)
}

/// The product's search of start 0, likewise: its refusal and its width.
#[no_mangle]
#[inline(never)]
pub fn search_product(pair: &Pair, work: &mut [u32], _rows: &mut [u32]) -> usize {
    let found = product::search(&pair.log, &pair.formula, 0, work);
    1000 * found.refused.number + found.width
}

/// The reference's search of start 0, likewise.
#[no_mangle]
#[inline(never)]
pub fn search_plain(pair: &Pair, _work: &mut [u32], _rows: &mut [u32]) -> usize {
    match search::search(&pair.log, &pair.formula, 0, WORDS) {
        Ok(answer) => answer.width,
        Err(refusal) => 1000 * refusal.number as usize,
    }
}

/// The tuned search of start 0, likewise.
#[no_mangle]
#[inline(never)]
pub fn search_tuned(pair: &Pair, _work: &mut [u32], _rows: &mut [u32]) -> usize {
    match tuned::search(&pair.log, &pair.formula, 0, WORDS) {
        Ok(answer) => answer.width,
        Err(refusal) => 1000 * refusal.number as usize,
    }
}

type Call = fn(&Pair, &mut [u32], &mut [u32]) -> usize;

/// One call: its time, its answer and its rows.
fn call(which: Call, pair: &Pair, events: usize) -> (Duration, usize, Vec<u32>) {
    let mut work = vec![0; WORDS];
    let mut rows = vec![0; ROW_WORDS * events];
    let begin = clock::now();
    let answer = which(black_box(pair), &mut work, &mut rows);
    (clock::now() - begin, answer, rows)
}

fn once(what: &str, kind: &str, which: &str, events: usize) -> Option<bool> {
    let kind = Kind::named(kind)?;
    let called: Call = match (what, which) {
        ("analysis", "product") => bench_product,
        ("analysis", "plain") => bench_plain,
        ("analysis", "tuned") => bench_tuned,
        ("search", "product") => search_product,
        ("search", "plain") => search_plain,
        ("search", "tuned") => search_tuned,
        _ => return None,
    };
    let pair = heavy::pair(kind, events);
    let (_, answer, rows) = call(called, &pair, events);
    let sum = rows
        .iter()
        .fold(0u32, |sum, &word| sum.wrapping_mul(31).wrapping_add(word));
    println!(
        "{what} {} {which}: answer {answer}, rows {sum:08x}",
        kind.name()
    );
    Some(true)
}

/// What is timed, in the order of the columns.
const NAMES: [&str; 3] = ["product", "plain", "tuned"];
const ANALYSES: [Call; 3] = [bench_product, bench_plain, bench_tuned];
const SEARCHES: [Call; 3] = [search_product, search_plain, search_tuned];

/// An analysis with all seats taken is as long as a thousand such searches: it
/// is timed up to so many events.
const MOST_FULL: usize = 200;

fn milliseconds(time: Duration) -> f64 {
    time.as_secs_f64() * 1e3
}

/// One line of the table, with the least of the times of each.
fn line(what: &str, kind: Kind, times: [Duration; 3], note: &str) {
    let [product, plain, tuned] = times.map(milliseconds);
    println!(
        "{what:8} {:9} {product:11.4} {plain:11.4} {tuned:11.4} {:9.2} {:9.2}  {note}",
        kind.name(),
        product / plain,
        product / tuned,
    );
}

/// False if any two differ anywhere.
fn measure(options: &Options) -> bool {
    println!(
        "milliseconds on the processor, least of {}; ratios are those of the product",
        options.repeat
    );
    let [product, plain, tuned] = NAMES;
    println!(
        "{:18} {product:>11} {plain:>11} {tuned:>11} {:>9} {:>9}",
        "", "to plain", "to tuned"
    );
    let mut same = true;
    for &kind in &options.kinds {
        let pair = heavy::pair(kind, options.events);
        let full = matches!(kind, Kind::Full | Kind::Gather);
        if !full || options.events <= MOST_FULL {
            same &= measure_analysis(kind, &pair, options);
        }
        same &= measure_search(kind, &pair, options);
    }
    same
}

/// Times the analysis of all starts, once all rows agree.
fn measure_analysis(kind: Kind, pair: &Pair, options: &Options) -> bool {
    let answers = ANALYSES.map(|which| {
        let (time, answer, rows) = call(which, pair, options.events);
        (time, (answer, rows))
    });
    let [product, plain, tuned] = &answers;
    if product.1 != plain.1 || tuned.1 != plain.1 {
        println!("analysis {:9} the rows differ", kind.name());
        return false;
    }
    // The first round has been timed already.
    let mut least = answers.map(|(time, _)| time);
    for _ in 1..options.repeat {
        for (least, which) in least.iter_mut().zip(ANALYSES) {
            *least = call(which, pair, options.events).0.min(*least);
        }
    }
    let (events, bytes) = (options.events, pair.formula.len());
    let note = format!("{events} events, {bytes} bytes of formula");
    line("analysis", kind, least, &note);
    true
}

/// The time of one call, over as many as it takes to measure it.
fn timed(mut call: impl FnMut() -> usize) -> Duration {
    let begin = clock::now();
    let mut calls = 0;
    loop {
        black_box(call());
        calls += 1;
        let passed = clock::now() - begin;
        if passed >= LEAST {
            return passed / calls;
        }
    }
}

/// Times the search of start 0, once all answers agree.
fn measure_search(kind: Kind, pair: &Pair, options: &Options) -> bool {
    let mut work = vec![0; WORDS];
    let answer = search::search(&pair.log, &pair.formula, 0, WORDS);
    let tuned = tuned::search(&pair.log, &pair.formula, 0, WORDS);
    let found = product::search(&pair.log, &pair.formula, 0, &mut work);
    let agrees = |answer: &Answer| {
        let events = answer.events.map(|n| n as u32);
        let steps = answer.steps.map(|number| number as u32);
        let lists = (events, steps, answer.values);
        let numbers = (answer.verdict as usize, answer.count, answer.width);
        found.refused.number == 0
            && numbers == (found.verdict, found.steps, found.width)
            && lists == (found.events, found.numbers, found.values)
    };
    if tuned != answer || !answer.as_ref().is_ok_and(agrees) {
        println!("search   {:9} the answers differ", kind.name());
        return false;
    }
    let mut least = [Duration::MAX; 3];
    for _ in 0..options.repeat {
        for (least, which) in least.iter_mut().zip(SEARCHES) {
            *least = timed(|| which(black_box(pair), &mut work, &mut [])).min(*least);
        }
    }
    let note = format!("start 0, {} steps, width {}", found.steps, found.width);
    line("search", kind, least, &note);
    true
}
