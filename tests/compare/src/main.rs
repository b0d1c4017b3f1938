//! `compare [FROM TO] [--keep FOLDER]` compares the product's library with the
//! reference: without numbers fixed cases, else the cases of those seeds.
//! `compare program BIN [FROM TO] [--keep FOLDER]` compares the program's text.
//! On the first disagreement it writes log.bin, formula.bin and cause.txt to
//! the folder and ends with status 1.

use compare::checks::{Check, Comparison, Disagreement};
use compare::page::{self, Example};
use compare::program::Runner;
use compare::rounds;
use std::ops::Range;
use std::path::Path;
use std::process::ExitCode;
use std::time::{Duration, Instant};

const USAGE: &str = "compare [FROM TO] [--keep FOLDER]
compare program BIN [FROM TO] [--keep FOLDER]";

/// The seeds of a run without numbers.
const SEEDS: Range<u64> = 0..3000;
const PROGRAM_SEEDS: Range<u64> = 0..400;

/// Says so where the stand-in takes the library's place.
const SHOWN: &str = if cfg!(feature = "fake") {
    "stand-in: "
} else {
    ""
};

/// Time between two lines of progress.
const PAUSE: Duration = Duration::from_secs(5);

fn main() -> ExitCode {
    let mut words: Vec<String> = std::env::args().skip(1).collect();
    let Some(keep) = take_keep(&mut words) else {
        return usage();
    };
    let words: Vec<&str> = words.iter().map(String::as_str).collect();
    let end = match *words {
        [] => fixed(),
        ["program", program] => run_program(program, PROGRAM_SEEDS),
        ["program", program, from, to] => match seeds(from, to) {
            Some(seeds) => run_program(program, seeds),
            None => return usage(),
        },
        [from, to] => match seeds(from, to) {
            Some(seeds) => by_hand(seeds),
            None => return usage(),
        },
        _ => return usage(),
    };
    match end {
        Ok(line) => {
            println!("{SHOWN}{line}");
            ExitCode::SUCCESS
        }
        Err(disagreement) => {
            report(&disagreement, keep.as_deref());
            ExitCode::FAILURE
        }
    }
}

fn usage() -> ExitCode {
    eprintln!("{USAGE}");
    ExitCode::from(2)
}

/// Takes `--keep FOLDER` out of the words; nothing if the folder is missing.
fn take_keep(words: &mut Vec<String>) -> Option<Option<String>> {
    let Some(at) = words.iter().position(|word| word == "--keep") else {
        return Some(None);
    };
    let folder = words.get(at + 1)?.clone();
    words.drain(at..at + 2);
    Some(Some(folder))
}

fn seeds(from: &str, to: &str) -> Option<Range<u64>> {
    Some(from.parse().ok()?..to.parse().ok()?)
}

/// The cause of a disagreement, preceded by the seed.
fn with_seed(check: Check, seed: u64) -> Check {
    check.map_err(|mut disagreement| {
        disagreement.cause = format!("seed {seed}, {}", disagreement.cause);
        disagreement
    })
}

fn fixed() -> Result<String, Disagreement> {
    #[cfg(not(feature = "fake"))]
    compare::stack::small();
    page::calls(&page_examples()?)?;
    let mut comparison = Comparison::default();
    rounds::limits(&mut comparison)?;
    rounds::spoiled(&mut comparison)?;
    for seed in SEEDS {
        with_seed(rounds::rolled(&mut comparison, seed), seed)?;
    }
    match comparison.counts.missing() {
        Some(missing) => Err(without_files(format!("no case reaches {missing}"))),
        None => Ok(comparison.counts.to_string()),
    }
}

fn page_examples() -> Result<Vec<Example>, Disagreement> {
    page::examples().map_err(|cause| without_files(format!("docs/FORMAT.md: {cause}")))
}

/// What went wrong, where no file shows it.
fn without_files(cause: String) -> Disagreement {
    Disagreement {
        cause,
        log: Vec::new(),
        formula: Vec::new(),
    }
}

fn by_hand(seeds: Range<u64>) -> Result<String, Disagreement> {
    let mut comparison = Comparison::default();
    let mut told = Instant::now();
    for seed in seeds.clone() {
        with_seed(rounds::rolled(&mut comparison, seed), seed)?;
        if told.elapsed() >= PAUSE {
            told = Instant::now();
            eprintln!("seed {seed} of {}: {}", seeds.end, comparison.counts);
        }
    }
    Ok(comparison.counts.to_string())
}

fn run_program(program: &str, seeds: Range<u64>) -> Result<String, Disagreement> {
    let folder = std::env::temp_dir().join(format!("compare-program-{}", std::process::id()));
    let mut runner = match Runner::new(Path::new(program), folder) {
        Ok(runner) => runner,
        Err(error) => {
            let cause = format!("{program} cannot be run: {error}");
            return Err(without_files(cause));
        }
    };
    runner.fixed()?;
    runner.page(&page_examples()?)?;
    if runner.long == 0 {
        return Err(without_files(String::from("no run prints a long text")));
    }
    for seed in seeds {
        with_seed(runner.rolled(seed), seed)?;
    }
    Ok(format!(
        "{} runs of the program agree, {} lines; {} with 1,024 rows of eight ten-digit values; \
         {} examples of docs/FORMAT.md",
        runner.runs, runner.lines, runner.long, runner.examples
    ))
}

fn report(disagreement: &Disagreement, keep: Option<&str>) {
    println!("DISAGREE {}", disagreement.cause);
    let Some(folder) = keep else {
        println!("log {}", hexadecimal(&disagreement.log));
        println!("formula {}", hexadecimal(&disagreement.formula));
        return;
    };
    match write(disagreement, Path::new(folder)) {
        Ok(()) => println!("log.bin, formula.bin and cause.txt are in {folder}"),
        Err(error) => println!("{folder} cannot be written: {error}"),
    }
}

fn hexadecimal(bytes: &[u8]) -> String {
    bytes.iter().map(|byte| format!("{byte:02X}")).collect()
}

fn write(disagreement: &Disagreement, folder: &Path) -> std::io::Result<()> {
    std::fs::create_dir_all(folder)?;
    std::fs::write(folder.join("log.bin"), &disagreement.log)?;
    std::fs::write(folder.join("formula.bin"), &disagreement.formula)?;
    std::fs::write(
        folder.join("cause.txt"),
        format!("{}\n", disagreement.cause),
    )
}
