//! The examples of docs/FORMAT.md: its tables of bytes, with their offsets,
//! name files; its indented blocks give two files, a call and the answer.

use crate::checks::{Check, Disagreement};
use crate::files::Pair;
use crate::lent::Lent;
use crate::product;
use reference::compose::hex;

const PAGE: &str = include_str!("../../../docs/FORMAT.md");

/// What an example calls.
#[derive(Clone, Copy, Debug, PartialEq, Eq)]
pub enum Call {
    Program,
    Search { start: usize, words: usize },
    Analysis { words: usize, rows: usize },
}

#[derive(Clone, Debug)]
pub struct Example {
    pub pair: Pair,
    pub call: Call,
    pub answer: String,
}

impl Example {
    pub fn differ(&self, answer: &str) -> Disagreement {
        Disagreement {
            cause: format!(
                "docs/FORMAT.md: {:?} gives {answer:?}, the page {:?}",
                self.call, self.answer
            ),
            log: self.pair.log.clone(),
            formula: self.pair.formula.clone(),
        }
    }
}

/// A file of the page and its name.
type Named = (String, Vec<u8>);

/// All examples of the page, or what is wrong with it.
pub fn examples() -> Result<Vec<Example>, String> {
    let names = tables(PAGE)?;
    written(PAGE, &names)?;
    let answers = |line: &str| line.starts_with("    prints ") || line.starts_with("    answers ");
    let blocks = PAGE
        .split("\n\n")
        .filter(|block| block.lines().any(answers));
    let examples: Result<Vec<Example>, String> =
        blocks.map(|block| example(block, &names)).collect();
    let examples = examples?;
    let shows = |example: &Example, number: usize| {
        let words: Vec<&str> = example.answer.split(' ').collect();
        words[0] == "refused" && words.get(2) == Some(&number.to_string().as_str())
    };
    let shown = |number: usize| examples.iter().any(|example| shows(example, number));
    match (1..=13).find(|&number| !shown(number)) {
        Some(number) => Err(format!("no example shows refusal {number}")),
        None => Ok(examples),
    }
}

/// The files whose bytes stand in a table below a heading `### NAME: ..`.
fn tables(page: &str) -> Result<Vec<Named>, String> {
    let mut names: Vec<Named> = Vec::new();
    for line in page.lines() {
        if let Some((name, _)) = line
            .strip_prefix("### ")
            .and_then(|rest| rest.split_once(": "))
        {
            names.push((String::from(name), Vec::new()));
        } else if let (Some((offset, bytes)), Some((_, file))) = (row(line), names.last_mut()) {
            if offset != file.len() {
                return Err(format!("{line}: the offset is {}", file.len()));
            }
            file.extend(bytes);
        }
    }
    Ok(names)
}

/// Offset and bytes, where a table's line begins with them.
fn row(line: &str) -> Option<(usize, Vec<u8>)> {
    let mut cells = line.split('|').skip(1).map(str::trim);
    let offset = cells.next()?.parse().ok()?;
    let bytes = cells.next()?.strip_prefix('`')?.strip_suffix('`')?;
    Some((offset, bytes_of(bytes)?))
}

/// Whole bytes from hexadecimal digits and blanks.
fn bytes_of(text: &str) -> Option<Vec<u8>> {
    let whole = |word: &str| {
        word.len().is_multiple_of(2) && word.chars().all(|digit| digit.is_ascii_hexdigit())
    };
    text.split_whitespace().all(whole).then(|| hex(text))
}

/// Every line that writes a file by `xxd` writes one that has a name.
fn written(page: &str, names: &[Named]) -> Result<(), String> {
    for line in page.lines() {
        let Some(rest) = line.strip_prefix("    echo ") else {
            continue;
        };
        let bytes = rest
            .split_once(" | xxd -r -p")
            .and_then(|(text, _)| bytes_of(text));
        if !names.iter().any(|(_, file)| Some(file) == bytes.as_ref()) {
            return Err(format!("{line}: no table has these bytes"));
        }
    }
    Ok(())
}

fn example(block: &str, names: &[Named]) -> Result<Example, String> {
    let wrong = || format!("no example can be read from:\n{block}");
    let file = |text: &str| match names.iter().find(|(name, _)| name == text) {
        Some((_, file)) => Some(file.clone()),
        None => bytes_of(text),
    };
    let (mut log, mut formula, mut call) = (None, None, Call::Program);
    let mut answer = String::new();
    for line in block.lines() {
        let (key, text) = line.trim().split_once(' ').ok_or_else(wrong)?;
        let text = text.trim();
        match (key, &numbers(text)[..]) {
            ("log", _) => log = file(text),
            ("formula", _) => formula = file(text),
            ("search", &[start, words]) => call = Call::Search { start, words },
            ("analysis", &[words, rows]) => call = Call::Analysis { words, rows },
            ("prints" | "answers", _) => answer += &format!("{text}\n"),
            _ => return Err(wrong()),
        }
    }
    let (log, formula) = log.zip(formula).ok_or_else(wrong)?;
    let pair = Pair { log, formula };
    Ok(Example { pair, call, answer })
}

/// The numbers of a text.
fn numbers(text: &str) -> Vec<usize> {
    let words = text.split(|letter: char| !letter.is_ascii_digit());
    words.filter_map(|word| word.parse().ok()).collect()
}

/// Makes the calls of the library that the examples show, each refused.
pub fn calls(examples: &[Example]) -> Check {
    for example in examples {
        let Pair { log, formula } = &example.pair;
        let refused = match example.call {
            Call::Program => continue,
            Call::Search { start, words } => {
                product::search(log, formula, start, Lent::new(words).words()).refused
            }
            Call::Analysis { words, rows } => product::analyse(
                log,
                formula,
                Lent::new(words).words(),
                Lent::new(rows).words(),
            ),
        };
        let answer = format!(
            "refused {} {} {}\n",
            refused.file, refused.number, refused.place
        );
        if answer != example.answer {
            return Err(example.differ(&answer));
        }
    }
    Ok(())
}
