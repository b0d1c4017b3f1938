//! Runs the product's program in a folder of its own and compares its text
//! with the reference's.

use crate::checks::{Check, Disagreement};
use crate::files::{self, Pair};
use crate::guards;
use crate::lacking;
use crate::marks;
use crate::page::{Call, Example};
use reference::log::MOST_EVENTS;
use reference::program::text;
use reference::random;
use std::io;
use std::path::{Path, PathBuf};
use std::process::Command;

/// A file is there with these bytes, or it is missing.
type Content = Option<Vec<u8>>;

pub struct Runner {
    program: PathBuf,
    folder: PathBuf,
    pub runs: usize,
    pub lines: usize,
    /// Runs with a line for each of 1,024 events, all of them long ones.
    pub long: usize,
    /// Examples of docs/FORMAT.md.
    pub examples: usize,
}

impl Runner {
    /// The program is run in the folder, which is made.
    pub fn new(program: &Path, folder: PathBuf) -> io::Result<Runner> {
        let program = program.canonicalize()?;
        std::fs::create_dir_all(&folder)?;
        Ok(Runner {
            program,
            folder,
            runs: 0,
            lines: 0,
            long: 0,
            examples: 0,
        })
    }

    /// The fixed files: examples, limits, missing and long ones.
    pub fn fixed(&mut self) -> Check {
        for pair in files::examples() {
            self.missing(&pair)?;
            self.long(&pair)?;
            self.run(Some(pair.log), Some(pair.formula))?;
        }
        let pairs = [
            files::everything(),
            files::longest(0),
            files::longest(1),
            lacking::longest(0),
            lacking::longest(1),
            marks::longest(0),
            marks::longest(1),
            files::wordy(),
        ];
        for pair in pairs {
            self.run(Some(pair.log), Some(pair.formula))?;
        }
        for pair in [marks::broken(), marks::stretches()].concat() {
            self.run(Some(pair.log), Some(pair.formula))?;
        }
        for events in [64, 65] {
            let pair = files::crowd(events);
            self.run(Some(pair.log), Some(pair.formula))?;
        }
        Ok(())
    }

    /// The page's examples: the program prints what the page and the
    /// reference say.
    pub fn page(&mut self, examples: &[Example]) -> Check {
        for example in examples
            .iter()
            .filter(|example| example.call == Call::Program)
        {
            let Pair { log, formula } = example.pair.clone();
            let wanted = text(&log, &formula);
            if wanted != example.answer {
                return Err(example.differ(&wanted));
            }
            self.run(Some(log), Some(formula))?;
            self.examples += 1;
        }
        Ok(())
    }

    pub fn rolled(&mut self, seed: u64) -> Check {
        for case in [random::case(seed), guards::case(seed)] {
            self.run(Some(case.log), Some(case.formula))?;
        }
        Ok(())
    }

    fn missing(&mut self, pair: &Pair) -> Check {
        let (log, formula) = (&pair.log, &pair.formula);
        self.run(None, None)?;
        self.run(Some(log.clone()), None)?;
        self.run(None, Some(formula.clone()))?;
        self.run(Some(Vec::new()), Some(formula.clone()))?;
        self.run(Some(log.clone()), Some(Vec::new()))
    }

    /// Files that are longer than any that is accepted.
    fn long(&mut self, pair: &Pair) -> Check {
        let behind = |bytes: &[u8], byte: u8| [bytes, &[byte; 70_000]].concat();
        let (log, formula) = (&pair.log, &pair.formula);
        for byte in [0, 1, 2, 3, 4, 0x10, 0x16] {
            self.run(Some(behind(log, byte)), Some(formula.clone()))?;
            self.run(Some(log.clone()), Some(behind(formula, byte)))?;
            self.run(Some(vec![byte; 70_000]), Some(formula.clone()))?;
            self.run(Some(log.clone()), Some(vec![byte; 70_000]))?;
        }
        Ok(())
    }

    fn run(&mut self, log: Content, formula: Content) -> Check {
        let answer = self.answer(&log, &formula);
        let (log, formula) = (log.unwrap_or_default(), formula.unwrap_or_default());
        let wanted = text(&log, &formula);
        self.runs += 1;
        self.lines += wanted.lines().count();
        self.long += usize::from(is_long(&wanted));
        match answer {
            Ok(answer) if answer == wanted => Ok(()),
            other => Err(Disagreement {
                cause: cause(&other, &wanted),
                log,
                formula,
            }),
        }
    }

    /// What the program prints, or what else it does.
    fn answer(&self, log: &Content, formula: &Content) -> Result<String, String> {
        let say = |error: io::Error| error.to_string();
        put(&self.folder.join("log.bin"), log).map_err(say)?;
        put(&self.folder.join("formula.bin"), formula).map_err(say)?;
        let mut command = Command::new(&self.program);
        let output = command.current_dir(&self.folder).output().map_err(say)?;
        if !output.status.success() {
            return Err(format!("the program ends with {}", output.status));
        }
        if !output.stderr.is_empty() {
            let noise = String::from_utf8_lossy(&output.stderr).into_owned();
            return Err(format!("the program complains: {noise:?}"));
        }
        String::from_utf8(output.stdout).map_err(|error| error.to_string())
    }
}

impl Drop for Runner {
    fn drop(&mut self) {
        let _ = std::fs::remove_file(self.folder.join("log.bin"));
        let _ = std::fs::remove_file(self.folder.join("formula.bin"));
        let _ = std::fs::remove_dir(&self.folder);
    }
}

fn put(path: &Path, content: &Content) -> io::Result<()> {
    match content {
        Some(bytes) => std::fs::write(path, bytes),
        None if path.exists() => std::fs::remove_file(path),
        None => Ok(()),
    }
}

/// Is there a line for each of 1,024 events, with eight values of ten digits?
fn is_long(text: &str) -> bool {
    let is_ten = |word: &&str| word.starts_with('v') && word.len() == "v0=4294967295".len();
    let ten = |line: &str| line.split(' ').filter(is_ten).count();
    text.lines().count() == MOST_EVENTS && text.lines().all(|line| ten(line) == 8)
}

/// The first line that differs.
fn cause(answer: &Result<String, String>, wanted: &str) -> String {
    let answer = match answer {
        Ok(answer) => answer,
        Err(trouble) => return trouble.clone(),
    };
    let (mut ours, mut theirs) = (answer.split('\n'), wanted.split('\n'));
    loop {
        match (ours.next(), theirs.next()) {
            (Some(our), Some(their)) if our == their => {}
            (our, their) => return format!("program {our:?}, reference {their:?}"),
        }
    }
}
