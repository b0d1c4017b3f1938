//! The commands: their one line, their status and what they write.

use compare::files::examples;
use std::path::{Path, PathBuf};
use std::process::{Command, Output};

fn compare(words: &[&str]) -> Output {
    Command::new(env!("CARGO_BIN_EXE_compare"))
        .args(words)
        .output()
        .expect("compare runs")
}

fn text(bytes: &[u8]) -> String {
    String::from_utf8_lossy(bytes).into_owned()
}

/// A folder of this test's own, empty.
fn folder(name: &str) -> PathBuf {
    let folder = Path::new(env!("CARGO_TARGET_TMPDIR")).join(name);
    let _ = std::fs::remove_dir_all(&folder);
    std::fs::create_dir_all(&folder).expect("a folder");
    folder
}

/// A program that prints the given text, whatever its files are.
fn program(folder: &Path, script: &str) -> String {
    let path = folder.join("program");
    std::fs::write(&path, format!("#!/bin/sh\n{script}\n")).expect("a script");
    let status = Command::new("chmod").arg("+x").arg(&path).status();
    assert!(status.expect("chmod runs").success());
    path.display().to_string()
}

#[test]
fn seeds_give_one_line() {
    let output = compare(&["5", "15"]);
    assert!(output.status.success());
    let line = text(&output.stdout);
    assert_eq!(line.lines().count(), 1);
    assert!(line.starts_with("stand-in: 30 cases agree: "), "{line}");
}

#[test]
fn no_seeds_agree_too() {
    let output = compare(&["7", "7"]);
    assert!(output.status.success());
    assert!(text(&output.stdout).starts_with("stand-in: 0 cases agree: "));
}

#[test]
fn wrong_words_show_the_usage() {
    let wrong: [&[&str]; 5] = [
        &["1"],
        &["one", "two"],
        &["program"],
        &["--keep"],
        &["1", "2", "3"],
    ];
    for words in wrong {
        let output = compare(words);
        assert_eq!(output.status.code(), Some(2), "{words:?}");
        assert!(text(&output.stderr).starts_with("compare [FROM TO]"));
    }
}

/// The folder that a program found wrong is kept in, and the cause there.
fn kept_of(name: &str, script: &str) -> (PathBuf, String) {
    let folder = folder(name);
    let kept = folder.join("kept");
    let wrong = program(&folder, script);
    let output = compare(&[
        "program",
        &wrong,
        "0",
        "1",
        "--keep",
        &kept.display().to_string(),
    ]);
    assert_eq!(output.status.code(), Some(1));
    let cause = std::fs::read_to_string(kept.join("cause.txt")).expect("a cause");
    (kept, cause)
}

#[test]
fn a_wrong_program_is_kept() {
    let (kept, cause) = kept_of("wrong", "echo refused 1 1 1");
    assert_eq!(
        cause,
        "program Some(\"refused 1 1 1\"), reference Some(\"refused 1 1 0\")\n"
    );
    assert_eq!(std::fs::read(kept.join("log.bin")).expect("a log"), []);
    assert!(kept.join("formula.bin").exists());
}

#[test]
fn a_program_right_without_files_alone_is_found_out() {
    let (kept, cause) = kept_of("halfway", "test -s log.bin && exit 3; echo refused 1 1 0");
    assert!(
        cause.starts_with("the program ends with exit status: 3"),
        "{cause}"
    );
    let log = std::fs::read(kept.join("log.bin")).expect("a log");
    assert_eq!(log, examples()[0].log);
}

#[test]
fn a_missing_program_is_told() {
    let output = compare(&["program", "no/such/program"]);
    assert_eq!(output.status.code(), Some(1));
    assert!(text(&output.stdout).contains("cannot be run"));
}
