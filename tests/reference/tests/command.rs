//! The command as it is called from a shell.

use reference::compose::hex;
use std::path::PathBuf;
use std::process::Command;

const L: &str = "0101 0100 02000001F400000001 02000001F400000002 00";
const F: &str = "1000 1101 12010000000001 140000 1000 1102 12010000000002 1002 00";

/// A directory of the test's own with log.bin and formula.bin in it.
fn room(name: &str) -> PathBuf {
    let path = PathBuf::from(env!("CARGO_TARGET_TMPDIR")).join(name);
    let _ = std::fs::remove_dir_all(&path);
    std::fs::create_dir_all(&path).expect("a directory");
    std::fs::write(path.join("log.bin"), hex(L)).expect("a log");
    std::fs::write(path.join("formula.bin"), hex(F)).expect("a formula");
    path
}

fn printed(path: &PathBuf, words: &[&str]) -> String {
    let mut command = Command::new(env!("CARGO_BIN_EXE_reference"));
    let output = command.current_dir(path).args(words).output();
    String::from_utf8(output.expect("an output").stdout).expect("text")
}

#[test]
fn the_program_reads_its_two_files() {
    let path = room("both");
    let expected = "0 alert 1 2 v0=500\n1 none\n";
    assert_eq!(printed(&path, &[]), expected);
    assert_eq!(printed(&path, &["log.bin", "formula.bin"]), expected);
}

#[test]
fn a_missing_file_counts_as_empty() {
    let path = room("missing");
    assert_eq!(printed(&path, &["log.bin", "none.bin"]), "refused 2 1 0\n");
    assert_eq!(
        printed(&path, &["none.bin", "formula.bin"]),
        "refused 1 1 0\n"
    );
}

#[test]
fn the_line_of_a_search() {
    let path = room("search");
    let zeros = |times: usize| ",0".repeat(times);
    let expected = format!(
        "accept 2 0,1{} 0,0{} 1 500{} 1\n",
        zeros(30),
        zeros(30),
        zeros(7)
    );
    let words = ["search", "log.bin", "formula.bin", "0", "192"];
    assert_eq!(printed(&path, &words), expected);
    let words = ["search", "log.bin", "formula.bin", "2", "192"];
    assert_eq!(printed(&path, &words), "refused 3 9 2\n");
}

#[test]
fn the_rows_of_an_analysis() {
    let path = room("rows");
    let words = ["rows", "log.bin", "formula.bin", "192", "25"];
    let expected = "done 1,1,2,1,500,0,0,0,0,0,0,0,0,0,0,0,0,0,0,0,0,0,0,0,2863311530\n";
    assert_eq!(printed(&path, &words), expected);
    let words = ["rows", "log.bin", "formula.bin", "192", "1"];
    assert_eq!(printed(&path, &words), "refused 3 10 24 2863311530\n");
}

#[test]
fn a_rolled_case_is_written() {
    let path = room("case");
    let line = printed(&path, &["case", "7", "a.bin", "b.bin"]);
    let case = reference::random::case(7);
    assert_eq!(
        line,
        format!("{} {} {}\n", case.start, case.words, case.row_words)
    );
    assert_eq!(std::fs::read(path.join("a.bin")).expect("a log"), case.log);
    assert_eq!(
        std::fs::read(path.join("b.bin")).expect("a formula"),
        case.formula
    );
}
