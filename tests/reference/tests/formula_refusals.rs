//! Reading a formula: each refusal, its place and the order within a command.

use reference::compose::*;
use reference::formula::{read, Formula};
use reference::log::Log;
use reference::refusal::Refusal;

/// Read against a log with a rising field 0 and a plain field 1.
fn outcome(bytes: Vec<u8>) -> Result<Formula, Refusal> {
    let log = Log::read(&hex("0101 0100 00")).expect("a log");
    read(&bytes, &log)
}

fn refused(bytes: Vec<u8>) -> (u32, u32, usize) {
    outcome(bytes).expect_err("a refusal").triple()
}

fn refused_text(text: &str) -> (u32, u32, usize) {
    refused(hex(text))
}

fn accepted(text: &str) -> Formula {
    outcome(hex(text)).expect("a formula")
}

#[test]
fn the_smallest_formulas() {
    assert_eq!(accepted("1000 00").states.len(), 1);
    assert_eq!(accepted("1001 00").states.len(), 1);
    assert!(accepted("1600 1600 1607 1000 00").tied[7]);
    assert_eq!(refused_text(""), (2, 1, 0));
    assert_eq!(refused_text("1000"), (2, 1, 2));
    assert_eq!(refused_text("00"), (2, 2, 0));
    assert_eq!(refused_text("1600 00"), (2, 2, 2));
    assert_eq!(refused_text("1000 00 00"), (2, 5, 3));
}

#[test]
fn cut_inside_operands() {
    assert_eq!(refused_text("10"), (2, 1, 0));
    assert_eq!(refused_text("1000 11"), (2, 1, 2));
    assert_eq!(refused_text("1000 1100 12 0000000000"), (2, 1, 4));
    assert_eq!(refused_text("1000 1100 13 0000"), (2, 1, 4));
    assert_eq!(refused_text("1000 1100 14 00"), (2, 1, 4));
    assert_eq!(refused_text("16"), (2, 1, 0));
    assert_eq!(refused_text("1000 1100 15 21"), (2, 1, 5));
    assert_eq!(refused_text("1000 1100 15 22"), (2, 1, 5));
}

#[test]
fn the_file_ends_inside_an_expression() {
    assert_eq!(refused_text("1000 1100 15"), (2, 1, 5));
    assert_eq!(refused_text("1000 1100 15 23"), (2, 1, 6));
    assert_eq!(refused_text("1000 1100 15 23 20 00000001"), (2, 1, 11));
    // A constant that is cut in its value stands at its own place.
    assert_eq!(refused_text("1000 1100 15 20 000001"), (2, 1, 5));
    assert_eq!(refused_text("1000 1100 15 28 20 00"), (2, 1, 6));
    // The expression is whole, END is missing.
    assert_eq!(refused_text("1000 1100 15 20 00000001"), (2, 1, 10));
}

#[test]
fn a_command_interrupts_an_expression() {
    for command in [
        "00", "1000", "1100", "12", "13", "14", "15", "1600", "17", "01", "1F", "2F", "FF",
    ] {
        let behind_guard = format!("1000 1100 15 {command}");
        assert_eq!(refused_text(&behind_guard), (2, 2, 5), "{command}");
        let behind_add = format!("1000 1100 15 23 2200 {command}");
        assert_eq!(refused_text(&behind_add), (2, 2, 8), "{command}");
    }
}

fn nots(times: usize, then: &[u8]) -> Vec<u8> {
    let mut bytes = hex("1000 1100 15");
    bytes.extend(vec![NOT; times]);
    bytes.extend(then);
    bytes
}

#[test]
fn depth_of_an_expression() {
    let leaf = join(&[constant(1), vec![0]]);
    assert!(outcome(nots(7, &leaf)).is_ok());
    assert_eq!(refused(nots(8, &leaf)), (2, 4, 13));
    assert_eq!(refused(nots(8, &[0x00])), (2, 2, 13));
    assert_eq!(refused(nots(8, &[])), (2, 1, 13));
    assert_eq!(refused(nots(9, &leaf)), (2, 4, 13));
    // Surplus before the missing operand, before the absent variable.
    assert_eq!(refused(nots(8, &[0x20])), (2, 4, 13));
    assert_eq!(refused(nots(8, &[0x21, 0x09])), (2, 4, 13));
    assert_eq!(refused(nots(8, &[0x2F])), (2, 2, 13));
}

/// A full tree of ADDs: five levels have 31 commands.
fn tree(levels: usize, last: Vec<u8>) -> Vec<u8> {
    match levels {
        1 => last,
        _ => op(ADD, &[tree(levels - 1, count(0)), tree(levels - 1, last)]),
    }
}

#[test]
fn length_of_an_expression() {
    let with = |last: Vec<u8>| file(&[state(0), step(0), guard(tree(5, last))]);
    assert!(outcome(with(count(0))).is_ok());
    // The 31st command is a NOT: the 32nd is surplus, at its own place. The
    // tree has 15 ADDs and 15 COUNTs before it.
    let place = 5 + 15 + 2 * 15 + 1;
    assert_eq!(refused(with(op(NOT, &[count(0)]))), (2, 4, place));
    // With an END there it is foreign, and with nothing there cut short.
    let open = join(&[state(0), step(0), guard(tree(5, vec![NOT]))]);
    assert_eq!(open.len(), place);
    assert_eq!(refused(join(&[open.clone(), vec![0]])), (2, 2, place));
    assert_eq!(refused(open), (2, 1, place));
}

#[test]
fn expression_commands_elsewhere_are_foreign() {
    for code in 0x20..=0x2E {
        let byte = format!("{code:02X}");
        assert_eq!(refused_text(&byte), (2, 2, 0));
        assert_eq!(refused_text(&format!("1000 {byte}")), (2, 2, 2));
        assert_eq!(refused_text(&format!("1000 1100 {byte}")), (2, 2, 4));
        let behind = format!("1000 1100 15 20 00000001 {byte}");
        assert_eq!(refused_text(&behind), (2, 2, 10));
    }
}

#[test]
fn guards() {
    assert_eq!(refused_text("15"), (2, 2, 0));
    assert_eq!(refused_text("1000 15"), (2, 2, 2));
    assert_eq!(refused_text("1000 1100 15 2200 15"), (2, 4, 7));
    assert_eq!(refused_text("1000 1100 15 2200 15 2200 00"), (2, 4, 7));
    // Each step may have one.
    assert_eq!(
        accepted("1000 1100 15 2200 1100 15 2200 00").states[0]
            .steps
            .len(),
        2
    );
}

#[test]
fn tests_and_binds_behind_a_guard_are_foreign() {
    for part in [
        "12",
        "13",
        "14",
        "17",
        "12000000000000",
        "13000000",
        "140000",
        "170008",
    ] {
        let bytes = format!("1000 1100 15 2200 {part}");
        assert_eq!(refused_text(&bytes), (2, 2, 7), "{part}");
    }
    // Also as a ninth.
    let eight = "140000".repeat(8);
    let bytes = format!("1000 1100 {eight} 15 2200 140000 00");
    assert_eq!(refused_text(&bytes), (2, 2, 31));
}

#[test]
fn parts_need_a_step_of_their_own_state() {
    for part in ["12", "13", "14", "15", "17"] {
        assert_eq!(refused_text(part), (2, 2, 0));
        assert_eq!(refused_text(&format!("1600 {part}")), (2, 2, 2));
        assert_eq!(refused_text(&format!("1000 {part}")), (2, 2, 2));
        assert_eq!(refused_text(&format!("1000 1100 1000 {part}")), (2, 2, 6));
        assert_eq!(refused_text(&format!("1000 1100 1002 {part}")), (2, 2, 6));
    }
}

#[test]
fn a_ninth_part() {
    let eight = format!("{}{}", "140000".repeat(4), "13000000".repeat(4));
    let start = "1000 1101 140000 1000 1100";
    let bytes = format!("{start} {eight} 00");
    assert!(outcome(hex(&bytes)).is_ok());
    for part in [
        "12",
        "13",
        "14",
        "17",
        "140900",
        "170008",
        "170907",
        "12000000000000",
    ] {
        let bytes = format!("{start} {eight} {part}");
        assert_eq!(refused_text(&bytes), (2, 4, 39), "{part}");
    }
}

#[test]
fn ties() {
    let eight = "1603".repeat(8);
    assert!(accepted(&format!("{eight} 1000 00")).tied[3]);
    for last in ["1603", "1609", "16"] {
        assert_eq!(refused_text(&format!("{eight} {last}")), (2, 4, 16));
    }
    assert_eq!(refused_text("1608 1000 00"), (2, 3, 0));
    assert_eq!(refused_text("1000 1600 00"), (2, 2, 2));
    assert_eq!(refused_text("1000 16"), (2, 2, 2));
    // A ninth behind a STATE is foreign.
    assert_eq!(refused_text(&format!("{eight} 1000 1600")), (2, 2, 18));
}

#[test]
fn states_and_steps() {
    assert_eq!(refused_text("1004 00"), (2, 3, 0));
    assert_eq!(refused_text("1100 00"), (2, 2, 0));
    let sixteen = "1000".repeat(16);
    assert_eq!(accepted(&format!("{sixteen} 00")).states.len(), 16);
    for last in ["1000", "1009", "10"] {
        assert_eq!(refused_text(&format!("{sixteen} {last}")), (2, 4, 32));
    }
    let eight = "1100".repeat(8);
    assert_eq!(
        accepted(&format!("1000 {eight} 00")).states[0].steps.len(),
        8
    );
    assert_eq!(refused_text(&format!("1000 {eight} 1100")), (2, 4, 18));
    assert_eq!(refused_text(&format!("1000 {eight} 11")), (2, 4, 18));
    // In an end state a step is foreign, also without its operand.
    assert_eq!(refused_text("1000 1002 1100"), (2, 2, 4));
    assert_eq!(refused_text("1000 1003 11"), (2, 2, 4));
}

#[test]
fn values_that_do_not_exist() {
    assert_eq!(refused_text("1000 1100 12 02 00 00000000 00"), (2, 3, 4));
    assert_eq!(refused_text("1000 1100 12 00 06 00000000 00"), (2, 3, 4));
    assert_eq!(refused_text("1000 1100 13 02 00 00 00"), (2, 3, 4));
    assert_eq!(refused_text("1000 1100 13 00 06 00 00"), (2, 3, 4));
    assert_eq!(refused_text("1000 1100 13 00 00 08 00"), (2, 3, 4));
    assert_eq!(refused_text("1000 1100 14 02 00 00"), (2, 3, 4));
    assert_eq!(refused_text("1000 1100 14 00 08 00"), (2, 3, 4));
    assert_eq!(refused_text("1000 1100 15 21 08 00"), (2, 3, 5));
    // Cut short before value.
    assert_eq!(refused_text("1000 1100 12 09 09 0000"), (2, 1, 4));
}

#[test]
fn absent_states_wait_until_behind_end() {
    assert_eq!(refused_text("1000 1101 00"), (2, 13, 2));
    assert_eq!(refused_text("1000 11FF 00"), (2, 13, 2));
    assert_eq!(refused_text("1000 1100 15 22FF 00"), (2, 13, 5));
    // The lowest place decides: a COUNT or a STEP.
    assert_eq!(refused_text("1000 1100 15 2207 1109 00"), (2, 13, 5));
    assert_eq!(refused_text("1000 1109 15 2207 00"), (2, 13, 2));
    assert_eq!(
        refused_text("1000 1100 15 2B 2200 2201 2202 1109 00"),
        (2, 13, 8)
    );
    // A later bad command decides, and a leftover too.
    assert_eq!(refused_text("1000 1109 18 00"), (2, 2, 4));
    assert_eq!(refused_text("1000 1109 00 00"), (2, 5, 5));
    assert_eq!(refused_text("1000 1109"), (2, 1, 4));
    // A state declared later is there.
    assert!(outcome(hex("1000 1101 15 2201 1002 00")).is_ok());
    // Also in a state that no path reaches.
    assert_eq!(refused_text("1000 1000 1109 00"), (2, 13, 4));
    // Any other operand that does not exist is told where it stands.
    assert_eq!(refused_text("1000 1109 1604 00"), (2, 2, 4));
    assert_eq!(refused_text("1000 1109 1400 08 00"), (2, 3, 4));
    assert_eq!(refused_text("1000 1109 15 2108 00"), (2, 3, 5));
    // Before an unbound variable, wherever it stands.
    assert_eq!(refused_text("1000 1100 13000000 1101 00"), (2, 13, 8));
    assert_eq!(refused_text("1000 1100 15 23 2100 2201 00"), (2, 13, 8));
}

#[test]
fn a_dead_start() {
    assert_eq!(refused_text("1002 00"), (2, 7, 0));
    assert_eq!(refused_text("1003 1000 00"), (2, 7, 0));
    assert_eq!(refused_text("1600 1601 1002 00"), (2, 7, 0));
    // Behind leftover and absent states, before unbound.
    assert_eq!(refused_text("1002 00 00"), (2, 5, 3));
    assert_eq!(refused_text("1002 1000 1105 00"), (2, 13, 4));
    assert_eq!(refused_text("1002 1000 1100 13000000 00"), (2, 7, 0));
}
