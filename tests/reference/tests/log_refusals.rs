//! Reading a log: each refusal, its place and the order within a command.

use reference::compose::*;
use reference::log::Log;

fn refused(bytes: Vec<u8>) -> (u32, u32, usize) {
    Log::read(&bytes).expect_err("a refusal").triple()
}

fn events(text: &str) -> usize {
    Log::read(&hex(text)).expect("a log").events()
}

#[test]
fn accepted_logs() {
    assert_eq!(events("0100 00"), 0);
    assert_eq!(events("0101 02 00000005 02 00000005 00"), 2);
    assert_eq!(events("0100 02 FFFFFFFF 02 00000000 00"), 2);
    let full = file(&(0..8).map(|_| field(1)).collect::<Vec<_>>());
    assert_eq!(Log::read(&full).expect("a log").rising, [true; 8]);
}

#[test]
fn values_are_big_endian() {
    let log = Log::read(&hex("0100 02 01020304 00")).expect("a log");
    assert_eq!(log.event(0), [Some(0x0102_0304)]);
}

#[test]
fn only_field_may_come_first() {
    assert_eq!(refused(hex("00")), (1, 2, 0));
    assert_eq!(refused(hex("02")), (1, 2, 0));
    assert_eq!(refused(hex("02 00000000 00")), (1, 2, 0));
    assert_eq!(refused(hex("03")), (1, 2, 0));
    assert_eq!(refused(hex("03 00 00000000 00")), (1, 2, 0));
    assert_eq!(refused(hex("04")), (1, 2, 0));
    assert_eq!(refused(hex("05")), (1, 2, 0));
}

#[test]
fn end_missing_or_operands_missing() {
    assert_eq!(refused(hex("0100")), (1, 1, 2));
    assert_eq!(refused(hex("01")), (1, 1, 0));
    assert_eq!(refused(hex("0100 02 000000")), (1, 1, 2));
    assert_eq!(refused(hex("0100 02 00000000")), (1, 1, 7));
    assert_eq!(refused(hex("0100 0100 02 00000000 00")), (1, 1, 4));
}

#[test]
fn unknown_commands_and_kinds() {
    assert_eq!(refused(hex("0100 05 00")), (1, 2, 2));
    assert_eq!(refused(hex("0100 10 00")), (1, 2, 2));
    assert_eq!(refused(hex("0102 00")), (1, 3, 0));
    assert_eq!(refused(hex("0100 01FF")), (1, 3, 2));
}

#[test]
fn a_ninth_field() {
    let eight = [0x01, 0x00].repeat(8);
    assert_eq!(refused(join(&[eight.clone(), hex("0100")])), (1, 4, 16));
    // Surplus stands before missing operands and before a wrong kind.
    assert_eq!(refused(join(&[eight.clone(), hex("01")])), (1, 4, 16));
    assert_eq!(refused(join(&[eight.clone(), hex("0109")])), (1, 4, 16));
    // Behind an event it is foreign.
    let event = event(&[0; 8]);
    assert_eq!(refused(join(&[eight, event, hex("0100")])), (1, 2, 49));
}

#[test]
fn a_field_behind_an_event() {
    assert_eq!(refused(hex("0100 02 00000000 0100 00")), (1, 2, 7));
    assert_eq!(refused(hex("0100 02 00000000 01")), (1, 2, 7));
}

#[test]
fn the_event_after_1024() {
    let mut parts = vec![field(0)];
    parts.extend((0..1024).map(|_| event(&[1])));
    assert_eq!(Log::read(&file(&parts)).expect("a log").events(), 1024);
    parts.push(event(&[1]));
    let place = 2 + 1024 * 5;
    assert_eq!(refused(file(&parts)), (1, 4, place));
    parts.pop();
    parts.push(vec![0x02]);
    assert_eq!(refused(join(&parts)), (1, 4, place));
}

#[test]
fn bytes_behind_end() {
    assert_eq!(refused(hex("0100 00 00")), (1, 5, 3));
    assert_eq!(refused(hex("0100 00 FF 01")), (1, 5, 3));
}

#[test]
fn a_rising_field_falls() {
    assert_eq!(refused(hex("0101 02 00000001 02 00000000 00")), (1, 6, 7));
    // Only the field that rises; the second of two as well.
    let second = log(&[0, 1], &[&[5, 5], &[4, 6], &[9, 5]]);
    assert_eq!(refused(second), (1, 6, 22));
    // A cut event is cut short, not a step back.
    assert_eq!(refused(hex("0101 02 00000001 02 000000")), (1, 1, 7));
    // The first bad command decides, before what stands behind END.
    assert_eq!(
        refused(hex("0101 02 00000001 02 00000000 00 00")),
        (1, 6, 7)
    );
    // Compared with the event before, not with the largest so far.
    assert_eq!(
        refused(hex("0101 02 00000002 02 00000001 02 00000001 00")),
        (1, 6, 7)
    );
}
