//! The stored answers of the program log_cases: this implementation gives the
//! same to each of its logs. A line has a refusal, or the numbers of fields and
//! events.

use reference::compose::*;
use reference::log::Log;

const STORED: &str = include_str!("../../../crates/log_cases/stdout");

fn line(bytes: &[u8]) -> String {
    match Log::read(bytes) {
        Ok(log) => format!("accepted {} {}\n", log.rising.len(), log.events()),
        Err(refusal) => format!("{refusal}\n"),
    }
}

/// All front parts, the whole too.
fn cuts(bytes: &[u8]) -> String {
    (0..=bytes.len()).map(|n| line(&bytes[..n])).collect()
}

/// Every byte set to each of the values.
fn sets(bytes: &[u8], values: &[u8]) -> String {
    let set = |at: usize, to: u8| {
        let mut bytes = bytes.to_vec();
        bytes[at] = to;
        line(&bytes)
    };
    let places = 0..bytes.len();
    let all = places.flat_map(|at| values.iter().map(move |&to| (at, to)));
    all.map(|(at, to)| set(at, to)).collect()
}

/// Time 500 twice; code 1 trip, 2 open.
fn bench() -> Vec<u8> {
    log(&[1, 0], &[&[500, 1], &[500, 2]])
}

/// A trip at 500, one whose time is absent, an open at 520 with both bits set.
fn lacking_time() -> Vec<u8> {
    let trips = join(&[event(&[500, 1]), lacking(&[None, Some(1)])]);
    let open = lacking(&[Some(520), Some(2)]);
    file(&[field(1), field(0), trips, open])
}

/// A field and so many marks.
fn marked(count: usize) -> Vec<u8> {
    file(&[field(0), mark().repeat(count)])
}

/// Bits and values that may not be there, a cut, falls across absent times;
/// marks, falls across them and behind them.
const SINGLE: [&str; 17] = [
    "0100 03 00 00000000 00",
    "0100 03 02 00000000 00",
    "0100 03 80 00000000 00",
    "0100 03 00 00000001 00",
    "0100 03 02 000000",
    "0101 03 01 00000005 03 00 00000000 03 01 00000005 00",
    "0101 03 01 00000005 03 00 00000000 03 01 00000004 00",
    "0101 02 00000005 03 00 00000000 03 00 00000000 02 00000004 00",
    "0101 03 00 00000000 0101 00",
    "0101 02 00000005 03 03 00000004 00",
    "0100 04 00",
    "04 0100 00",
    "0100 04 0100 00",
    "0100 02 00000001 04 04 00",
    "0101 02 00000005 04 02 00000004 00",
    "0101 02 00000005 04 02 00000004 02 00000003 00",
    "0101 02 00000005 04 03 00 00000000 02 00000004 00",
];

#[test]
fn the_stored_answers() {
    let mut text = cuts(&bench()) + &sets(&bench(), &[0, 1, 2, 4, 255]);
    text += &(cuts(&lacking_time()) + &sets(&lacking_time(), &[0, 1, 2, 3, 4, 255]));
    text += &SINGLE.map(|log| line(&hex(log))).concat();
    text += &[64, 65].map(|count| line(&marked(count))).concat();
    for (n, (ours, stored)) in text.lines().zip(STORED.lines()).enumerate() {
        assert_eq!(ours, stored, "line {}", n + 1);
    }
    assert_eq!(text.lines().count(), STORED.lines().count());
}
