//! Calls on a small stack: a search keeps what grows with the seats in the
//! lent words, and 64 KiB are enough for the rest.

use crate::heavy::{self, Kind};
use crate::product;
use std::thread;

const STACK: usize = 64 * 1024;
const EVENTS: usize = 64;
const WORK: usize = 64 * 192;

/// Searches and analyses the heavy cases on a stack of 64 KiB; a call that
/// needs more ends the process.
pub fn small() {
    let pairs: Vec<_> = Kind::ALL.map(|kind| heavy::pair(kind, EVENTS)).into();
    let (mut work, mut rows) = (vec![0; WORK], vec![0; 12 * EVENTS]);
    let calls = move || {
        for pair in &pairs {
            product::search(&pair.log, &pair.formula, 0, &mut work);
            product::analyse(&pair.log, &pair.formula, &mut work, &mut rows);
        }
    };
    let thread = thread::Builder::new().stack_size(STACK).spawn(calls);
    thread.expect("a thread").join().expect("the calls end");
}
