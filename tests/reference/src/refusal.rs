//! A refusal names the file, the number from the table and the place.

use std::fmt;

pub const LOG: u32 = 1;
pub const FORMULA: u32 = 2;
pub const CALL: u32 = 3;

pub const CUT_SHORT: u32 = 1;
pub const FOREIGN: u32 = 2;
pub const VALUE: u32 = 3;
pub const SURPLUS: u32 = 4;
pub const LEFTOVER: u32 = 5;
pub const STEP_BACK: u32 = 6;
pub const DEAD_START: u32 = 7;
pub const UNBOUND: u32 = 8;
pub const OUTSIDE: u32 = 9;
pub const SHORT: u32 = 10;
pub const CROWDED: u32 = 11;
pub const TWICE: u32 = 12;
pub const ABSENT_STATE: u32 = 13;

#[derive(Clone, Copy, Debug, PartialEq, Eq, PartialOrd, Ord)]
pub struct Refusal {
    pub file: u32,
    pub number: u32,
    pub place: usize,
}

impl Refusal {
    pub fn new(file: u32, number: u32, place: usize) -> Refusal {
        Refusal {
            file,
            number,
            place,
        }
    }

    /// The three numbers, as the cases write them.
    pub fn triple(self) -> (u32, u32, usize) {
        (self.file, self.number, self.place)
    }
}

impl fmt::Display for Refusal {
    fn fmt(&self, out: &mut fmt::Formatter) -> fmt::Result {
        write!(out, "refused {} {} {}", self.file, self.number, self.place)
    }
}
