//! Gathered lists: a list is the one before it and one value more. Each is
//! kept once, so that equal lists have one number; 0 is the empty one.

use std::collections::HashMap;
use std::hash::{BuildHasherDefault, Hasher};

/// A list: the one before its last value, that value, and what guards read.
#[derive(Default)]
pub struct List {
    before: u32,
    value: u32,
    pub sum: u32,
    pub length: u32,
    pub different: u32,
}

pub struct Lists {
    kept: Vec<List>,
    known: HashMap<u64, u32, BuildHasherDefault<Mixer>>,
}

impl Lists {
    /// The empty list alone.
    pub fn new() -> Lists {
        Lists {
            kept: vec![List::default()],
            known: HashMap::default(),
        }
    }

    /// Forgets all lists but the empty one; their room is used again.
    pub fn clear(&mut self) {
        if self.kept.len() > 1 {
            self.kept.truncate(1);
            self.known.clear();
        }
    }

    /// The list with one value more.
    pub fn add(&mut self, list: u32, value: u32) -> u32 {
        let key = u64::from(list) << 32 | u64::from(value);
        if let Some(&known) = self.known.get(&key) {
            return known;
        }
        let fresh = self.kept.len() as u32;
        self.kept.push(List {
            before: list,
            value,
            sum: self.of(list).sum.saturating_add(value),
            length: self.of(list).length + 1,
            different: self.different_with(list, value),
        });
        self.known.insert(key, fresh);
        fresh
    }

    /// The list of a number.
    pub fn of(&self, list: u32) -> &List {
        &self.kept[list as usize]
    }

    /// How many different values a list would have with one more.
    pub fn different_with(&self, list: u32, value: u32) -> u32 {
        let mut at = list;
        while at != 0 && self.of(at).value != value {
            at = self.of(at).before;
        }
        self.of(list).different + u32::from(at == 0)
    }
}

/// Mixes the one number that a list is looked up by.
#[derive(Default)]
struct Mixer(u64);

impl Hasher for Mixer {
    /// The mixed number.
    fn finish(&self) -> u64 {
        self.0 ^ self.0 >> 29
    }

    /// Bytes are never mixed.
    fn write(&mut self, bytes: &[u8]) {
        self.0 ^= bytes.len() as u64;
    }

    /// Every bit of the number changes the upper bits.
    fn write_u64(&mut self, number: u64) {
        self.0 = (number ^ number >> 32).wrapping_mul(0x9E37_79B9_7F4A_7C15);
    }
}
