//! Damage to a file: cut, flip, insert, delete, append, copy.

use super::{absent, marks, Dice};

/// Spoils the bytes once, seldom twice.
pub fn spoil(dice: &mut Dice, bytes: &mut Vec<u8>) {
    for _ in 0..dice.pick(&[1, 1, 1, 2]) {
        once(dice, bytes);
    }
}

fn once(dice: &mut Dice, bytes: &mut Vec<u8>) {
    if bytes.is_empty() {
        bytes.push(command(dice));
        return;
    }
    if marks::spoil(dice, bytes) || absent::spoil(dice, bytes) {
        return;
    }
    if let Some(at) = a_gather(dice, bytes) {
        return spoil_gather(dice, bytes, at);
    }
    let at = dice.below(bytes.len());
    match dice.below(8) {
        0 => bytes.truncate(at),
        1 => bytes[at] ^= 1 << dice.below(8),
        2 => bytes[at] = command(dice),
        3 => bytes.insert(at, command(dice)),
        4 => {
            bytes.remove(at);
        }
        5 => bytes.push(command(dice)),
        6 => {
            let end = dice.between(at, bytes.len().min(at + 12));
            let copy = bytes[at..end].to_vec();
            let to = dice.below(bytes.len());
            bytes.splice(to..to, copy);
        }
        _ => {
            bytes.truncate(bytes.len() - 1);
        }
    }
}

/// In a quarter of the cases the place of something like a whole GATHER.
fn a_gather(dice: &mut Dice, bytes: &[u8]) -> Option<usize> {
    let is_gather = |&at: &usize| bytes[at] == 0x17 && (8..12).contains(&bytes[at + 2]);
    let found: Vec<usize> = (0..bytes.len().saturating_sub(2))
        .filter(is_gather)
        .collect();
    (!found.is_empty() && dice.chance(25)).then(|| dice.pick(&found))
}

/// Gathers twice, or a variable or field that may not exist, or both.
fn spoil_gather(dice: &mut Dice, bytes: &mut Vec<u8>, at: usize) {
    let mut copy = bytes[at..at + 3].to_vec();
    match dice.below(4) {
        0 => bytes[at + 2] = dice.pick(&[0, 7, 8, 9, 11, 12, 255]),
        1 => bytes[at + 1] = dice.below(10) as u8,
        _ => {
            if dice.chance(40) {
                copy[1] = dice.below(10) as u8;
            }
            if dice.chance(20) {
                copy[2] = dice.pick(&[7, 8, 9, 10, 11, 12]);
            }
            bytes.splice(at + 3..at + 3, copy);
        }
    }
}

/// A byte that is likely to be a command somewhere.
fn command(dice: &mut Dice) -> u8 {
    match dice.below(5) {
        0 => dice.below(5) as u8,
        1 => 0x10 + dice.below(8) as u8,
        2 => 0x20 + dice.below(15) as u8,
        3 => dice.pick(&[0x18, 0x2F, 0x1F, 0xFF]),
        _ => dice.below(256) as u8,
    }
}
