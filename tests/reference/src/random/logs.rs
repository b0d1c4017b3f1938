//! Logs with equal times, rising and plain fields.

use super::Dice;
use crate::compose::{event, field, file};

/// A log's bytes with what formulas against it need to know.
pub struct Rolled {
    pub bytes: Vec<u8>,
    pub rising: Vec<bool>,
    /// About the largest value of a rising field.
    pub top: u32,
}

/// A log with so many fields and events; field 0 mostly rises.
pub fn log(dice: &mut Dice, fields: usize, events: usize) -> Rolled {
    let rising: Vec<bool> = (0..fields)
        .map(|number| dice.chance(if number == 0 { 80 } else { 30 }))
        .collect();
    let mut parts: Vec<Vec<u8>> = rising.iter().map(|&up| field(up.into())).collect();
    let base = match dice.below(40) {
        0 => u32::MAX - 4,
        1 => 500,
        _ => dice.below(3) as u32,
    };
    let codes = dice.between(2, 4);
    let mut now: Vec<u32> = vec![base; fields];
    for _ in 0..events {
        for (number, value) in now.iter_mut().enumerate() {
            *value = match rising[number] {
                true => value.saturating_add(dice.pick(&[0, 0, 1, 1, 1, 2, 3])),
                false => dice.below(codes) as u32,
            };
        }
        parts.push(event(&now));
    }
    let mut top = base;
    for (number, value) in now.iter().enumerate() {
        top = if rising[number] { top.max(*value) } else { top };
    }
    Rolled {
        bytes: file(&parts),
        rising,
        top,
    }
}
