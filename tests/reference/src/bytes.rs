//! Walks over a file command by command. Every refusal of a command stands at
//! the command's first byte.

use crate::refusal::{Refusal, CUT_SHORT, LEFTOVER};

pub struct Walk<'a> {
    file: u32,
    bytes: &'a [u8],
    /// Offset of the command being read.
    command: usize,
    /// Offset of the next unread byte.
    next: usize,
}

impl<'a> Walk<'a> {
    pub fn new(file: u32, bytes: &'a [u8]) -> Walk<'a> {
        Walk {
            file,
            bytes,
            command: 0,
            next: 0,
        }
    }

    /// Takes the next command byte; where there is none, END is missing.
    pub fn command(&mut self) -> Result<u8, Refusal> {
        self.command = self.next;
        let code = self.bytes.get(self.next).copied();
        self.next += 1;
        code.ok_or(self.refuse(CUT_SHORT))
    }

    /// Takes the operands of the command being read.
    pub fn operands(&mut self, count: usize) -> Result<&'a [u8], Refusal> {
        let taken = self.bytes.get(self.next..self.next + count);
        self.next += count;
        taken.ok_or(self.refuse(CUT_SHORT))
    }

    /// Refuses the command being read unless the condition holds.
    pub fn require(&self, condition: bool, number: u32) -> Result<(), Refusal> {
        if condition {
            Ok(())
        } else {
            Err(self.refuse(number))
        }
    }

    /// To be asked behind END: no byte may follow.
    pub fn nothing_left(&self) -> Result<(), Refusal> {
        if self.next < self.bytes.len() {
            return Err(Refusal::new(self.file, LEFTOVER, self.next));
        }
        Ok(())
    }

    pub fn place(&self) -> usize {
        self.command
    }

    fn refuse(&self, number: u32) -> Refusal {
        Refusal::new(self.file, number, self.command)
    }
}

/// A value of four bytes, the highest first.
pub fn value(bytes: &[u8]) -> u32 {
    bytes
        .iter()
        .fold(0, |sum, &byte| (sum << 8) | u32::from(byte))
}
