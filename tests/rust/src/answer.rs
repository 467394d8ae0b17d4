//! The 64-bit answer: kind + 256 × a + 65,536 × b.

use crate::reference::Refusal;

pub const FREE: u64 = 0;
pub const PAIRS: u64 = 0;
pub const COPIED: u64 = 0;
pub const SPACE: u64 = 0;
pub const CROSSED: u64 = 0;
pub const DEADLOCK: u64 = 1;
pub const REFUSED: u64 = 2;

/// The parts of an answer.
#[derive(Clone, Copy, Debug, PartialEq, Eq)]
pub struct Answer {
    pub kind: u64,
    pub a: u64,
    pub b: u64,
}

impl Answer {
    pub fn new(number: u64) -> Answer {
        Answer { kind: number & 255, a: number >> 8 & 255, b: number >> 16 }
    }

    pub fn refused(refusal: Refusal) -> Answer {
        Answer { kind: REFUSED, a: u64::from(refusal.rule), b: refusal.line as u64 }
    }

    pub fn number(self) -> u64 {
        self.kind + 256 * self.a + 65_536 * self.b
    }
}
