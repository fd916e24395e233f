//! Seeded random logs, lists of them, and numbers for fractions: sound ones and such as are at the limits or far above.

use super::{discarded_after, MOST_JUDGED};
use crate::random::Random;

/// How the numbers of a log follow each other.
#[derive(Clone, Copy)]
enum Shape {
    /// One after the other, with a few gaps.
    InOrder,
    /// Most of them again and again.
    Repeats,
    /// Many come late, by up to 40.
    Late,
    /// At the edges of what is discarded.
    Edges,
    Anything,
}

const SHAPES: [Shape; 5] = [
    Shape::InOrder,
    Shape::Repeats,
    Shape::Late,
    Shape::Edges,
    Shape::Anything,
];

/// Steps from the last accepted number that are just discarded or just not, as the circle has them.
const STEPS: [u8; 14] = [0, 1, 2, 19, 20, 21, 127, 128, 129, 235, 236, 237, 238, 255];

/// Numbers of packets at the limits, and such as would be allowed if they were cut to 32 bits.
pub const NUMBERS: [u64; 22] = [
    0,
    1,
    2,
    3,
    1_000_000_000,
    1 << 31,
    MOST_JUDGED / 2,
    MOST_JUDGED / 2 + 1,
    MOST_JUDGED - 2,
    MOST_JUDGED - 1,
    MOST_JUDGED,
    MOST_JUDGED + 1,
    (1 << 32) - 1,
    1 << 32,
    (1 << 32) + 1,
    (1 << 32) + 7,
    (1 << 33) + 5,
    (1 << 32) + MOST_JUDGED,
    1 << 63,
    (1 << 63) + 3,
    u64::MAX - 1,
    u64::MAX,
];

impl Random {
    /// A log of so many packets, of any shape.
    pub fn log(&mut self, length: usize) -> Vec<u8> {
        let shape = self.one_of(&SHAPES);
        let mut last = self.draw() as u8;
        let mut log = Vec::with_capacity(length);
        for _ in 0..length {
            let step = match shape {
                Shape::InOrder if self.one_in(50) => self.below(30) as u8,
                Shape::Repeats if !self.one_in(4) => 0,
                Shape::Late if self.one_in(3) => (256 - self.below(41)) as u8,
                Shape::InOrder | Shape::Repeats | Shape::Late => 1,
                Shape::Edges => self.one_of(&STEPS),
                Shape::Anything => self.draw() as u8,
            };
            let new = last.wrapping_add(step);
            if !discarded_after(last).contains(&new) {
                last = new;
            }
            log.push(new);
        }
        log
    }

    /// A length of a log: mostly a few packets, often none, one or two.
    pub fn log_length(&mut self) -> usize {
        match self.below(6) {
            0 => 0,
            1 => 1,
            2 => 2,
            3 | 4 => self.between(3, 40),
            _ => self.between(41, 400),
        }
    }

    /// Up to so many logs.
    pub fn logs(&mut self, most: usize) -> Vec<Vec<u8>> {
        let count = self.below(most + 1);
        let mut log = |_| {
            let length = self.log_length();
            self.log(length)
        };
        (0..count).map(&mut log).collect()
    }

    /// A number of packets: at a limit, small, or any.
    pub fn packets(&mut self) -> u64 {
        match self.below(5) {
            0 | 1 => self.one_of(&NUMBERS),
            2 => self.below(12) as u64,
            3 => self.between(0, MOST_JUDGED as usize) as u64,
            _ => self.draw() >> self.below(64),
        }
    }

    /// Discarded and judged of any size.
    pub fn any_fraction(&mut self) -> (u64, u64) {
        let judged = self.packets();
        match self.below(4) {
            0 => (self.packets(), judged),
            1 => (judged.saturating_add(self.below(2) as u64), judged),
            _ => (self.draw() % judged.max(1), judged),
        }
    }

    /// Discarded and judged of a fraction that is accepted, of at most so many packets.
    pub fn fraction_within(&mut self, most: u64) -> (u64, u64) {
        let judged = self.packets() % (most + 1);
        let discarded = match self.below(6) {
            0 => judged,
            1 => 0,
            _ => self.draw() % (judged + 1),
        };
        (discarded, judged)
    }

    /// The list in another order, or in the same by chance.
    pub fn shuffled<T: Clone>(&mut self, list: &[T]) -> Vec<T> {
        let mut other = list.to_vec();
        self.shuffle(&mut other);
        other
    }
}
