//! A leaf's remaining ways and what follows from them alone: which of them stay, the chances of each,
//! the ways kept for the low end, the leaf's interval, and whether it is open.
//! All of it for weights that 9 and 10 accept.

use crate::S;
use std::collections::BTreeSet;

/// A way with its number in the table and the faults it still names.
#[derive(Clone, Copy, Debug, PartialEq, Eq)]
pub struct Way {
    pub number: usize,
    pub present: u64,
    pub absent: u64,
}

impl Way {
    /// The named faults, in either sense.
    pub fn faults(&self) -> u64 {
        self.present | self.absent
    }

    pub fn names(&self, fault: usize) -> bool {
        fault < 64 && self.faults() >> fault & 1 == 1
    }

    /// Whether it names this fault in this sense, present or absent.
    pub fn says(&self, fault: usize, present: bool) -> bool {
        let word = if present { self.present } else { self.absent };
        fault < 64 && word >> fault & 1 == 1
    }

    /// What it names: each fault, and whether it is present.
    pub fn named(&self) -> BTreeSet<(usize, bool)> {
        let each = (0..64).flat_map(|fault| [(fault, true), (fault, false)]);
        each.filter(|&(fault, present)| self.says(fault, present))
            .collect()
    }

    /// The way that names these faults, each present or absent, and no other.
    pub fn naming(number: usize, faults: &[(usize, bool)]) -> Way {
        let word = |sense: bool| {
            let named = faults.iter().filter(|&&(_, present)| present == sense);
            named.fold(0, |word, &(fault, _)| word | 1u64 << fault)
        };
        Way {
            number,
            present: word(true),
            absent: word(false),
        }
    }

    pub fn is_empty(&self) -> bool {
        self.faults() == 0
    }

    /// What it says as one set: element f is fault f present, element 64 + f is fault f absent.
    fn literals(&self) -> u128 {
        u128::from(self.absent) << 64 | u128::from(self.present)
    }
}

/// What stays of ways in number order: a way that names all that another names, each in the same sense, goes; of equal
/// ways the lowest numbered is kept (RULES 3.3, 3.4). Those that name fewest come first, so that a way is left out just
/// if one that stays is inside it.
pub fn staying(ways: &[Way]) -> Vec<Way> {
    let mut shortest_first = ways.to_vec();
    shortest_first.sort_by_key(|way| (way.literals().count_ones(), way.number));
    let mut stay: Vec<Way> = Vec::new();
    for way in shortest_first {
        let inside = |shorter: &Way| shorter.literals() & way.literals() == shorter.literals();
        if !stay.iter().any(inside) {
            stay.push(way);
        }
    }
    stay.sort_by_key(|way| way.number);
    stay
}

#[derive(Clone, Copy, Debug, PartialEq, Eq)]
pub struct Interval {
    pub low: u64,
    pub high: u64,
}

/// A value in billionths of billionths brought back to billionths, rounding down.
pub fn down(value: u128) -> u64 {
    (value / u128::from(S)) as u64
}

/// The same, rounding up.
pub fn up(value: u128) -> u64 {
    value.div_ceil(u128::from(S)) as u64
}

pub fn product(a: u64, b: u64) -> u128 {
    u128::from(a) * u128::from(b)
}

/// One pass, lowest fault first, both senses mixed: with rounding at each fault the order matters.
fn chance(weights: &[u32], way: &Way, round: fn(u128) -> u64) -> u64 {
    let mut chance = S;
    for (fault, &weight) in weights.iter().enumerate() {
        let weight = u64::from(weight);
        if way.present >> fault & 1 == 1 {
            chance = round(product(chance, weight));
        } else if way.absent >> fault & 1 == 1 {
            chance = round(product(chance, S - weight));
        }
    }
    chance
}

pub fn low_chance(weights: &[u32], way: &Way) -> u64 {
    chance(weights, way, down)
}

pub fn high_chance(weights: &[u32], way: &Way) -> u64 {
    chance(weights, way, up)
}

/// The ways kept for the low end: each way beside every way kept before it, with which it must share no fault.
pub fn kept(ways: &[Way]) -> Vec<Way> {
    let mut kept: Vec<Way> = Vec::new();
    for way in ways {
        let shares = |other: &Way| way.faults() & other.faults() != 0;
        if !kept.iter().any(shares) {
            kept.push(*way);
        }
    }
    kept
}

pub fn leaf_low(weights: &[u32], ways: &[Way]) -> u64 {
    let chances = kept(ways).into_iter().map(|way| low_chance(weights, &way));
    chances.fold(0, |a, c| S - up(product(S - a, S - c)))
}

pub fn leaf_high(weights: &[u32], ways: &[Way]) -> u64 {
    let sum: u64 = ways.iter().map(|way| high_chance(weights, way)).sum();
    sum.min(S)
}

pub fn leaf_interval(weights: &[u32], ways: &[Way]) -> Interval {
    Interval {
        low: leaf_low(weights, ways),
        high: leaf_high(weights, ways),
    }
}

/// Open (RULES 3.13): at least two ways stay, none is empty, and low is below high.
pub fn is_open(weights: &[u32], ways: &[Way]) -> bool {
    ways.len() >= 2
        && !ways.iter().any(Way::is_empty)
        && leaf_low(weights, ways) < leaf_high(weights, ways)
}
