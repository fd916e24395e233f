//! A table of ways, the refusals that concern it, and the exact sum behind its chance,
//! found by counting over all assignments with whole numbers of any size.

use crate::leaf::Way;
use crate::natural::Natural;
use crate::{MOST_FAULTS, MOST_WAYS, S};
use std::collections::HashSet;

/// Up to so many faults an interval is set beside a count over all assignments.
pub const MOST_COUNTED: usize = 12;

/// Bit i of a present word says that fault i is present, of an absent word that it is absent.
#[derive(Clone, Debug, Default, PartialEq, Eq)]
pub struct Table {
    pub weights: Vec<u32>,
    pub present: Vec<u64>,
    pub absent: Vec<u64>,
}

impl Table {
    /// A table written by hand: in a way, f names fault f present and !f names it absent.
    /// Only faults 0 to 63 have a bit; others leave no mark.
    pub fn of(weights: &[u32], ways: &[&[i64]]) -> Table {
        let word = |way: &[i64], absent: bool| {
            let named = way.iter().filter(|&&literal| (literal < 0) == absent);
            let faults = named.map(|&literal| if absent { !literal } else { literal });
            faults.fold(0, |word, fault| {
                word | u32::try_from(fault).map_or(0, |f| 1u64.checked_shl(f).unwrap_or(0))
            })
        };
        Table {
            weights: weights.to_vec(),
            present: ways.iter().map(|way| word(way, false)).collect(),
            absent: ways.iter().map(|way| word(way, true)).collect(),
        }
    }

    pub fn faults(&self) -> usize {
        self.weights.len()
    }

    /// The way of a number; none if the table has no such way.
    pub fn way(&self, number: usize) -> Option<Way> {
        let present = *self.present.get(number)?;
        let absent = *self.absent.get(number)?;
        Some(Way {
            number,
            present,
            absent,
        })
    }

    /// All ways in number order.
    pub fn ways(&self) -> Vec<Way> {
        (0..self.present.len())
            .filter_map(|number| self.way(number))
            .collect()
    }

    /// The first of refusals 9 to 13 that applies, or 0.
    pub fn table_number(&self) -> u64 {
        if self.weights.is_empty() || self.weights.len() > MOST_FAULTS {
            return 9;
        }
        if any_weight_above_s(&self.weights) {
            return 10;
        }
        if self.present.len() > MOST_WAYS || self.present.len() != self.absent.len() {
            return 11;
        }
        words_number(self.weights.len(), &self.present, &self.absent)
    }

    /// Whether [low, high] encloses the chance of these ways. For up to about 16 faults;
    /// to ask often of one table, keep its `Count`.
    pub fn encloses(&self, low: u64, high: u64, ways: &[Way]) -> bool {
        Count::new(&self.weights).encloses(low, high, ways)
    }
}

/// Refusal 10 over all weights.
pub fn any_weight_above_s(weights: &[u32]) -> bool {
    weights.iter().any(|&weight| u64::from(weight) > S)
}

/// Refusals 12 and 13, each over all rows; a word that the shorter list lacks is 0.
pub fn words_number(faults: usize, present: &[u64], absent: &[u64]) -> u64 {
    let rows = present.len().max(absent.len());
    let word = |words: &[u64], row: usize| words.get(row).copied().unwrap_or(0);
    // Fault by fault, so that no shift by 64 is ever asked for.
    let names = |word: u64, fault: usize| word >> fault & 1 == 1;
    let beyond = |word: u64| (faults..64).any(|fault| names(word, fault));
    if (0..rows).any(|row| beyond(word(present, row)) || beyond(word(absent, row))) {
        return 12;
    }
    let both =
        |row: usize| (0..64).any(|f| names(word(present, row), f) && names(word(absent, row), f));
    if (0..rows).any(both) {
        return 13;
    }
    0
}

/// The products of weights of all 2^n assignments, kept so that many sums can be counted.
/// Bit i of an assignment says that fault i is present.
pub struct Count {
    faults: usize,
    products: Vec<Natural>,
}

impl Count {
    /// For weights of at most S.
    pub fn new(weights: &[u32]) -> Count {
        let mut products = vec![Natural::new(1)];
        for &weight in weights {
            let absent = S as u32 - weight;
            // The assignments so far with this fault absent, then again with it present.
            let mut longer: Vec<Natural> = products
                .iter()
                .map(|product| product.times(absent))
                .collect();
            longer.extend(products.iter().map(|product| product.times(weight)));
            products = longer;
        }
        Count {
            faults: weights.len(),
            products,
        }
    }

    /// The rules' E: the sum over all assignments that satisfy at least one way.
    pub fn exact_sum(&self, ways: &[Way]) -> Natural {
        // Equal ways satisfy the same assignments; asking each once saves time.
        let different: HashSet<(u64, u64)> =
            ways.iter().map(|way| (way.present, way.absent)).collect();
        let mut sum = Natural::zero();
        for (assignment, product) in self.products.iter().enumerate() {
            let present = assignment as u64;
            let satisfies = |way: &(u64, u64)| way.0 & !present == 0 && way.1 & present == 0;
            if different.iter().any(satisfies) {
                sum.add(product);
            }
        }
        sum
    }

    /// low × S^n ≤ S × E ≤ high × S^n.
    pub fn encloses(&self, low: u64, high: u64, ways: &[Way]) -> bool {
        self.encloses_sum(low, high, &self.exact_sum(ways))
    }

    /// The same for a sum counted before.
    pub fn encloses_sum(&self, low: u64, high: u64, sum: &Natural) -> bool {
        let exact = sum.times_s_to(1);
        let at_least = Natural::new(low).times_s_to(self.faults) <= exact;
        let at_most = exact <= Natural::new(high).times_s_to(self.faults);
        at_least && at_most
    }

    /// Whether X / D billionths are within the share of the chance that has this sum: with e for the share,
    /// (S − e) × E × D ≤ X × S^n ≤ (S + e) × E × D. Nothing is rounded.
    pub fn within_share(&self, (number, parts): (u64, u32), share: u64, sum: &Natural) -> bool {
        let exact = sum.times(parts);
        let number = Natural::new(number).times_s_to(self.faults);
        let at_least = exact.times((S - share) as u32) <= number;
        let at_most = number <= exact.times((S + share) as u32);
        at_least && at_most
    }
}
