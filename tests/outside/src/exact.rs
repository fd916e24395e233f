//! Intervals set beside a separate count over all assignments, for tables of up to 12 faults.
//! Sums and findings are kept, since a tree's places mostly stay what they were from call to call.

use reference::leaf::{Interval, Way};
use reference::natural::Natural;
use reference::shares::is_near;
use reference::table::{Count, MOST_COUNTED};
use reference::{Answer, Limits, Table};
use std::collections::{HashMap, HashSet};

type Words = Vec<(u64, u64)>;

pub struct Exact {
    count: Count,
    sums: HashMap<Words, Natural>,
    found: HashSet<(Words, u64, u64)>,
    near: HashSet<(Words, [u64; 5])>,
}

impl Exact {
    /// None for a table that is refused or too large to be counted.
    pub fn of(table: &Table) -> Option<Exact> {
        let counted = table.table_number() == 0 && table.faults() <= MOST_COUNTED;
        let count = counted.then(|| Count::new(&table.weights))?;
        Some(Exact { count, sums: HashMap::new(), found: HashSet::new(), near: HashSet::new() })
    }

    /// Whether the interval encloses the chance of the ways; none if that was asked before.
    pub fn encloses(&mut self, interval: Interval, ways: &[Way]) -> Option<bool> {
        let words = words(ways);
        let Interval { low, high } = interval;
        if !self.found.insert((words.clone(), low, high)) {
            return None;
        }
        let sum = self.sums.entry(words).or_insert_with(|| self.count.exact_sum(ways));
        Some(self.count.encloses_sum(low, high, sum))
    }

    /// Whether what met says of an answer is so of the ways; none if that was asked before.
    pub fn is_near(&mut self, answer: &Answer, limits: Limits, ways: &[Way]) -> Option<bool> {
        let words = words(ways);
        let Answer { low, high, figure, .. } = *answer;
        if !self.near.insert((words.clone(), [limits.allowance, limits.mode, low, high, figure])) {
            return None;
        }
        let sum = self.sums.entry(words).or_insert_with(|| self.count.exact_sum(ways));
        Some(is_near(&self.count, sum, answer, limits))
    }
}

fn words(ways: &[Way]) -> Words {
    ways.iter().map(|way| (way.present, way.absent)).collect()
}
