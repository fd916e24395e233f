//! A counted run: it refines the widest open leaf again and again until it is met, done,
//! full or spent, and reports how many refinements it made and one figure for the page.

use crate::leaf::{product, Interval, Way};
use crate::tree::{common, split, Act, State};
use crate::{Answer, Limits, Table, Tree, DONE, FULL, MET, MOST_REFINEMENTS, S, SHARE, SPENT};

/// A run: refusal 3, then 9 to 16, then the refinements.
pub fn run(table: &Table, tree: &mut Tree, limits: Limits) -> Answer {
    let number = run_number(table, tree, limits);
    if number != 0 {
        return Answer::refused(number);
    }
    let before = tree.refinements();
    loop {
        let made = tree.refinements() - before;
        // Of a tree with nodes the first is the root.
        let entries = tree.places(table);
        let root = entries[0].interval;
        // Listed left to right, and only a wider leaf takes the place of one found before.
        let mut widest = None;
        let mut width = 0;
        for entry in entries.iter().filter(|entry| entry.state == State::Open) {
            if entry.interval.high - entry.interval.low > width {
                width = entry.interval.high - entry.interval.low;
                widest = Some(entry);
            }
        }
        if near_enough(root, limits) {
            return ended(tree.answer(table, made), MET, limits);
        }
        let Some(leaf) = widest else {
            return ended(tree.answer(table, made), DONE, limits);
        };
        if tree.refinements() >= MOST_REFINEMENTS {
            return ended(tree.answer(table, made), FULL, limits);
        }
        if made >= limits.budget {
            return ended(tree.answer(table, made), SPENT, limits);
        }
        let grew = tree.grow(table, &leaf.place, pick(&leaf.ways));
        assert!(
            grew,
            "a run's own pick is always a refinement that the rules allow"
        );
    }
}

/// Some number is near enough to both ends, and so to every chance between them.
pub fn near_enough(root: Interval, limits: Limits) -> bool {
    match limits.mode {
        SHARE => within_share_of_both(root, limits.allowance),
        _ => within_distance_of_both(root, limits.allowance),
    }
}

/// The lowest figure that reaches up to the high end is no higher than the highest that reaches down to the low end.
fn within_distance_of_both(root: Interval, allowance: u64) -> bool {
    let lowest = root.high.saturating_sub(allowance);
    let highest = root.low + allowance;
    lowest <= highest
}

/// The lowest number within the share of the high end, (S − e) × high / S, is within the share of the low end too: if any number
/// is within the share of both, this one is, as it is no higher than that one. In billionths of billionths nothing is rounded.
fn within_share_of_both(root: Interval, share: u64) -> bool {
    let lowest = product(root.high, S) - product(root.high, share);
    let within = |chance: u64| lowest.abs_diff(product(chance, S)) <= product(chance, share);
    within(root.low) && within(root.high)
}

/// An accepted run: its verdict, and for a figure the mean of the two ends, rounded down; by share it has none, which is 0.
fn ended(answer: Answer, verdict: u64, limits: Limits) -> Answer {
    let figure = match limits.mode {
        SHARE => 0,
        _ => (answer.low + answer.high) / 2,
    };
    Answer {
        verdict,
        figure,
        ..answer
    }
}

fn run_number(table: &Table, tree: &Tree, limits: Limits) -> u64 {
    if limits.mode > SHARE {
        return 3;
    }
    match table.table_number() {
        0 if limits.allowance > S => 14,
        0 if limits.budget > MOST_REFINEMENTS => 15,
        0 if !tree.belongs_to(table) => 16,
        number => number,
    }
}

/// What a run does at a leaf: independence if the ways fall apart, else the common part taken out if there is one, else
/// the fault named in most ways, the lowest if equal.
pub fn pick(ways: &[Way]) -> Act {
    if split(ways).is_some() {
        return Act::Independence;
    }
    if !common(ways).is_empty() {
        return Act::Common;
    }
    let mut most = (0, 0);
    for fault in 0..64 {
        let named = ways.iter().filter(|way| way.names(fault)).count();
        if named > most.1 {
            most = (fault, named);
        }
    }
    Act::Fault(most.0 as u64)
}

pub fn verdict_word(verdict: u64) -> &'static str {
    match verdict {
        MET => "met",
        DONE => "done",
        FULL => "full",
        SPENT => "spent",
        _ => "none",
    }
}
