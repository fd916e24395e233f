//! A table opened and run, with every refusal that the call tries.
//! The same turns as the library's `running`, on the tree of `tree`.

use crate::formula::*;
use crate::tree::*;

#[repr(C)]
#[derive(Clone, Copy, Debug, PartialEq, Eq)]
pub struct Answer {
    pub number: u64,
    pub low: u64,
    pub high: u64,
    pub count: u64,
    pub verdict: u64,
    pub figure: u64,
}

/// What a run is asked for.
#[derive(Clone, Copy, Default)]
pub struct Limits {
    pub allowance: u64,
    pub budget: u64,
    /// 0, the allowance is a distance; 1, it is a share.
    pub mode: u64,
}

pub const MET: u64 = 1;
pub const DONE: u64 = 2;
pub const FULL: u64 = 3;
pub const SPENT: u64 = 4;

pub fn refused(number: u64) -> Answer {
    Answer {
        number,
        low: 0,
        high: S,
        count: 0,
        verdict: 0,
        figure: 0,
    }
}

/// 9 to 13, or 0.
fn table_number(table: &Table) -> u64 {
    let Table {
        weights,
        present,
        absent,
    } = *table;
    if weights.is_empty() || weights.len() > MOST_FAULTS {
        return 9;
    }
    if weights.iter().any(|&weight| u64::from(weight) > S) {
        return 10;
    }
    if present.len() > MOST_WAYS || present.len() != absent.len() {
        return 11;
    }
    let ways = || present.iter().zip(absent);
    if weights.len() < MOST_FAULTS && ways().any(|(p, a)| (p | a) >> weights.len() != 0) {
        return 12;
    }
    if ways().any(|(p, a)| p & a != 0) {
        return 13;
    }
    0
}

pub fn open(tree: &mut Tree, table: &Table) -> Answer {
    tree.clear();
    let number = table_number(table);
    if number != 0 {
        return refused(number);
    }
    tree.put_root(table);
    Answer {
        number: 0,
        low: tree.nodes[0].low,
        high: tree.nodes[0].high,
        count: 0,
        verdict: 0,
        figure: 0,
    }
}

fn choose(table: &Table, ways: &Clauses) -> Kind {
    let others = other_ways(table, ways);
    if !others.is_none() {
        return Kind::IndependentOr(others);
    }
    let word = common_faults(table, ways);
    if word != 0 {
        return Kind::IndependentAnd(word);
    }
    Kind::Shannon(most_named(table, ways))
}

/// 3, 9 to 15, or 0.
fn run_number(table: &Table, limits: Limits) -> u64 {
    if limits.mode > 1 {
        return 3;
    }
    let number = table_number(table);
    if number != 0 {
        return number;
    }
    if limits.allowance > S {
        return 14;
    }
    if limits.budget > 255 {
        return 15;
    }
    0
}

/// The width of a node's interval; crossed ends have none.
fn width(node: &Node) -> u64 {
    node.high.saturating_sub(node.low)
}

/// The root is as narrow as the allowance asks. No product is above 2 * S * S.
fn is_met(root: &Node, limits: Limits) -> bool {
    if limits.mode == 1 {
        return (S - limits.allowance) * root.high <= (S + limits.allowance) * root.low;
    }
    width(root) <= 2 * limits.allowance
}

/// The figure of a run; by share it has none.
fn figure(root: &Node, limits: Limits) -> u64 {
    if limits.mode == 1 {
        return 0;
    }
    root.low + width(root) / 2
}

/// The run itself, on a good tree where none of 3 and 9 to 15 applies.
fn run_good(tree: &mut Tree, table: &Table, limits: Limits) -> Answer {
    let mut count = 0;
    let verdict = loop {
        if is_met(&tree.nodes[0], limits) {
            break MET;
        }
        let Some(at) = tree.widest() else {
            break DONE;
        };
        if tree.used == MOST_NODES {
            break FULL;
        }
        if count == limits.budget {
            break SPENT;
        }
        let ways = tree.ways(table, at);
        let kind = choose(table, &ways);
        tree.grow(table, at, &ways, kind);
        count += 1;
    };
    let root = &tree.nodes[0];
    Answer {
        number: 0,
        low: root.low,
        high: root.high,
        count,
        verdict,
        figure: figure(root, limits),
    }
}

pub fn run(tree: &mut Tree, table: &Table, limits: Limits) -> Answer {
    let number = run_number(table, limits);
    if number != 0 {
        return refused(number);
    }
    if !tree.is_good(table) {
        return refused(16);
    }
    run_good(tree, table, limits)
}

/// What one run answers on the root leaf of a table, on a tree of its own.
pub fn run_afresh(table: &Table, limits: Limits) -> Answer {
    let number = run_number(table, limits);
    if number != 0 {
        return refused(number);
    }
    let mut tree = Tree::new();
    tree.put_root(table);
    run_good(&mut tree, table, limits)
}
