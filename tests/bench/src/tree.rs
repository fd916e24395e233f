//! The tree as 511 records in a fixed array, refined in place: records, the widest open leaf, growing, and refusal 16.
//! The layout is the library's, so that trees can be compared record by record.

use crate::formula::*;

pub const MOST_NODES: usize = 511;
pub const BLANK: u64 = 0;
pub const LEAF: u64 = 1;
pub const INDEPENDENT_OR: u64 = 2;
pub const SHANNON: u64 = 3;
pub const INDEPENDENT_AND: u64 = 4;

#[repr(C)]
#[derive(Clone, Copy, PartialEq, Eq)]
pub struct Node {
    pub kind: u64,
    pub fault: u64,
    pub live: u64,
    pub parent: usize,
    pub left: usize,
    pub ways: [u64; 2],
    pub present: u64,
    pub absent: u64,
    pub out: u64,
    pub low: u64,
    pub high: u64,
    pub own_low: u64,
    pub own_high: u64,
}

#[repr(C)]
#[derive(Clone, PartialEq, Eq)]
pub struct Tree {
    pub nodes: [Node; MOST_NODES],
    pub used: usize,
}

#[derive(Clone, Copy)]
pub enum Kind {
    /// With the ways outside the first group.
    IndependentOr(Clauses),
    /// With the faults of the common part.
    IndependentAnd(u64),
    Shannon(usize),
}

const NO_NODE: Node = Node {
    kind: BLANK,
    fault: 0,
    live: 0,
    parent: 0,
    left: 0,
    ways: [0; 2],
    present: 0,
    absent: 0,
    out: 0,
    low: 0,
    high: 0,
    own_low: 0,
    own_high: 0,
};

/// A constant, so that a tree made of it is cleared where it lies: a tree put together by a function is filled first and copied then.
const NO_NODES: Tree = Tree {
    nodes: [NO_NODE; MOST_NODES],
    used: 0,
};

fn leaf(table: &Table, ways: &Clauses, parent: usize) -> Node {
    let (low, high) = ends(table, ways);
    Node {
        kind: LEAF,
        fault: 0,
        live: u64::from(is_open(ways, low, high)),
        parent,
        left: 0,
        ways: ways.set,
        present: ways.present,
        absent: ways.absent,
        out: ways.out,
        low,
        high,
        own_low: low,
        own_high: high,
    }
}

impl Tree {
    pub const fn new() -> Tree {
        NO_NODES
    }

    pub fn clear(&mut self) {
        self.nodes.fill(NO_NODE);
        self.used = 0;
    }

    /// Makes a tree without nodes the root leaf alone.
    pub fn put_root(&mut self, table: &Table) {
        self.nodes[0] = leaf(table, &table.staying(), 0);
        self.used = 1;
    }

    /// The leftmost of the widest open leaves, by the links: down to the left, up until a right child is next.
    pub fn widest(&self) -> Option<usize> {
        let mut best = None;
        let mut most = 0;
        let mut at = 0;
        let mut down = true;
        loop {
            let node = &self.nodes[at];
            if down {
                if node.left != 0 {
                    at = node.left;
                    continue;
                }
                let width = node.high.saturating_sub(node.low);
                if node.live == 1 && (best.is_none() || width > most) {
                    best = Some(at);
                    most = width;
                }
                down = false;
            } else {
                if at == 0 {
                    return best;
                }
                let left = self.nodes[node.parent].left;
                if left == at {
                    at = left + 1;
                    down = true;
                } else {
                    at = node.parent;
                }
            }
        }
    }

    /// The remaining ways of a record.
    pub fn ways(&self, table: &Table, at: usize) -> Clauses {
        let node = &self.nodes[at];
        let set = Clauses::of_set(node.ways);
        set.restrict(table, node.present, node.absent)
            .without(node.out)
    }

    /// Refines the leaf at a record, whose ways are handed over, and joins the intervals up to the root.
    pub fn grow(&mut self, table: &Table, at: usize, ways: &Clauses, kind: Kind) {
        let left = self.used;
        let children = match kind {
            Kind::IndependentOr(others) => [ways.minus(&others), others],
            Kind::IndependentAnd(word) => [ways.first_within(table, word), ways.without(word)],
            Kind::Shannon(fault) => {
                let bit = 1 << fault;
                let by_fault = ways.by_fault(table, bit);
                [(bit, 0), (0, bit)].map(|(p, a)| by_fault.staying(table, p, a))
            }
        };
        self.nodes[left] = leaf(table, &children[0], at);
        self.nodes[left + 1] = leaf(table, &children[1], at);
        let node = &mut self.nodes[at];
        match kind {
            Kind::IndependentOr(_) => node.kind = INDEPENDENT_OR,
            Kind::IndependentAnd(_) => node.kind = INDEPENDENT_AND,
            Kind::Shannon(fault) => {
                node.kind = SHANNON;
                node.fault = fault as u64;
            }
        }
        node.live = 0;
        node.left = left;
        self.used = left + 2;
        self.raise(table.weights, at);
    }

    fn raise(&mut self, weights: &[u32], from: usize) {
        let mut at = from;
        loop {
            let (low, high) = self.joined(weights, at);
            let node = &mut self.nodes[at];
            node.low = node.own_low.max(low);
            node.high = node.own_high.min(high);
            if at == 0 {
                return;
            }
            at = node.parent;
        }
    }

    /// What the children of a record give together.
    fn joined(&self, weights: &[u32], at: usize) -> (u64, u64) {
        let node = &self.nodes[at];
        let (l, r) = (&self.nodes[node.left], &self.nodes[node.left + 1]);
        if node.kind == INDEPENDENT_OR {
            return (
                S - up((S - l.low) * (S - r.low)),
                S - down((S - l.high) * (S - r.high)),
            );
        }
        if node.kind == INDEPENDENT_AND {
            return (down(l.low * r.low), up(l.high * r.high));
        }
        let w = u64::from(weights[node.fault as usize]);
        (
            down(w * l.low + (S - w) * r.low),
            up(w * l.high + (S - w) * r.high),
        )
    }

    /// Refusal 16: the refinements that the records tell are made again, and the outcome is compared.
    pub fn is_good(&self, table: &Table) -> bool {
        if self.used % 2 == 0 {
            return false;
        }
        let mut fresh = Tree::new();
        fresh.put_root(table);
        for _ in 0..self.used / 2 {
            let next = fresh.used;
            if next >= MOST_NODES {
                return false;
            }
            let at = self.nodes[next].parent;
            if at >= next || fresh.nodes[at].live != 1 {
                return false;
            }
            let ways = fresh.ways(table, at);
            let Some(kind) = possible(&self.nodes[at], table, &ways) else {
                return false;
            };
            fresh.grow(table, at, &ways, kind);
        }
        same_nodes(&self.nodes, &fresh.nodes)
    }
}

/// All records are equal. Every field is compared, with no way out before the last.
fn same_nodes(x: &[Node], y: &[Node]) -> bool {
    let mut unlike = 0;
    for (x, y) in x.iter().zip(y) {
        unlike |= x.kind ^ y.kind;
        unlike |= x.fault ^ y.fault;
        unlike |= x.live ^ y.live;
        unlike |= (x.parent ^ y.parent) as u64;
        unlike |= (x.left ^ y.left) as u64;
        unlike |= x.ways[0] ^ y.ways[0];
        unlike |= x.ways[1] ^ y.ways[1];
        unlike |= x.present ^ y.present;
        unlike |= x.absent ^ y.absent;
        unlike |= x.out ^ y.out;
        unlike |= x.low ^ y.low;
        unlike |= x.high ^ y.high;
        unlike |= x.own_low ^ y.own_low;
        unlike |= x.own_high ^ y.own_high;
    }
    unlike == 0
}

/// What a record says was done, if it can be done with these ways.
fn possible(told: &Node, table: &Table, ways: &Clauses) -> Option<Kind> {
    if told.kind == INDEPENDENT_OR {
        let others = other_ways(table, ways);
        return (!others.is_none()).then_some(Kind::IndependentOr(others));
    }
    if told.kind == INDEPENDENT_AND {
        let word = common_faults(table, ways);
        return (word != 0).then_some(Kind::IndependentAnd(word));
    }
    let fault = told.fault as usize;
    let occurs = fault < MOST_FAULTS && ways.ways(table).any(|way| way.faults() >> fault & 1 == 1);
    occurs.then_some(Kind::Shannon(fault))
}
