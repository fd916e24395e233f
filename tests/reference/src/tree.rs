//! The decomposition tree: a recursive tree on the heap, opened as a single leaf and refined by hand. A node holds
//! what was done there and nothing else: ways and intervals are worked out from the table's ways, from the root down,
//! whenever they are asked for.

use crate::leaf::{down, is_open, leaf_interval, product, staying, up, Interval, Way};
use crate::{Answer, Table, LONGEST_PLACE, MOST_REFINEMENTS, S};
use std::collections::BTreeSet;

/// What is done at a leaf to refine it.
#[derive(Clone, Copy, Debug, PartialEq, Eq)]
pub enum Act {
    Independence,
    Common,
    Fault(u64),
}

/// What stands at a place.
#[derive(Clone, Copy, Debug, PartialEq, Eq)]
pub enum State {
    Closed,
    Open,
    Refined(Act),
}

/// A place as the steps from the root, 0 left and 1 right, with what was done there, its interval, its remaining ways,
/// those that remained before any was left out, and the faults left out of the ways on the path.
#[derive(Clone, Debug, PartialEq, Eq)]
pub struct Entry {
    pub place: Vec<u8>,
    pub state: State,
    pub interval: Interval,
    pub ways: Vec<Way>,
    pub before: Vec<Way>,
    pub out: BTreeSet<usize>,
}

/// What a node has: the ways it is handed, with what they still name, those of them that stay, which are its remaining
/// ways, and the faults left out on the path.
#[derive(Clone, Debug)]
struct Situation {
    before: Vec<Way>,
    ways: Vec<Way>,
    out: BTreeSet<usize>,
}

#[derive(Clone, Debug, PartialEq, Eq)]
enum Node {
    Leaf,
    Inner {
        act: Act,
        left: Box<Node>,
        right: Box<Node>,
    },
}

/// A tree with the table it was last grown by; without nodes after a refused opening.
#[derive(Clone, Debug, Default, PartialEq, Eq)]
pub struct Tree {
    table: Table,
    root: Option<Node>,
}

/// Opening a table: the root leaf alone, or a tree without nodes if refused.
pub fn open(table: &Table) -> (Answer, Tree) {
    let number = table.table_number();
    if number != 0 {
        return (Answer::refused(number), Tree::default());
    }
    let tree = Tree::root_leaf(table);
    (tree.answer(table, 0), tree)
}

/// Refining by hand: refusals 9 to 13 and 16 to 20, then that one refinement.
pub fn refine_by_hand(table: &Table, tree: &mut Tree, place: &[u8], act: Act) -> Answer {
    let number = match table.table_number() {
        0 if !tree.belongs_to(table) => 16,
        number => number,
    };
    if number != 0 {
        return Answer::refused(number);
    }
    match tree.grown(table, place, act) {
        Err(number) => Answer::refused(number),
        Ok(grown) => {
            *tree = grown;
            tree.answer(table, 1)
        }
    }
}

impl Tree {
    fn root_leaf(table: &Table) -> Tree {
        Tree {
            table: table.clone(),
            root: Some(Node::Leaf),
        }
    }

    /// This tree with one refinement more, or the first of refusals 17 to 20 that applies.
    fn grown(&self, table: &Table, place: &[u8], act: Act) -> Result<Tree, u64> {
        let mut root = self.root.clone();
        let found = root.as_mut().and_then(|root| root.at(place));
        let leaf = match found {
            Some(leaf @ Node::Leaf) if place.len() <= LONGEST_PLACE => leaf,
            _ => return Err(17),
        };
        let situation = self.situation(table, place);
        if !is_open(&table.weights, &situation.ways) {
            return Err(18);
        }
        if self.refinements() >= MOST_REFINEMENTS {
            return Err(19);
        }
        if situation.children(act).is_none() {
            return Err(20);
        }
        *leaf = Node::Inner {
            act,
            left: Box::new(Node::Leaf),
            right: Box::new(Node::Leaf),
        };
        Ok(Tree {
            table: table.clone(),
            root,
        })
    }

    /// What the node at a place of this tree has.
    fn situation(&self, table: &Table, place: &[u8]) -> Situation {
        let mut here = Situation::root(table);
        let mut node = self.root.as_ref();
        for &step in place {
            let Some(Node::Inner { act, left, right }) = node else {
                break;
            };
            let (on_left, on_right) = here.below(*act);
            (here, node) = match step {
                0 => (on_left, Some(&**left)),
                _ => (on_right, Some(&**right)),
            };
        }
        here
    }

    /// Grows by a refinement that a run has picked; false if the rules forbid it.
    pub(crate) fn grow(&mut self, table: &Table, place: &[u8], act: Act) -> bool {
        match self.grown(table, place, act) {
            Ok(grown) => {
                *self = grown;
                true
            }
            Err(_) => false,
        }
    }

    /// Whether refusal 16 does not apply: some accepted refinements from this table's root
    /// leaf give the same places, acts, sets, faults left out and intervals, each node's own as a leaf too.
    /// With the table the tree was grown by there is nothing to ask; with another, its
    /// refinements are made again.
    pub fn belongs_to(&self, table: &Table) -> bool {
        if self.root.is_none() {
            return false;
        }
        if self.table == *table {
            return true;
        }
        let own = self.places(&self.table);
        let mut again = Tree::root_leaf(table);
        let repeated = own.iter().all(|entry| match entry.state {
            State::Refined(act) => again.grow(table, &entry.place, act),
            State::Open | State::Closed => true,
        });
        let same = |(a, b): (&Entry, &Entry)| {
            let own = leaf_interval(&self.table.weights, &a.ways);
            let other = leaf_interval(&table.weights, &b.ways);
            (&a.place, a.state, a.interval, &a.out) == (&b.place, b.state, b.interval, &b.out)
                && own == other
                && numbers(&a.ways) == numbers(&b.ways)
        };
        let again = again.places(table);
        repeated && own.len() == again.len() && own.iter().zip(&again).all(same)
    }

    /// The number of inner nodes.
    pub fn refinements(&self) -> u64 {
        self.root.as_ref().map_or(0, Node::inner_nodes)
    }

    /// The interval at the root; [0, S], which says nothing, for a tree without nodes.
    pub fn interval(&self, table: &Table) -> Interval {
        let nothing = Interval { low: 0, high: S };
        self.root.as_ref().map_or(nothing, |root| {
            root.interval(table, &Situation::root(table))
        })
    }

    /// All places by a table that 9 to 13 accept: a node before those below it, left before right.
    pub fn places(&self, table: &Table) -> Vec<Entry> {
        let mut entries = Vec::new();
        if let Some(root) = &self.root {
            root.list(table, Situation::root(table), Vec::new(), &mut entries);
        }
        entries
    }

    pub(crate) fn answer(&self, table: &Table, count: u64) -> Answer {
        Answer::accepted(self.interval(table), count)
    }
}

impl Node {
    fn at(&mut self, place: &[u8]) -> Option<&mut Node> {
        match (place.split_first(), self) {
            (None, node) => Some(node),
            (Some((0, below)), Node::Inner { left, .. }) => left.at(below),
            (Some((1, below)), Node::Inner { right, .. }) => right.at(below),
            (Some(_), _) => None,
        }
    }

    fn inner_nodes(&self) -> u64 {
        match self {
            Node::Leaf => 0,
            Node::Inner { left, right, .. } => 1 + left.inner_nodes() + right.inner_nodes(),
        }
    }

    fn interval(&self, table: &Table, here: &Situation) -> Interval {
        let own = leaf_interval(&table.weights, &here.ways);
        match self {
            Node::Leaf => own,
            Node::Inner { act, left, right } => {
                let (on_left, on_right) = here.below(*act);
                let left = left.interval(table, &on_left);
                let right = right.interval(table, &on_right);
                overlap(own, combine(table, *act, left, right))
            }
        }
    }

    /// Adds this node's entry and all below it; gives its interval to the node above.
    fn list(
        &self,
        table: &Table,
        here: Situation,
        place: Vec<u8>,
        entries: &mut Vec<Entry>,
    ) -> Interval {
        let own = leaf_interval(&table.weights, &here.ways);
        let child = |step: u8| [&place[..], &[step]].concat();
        let mut below = Vec::new();
        let (state, interval) = match self {
            Node::Leaf if is_open(&table.weights, &here.ways) => (State::Open, own),
            Node::Leaf => (State::Closed, own),
            Node::Inner { act, left, right } => {
                let (on_left, on_right) = here.below(*act);
                let left = left.list(table, on_left, child(0), &mut below);
                let right = right.list(table, on_right, child(1), &mut below);
                let combined = combine(table, *act, left, right);
                (State::Refined(*act), overlap(own, combined))
            }
        };
        let Situation { before, ways, out } = here;
        entries.push(Entry {
            place,
            state,
            interval,
            ways,
            before,
            out,
        });
        entries.append(&mut below);
        interval
    }
}

impl Situation {
    fn new(before: Vec<Way>, out: BTreeSet<usize>) -> Situation {
        let ways = staying(&before);
        Situation { before, ways, out }
    }

    fn root(table: &Table) -> Situation {
        Situation::new(table.ways(), BTreeSet::new())
    }

    /// The children of a node that was refined so. Panics where that is impossible: a tree is asked about by a table
    /// that it belongs to.
    fn below(&self, act: Act) -> (Situation, Situation) {
        let children = self.children(act);
        children.expect("what was done at a node is possible there")
    }

    /// The two children that an act gives, or none if it cannot be done here. They take over only what stays: a way
    /// that is left out here does not come back.
    fn children(&self, act: Act) -> Option<(Situation, Situation)> {
        match act {
            Act::Independence => {
                let (left, right) = groups(&self.ways)?;
                Some((self.child(left), self.child(right)))
            }
            Act::Common => {
                let common = common(&self.ways);
                let lowest = self.ways.first().filter(|_| !common.is_empty())?;
                let left = Way::naming(lowest.number, &common);
                // Every way names all of it in this sense, so that none is contradicted.
                let right = fixed(&self.ways, &common);
                let taken: BTreeSet<usize> = common.iter().map(|&(fault, _)| fault).collect();
                let besides = (0..64).filter(|&fault| lowest.names(fault) && !left.names(fault));
                let besides: BTreeSet<usize> = besides.collect();
                Some((
                    Situation::new(vec![left], &self.out | &besides),
                    Situation::new(right, &self.out | &taken),
                ))
            }
            Act::Fault(fault) => {
                let fault = usize::try_from(fault).ok()?;
                if !self.ways.iter().any(|way| way.names(fault)) {
                    return None;
                }
                let side = |present| self.child(fixed(&self.ways, &[(fault, present)]));
                Some((side(true), side(false)))
            }
        }
    }

    /// A child from which nothing is taken out.
    fn child(&self, before: Vec<Way>) -> Situation {
        Situation::new(before, self.out.clone())
    }
}

/// The common part: every fault, and in which sense, that all of the ways name in that sense.
pub fn common(ways: &[Way]) -> Vec<(usize, bool)> {
    let each = (0..64).flat_map(|fault| [(fault, true), (fault, false)]);
    let by_all =
        |&(fault, present): &(usize, bool)| ways.iter().all(|way| way.says(fault, present));
    each.filter(|named| !ways.is_empty() && by_all(named))
        .collect()
}

/// What remains of ways once these faults are fixed, each present or absent.
fn fixed(ways: &[Way], faults: &[(usize, bool)]) -> Vec<Way> {
    let remaining = ways
        .iter()
        .filter_map(|&way| faults.iter().try_fold(way, without));
    remaining.collect()
}

/// A way once a fault is fixed: gone if contradicted, else without that fault.
fn without(way: Way, fixed: &(usize, bool)) -> Option<Way> {
    let (fault, present) = *fixed;
    let bit = 1u64 << fault;
    let contradicted = if present {
        way.absent & bit
    } else {
        way.present & bit
    };
    (contradicted == 0).then_some(Way {
        number: way.number,
        present: way.present & !bit,
        absent: way.absent & !bit,
    })
}

/// The numbers of the ways grouped with the first, and of all others; none if the ways hang together.
pub fn split(ways: &[Way]) -> Option<(Vec<usize>, Vec<usize>)> {
    let (left, right) = groups(ways)?;
    Some((numbers(&left), numbers(&right)))
}

/// The ways grouped with the first, and all others; none if the ways hang together. Faults named by one way are united,
/// so ways are in one group just when their faults have one head. An empty way shares no fault and is a group of its own.
fn groups(ways: &[Way]) -> Option<(Vec<Way>, Vec<Way>)> {
    let mut above: Vec<usize> = (0..64).collect();
    fn head(above: &[usize], fault: usize) -> usize {
        if above[fault] == fault {
            fault
        } else {
            head(above, above[fault])
        }
    }
    for way in ways {
        let named: Vec<usize> = (0..64).filter(|&fault| way.names(fault)).collect();
        for pair in named.windows(2) {
            let (a, b) = (head(&above, pair[0]), head(&above, pair[1]));
            above[a.max(b)] = a.min(b);
        }
    }
    let group = |way: &Way| {
        let lowest = (0..64).find(|&fault| way.names(fault));
        lowest.map(|fault| head(&above, fault))
    };
    let first = ways.first()?;
    let of_first = group(first);
    let with_first =
        |way: &Way| way.number == first.number || (of_first.is_some() && group(way) == of_first);
    let (left, right): (Vec<Way>, Vec<Way>) = ways.iter().partition(|way| with_first(way));
    (!right.is_empty()).then_some((left, right))
}

fn numbers(ways: &[Way]) -> Vec<usize> {
    ways.iter().map(|way| way.number).collect()
}

/// An inner node's interval from those of its children.
fn combine(table: &Table, act: Act, left: Interval, right: Interval) -> Interval {
    match act {
        Act::Independence => Interval {
            low: S - up(product(S - left.low, S - right.low)),
            high: S - down(product(S - left.high, S - right.high)),
        },
        Act::Common => Interval {
            low: down(product(left.low, right.low)),
            high: up(product(left.high, right.high)),
        },
        Act::Fault(fault) => {
            let weight = table
                .weights
                .get(fault as usize)
                .copied()
                .map_or(0, u64::from);
            // One division for the whole node: rounding each product would widen it.
            let mixed = |l, r| product(weight, l) + product(S - weight, r);
            Interval {
                low: down(mixed(left.low, right.low)),
                high: up(mixed(left.high, right.high)),
            }
        }
    }
}

fn overlap(a: Interval, b: Interval) -> Interval {
    Interval {
        low: a.low.max(b.low),
        high: a.high.min(b.high),
    }
}

/// For the page that draws the tree: of records (marked open leaf, low, high) the first
/// position of the widest that counts. Any records may be lent.
pub fn first_widest(records: &[(bool, u64, u64)]) -> Option<usize> {
    let counts = |&(open, low, high): &(bool, u64, u64)| open && low < high;
    let widths = records
        .iter()
        .filter(|record| counts(record))
        .map(|&(_, low, high)| high - low);
    let widest = widths.max()?;
    records
        .iter()
        .position(|record| counts(record) && record.2 - record.1 == widest)
}
