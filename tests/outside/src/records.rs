//! What the records of a tree say: the places by their links, and the series of refinements by their order; and
//! the records that a series must give. The layout is the header's, every figure the reference's.

use crate::calls::{Node, Tree, RECORDS};
use reference::leaf::{leaf_interval, Interval};
use reference::tree::{open, refine_by_hand, Entry, State};
use reference::{Act, Table};
use std::collections::HashMap;

/// A place and what stands there.
#[derive(Clone, Debug, PartialEq, Eq)]
pub struct Seen {
    pub place: Vec<u8>,
    pub state: State,
    pub interval: Interval,
}

impl From<&Entry> for Seen {
    fn from(entry: &Entry) -> Seen {
        Seen { place: entry.place.clone(), state: entry.state, interval: entry.interval }
    }
}

/// All places by the links, a node before those below it, left before right; none if the links lead astray.
pub fn places(tree: &Tree) -> Option<Vec<Seen>> {
    let mut seen = Vec::new();
    let mut ahead = Vec::new();
    if tree.used > 0 {
        ahead.push((0, Vec::new()));
    }
    while let Some((at, place)) = ahead.pop() {
        let node = tree.nodes.get(at)?;
        let state = state(node)?;
        if seen.len() == RECORDS {
            return None; // the links run in a circle
        }
        if let State::Refined(_) = state {
            ahead.push((node.left + 1, below(&place, 1)));
            ahead.push((node.left, below(&place, 0)));
        }
        let interval = Interval { low: node.low, high: node.high };
        seen.push(Seen { place, state, interval });
    }
    Some(seen)
}

fn state(node: &Node) -> Option<State> {
    match (node.kind, node.live) {
        (1, 0) => Some(State::Closed),
        (1, 1) => Some(State::Open),
        (2, 0) => Some(State::Refined(Act::Independence)),
        (3, 0) => Some(State::Refined(Act::Fault(node.fault))),
        (4, 0) => Some(State::Refined(Act::Common)),
        _ => None,
    }
}

fn below(place: &[u8], step: u8) -> Vec<u8> {
    [place, &[step]].concat()
}

/// A refinement: where, and what was done there.
pub type Refinement = (Vec<u8>, Act);

/// The series that the records tell; none if they tell no series.
pub fn history(tree: &Tree) -> Option<Vec<Refinement>> {
    let children = tree.nodes.get(1..tree.used)?;
    let mut places = vec![Vec::new()];
    let mut series = Vec::new();
    for pair in children.chunks(2) {
        let [left, _] = pair else { return None };
        let place: Vec<u8> = places.get(left.parent)?.clone();
        let Some(State::Refined(act)) = state(&tree.nodes[left.parent]) else {
            return None;
        };
        places.push(below(&place, 0));
        places.push(below(&place, 1));
        series.push((place, act));
    }
    Some(series)
}

/// The records that a series gives whose tree has these entries: the root first, then the two children of each
/// refinement, the rest blank.
pub fn layout(table: &Table, entries: &[Entry], series: &[Refinement]) -> Box<Tree> {
    let mut order = vec![Vec::new()];
    order.extend(series.iter().flat_map(|(place, _)| [below(place, 0), below(place, 1)]));
    let record: HashMap<&[u8], usize> = order.iter().enumerate().map(|(i, place)| (&place[..], i)).collect();
    let mut tree = Box::<Tree>::default();
    tree.used = order.len();
    for entry in entries {
        let link = |place: &[u8]| record.get(place).copied().unwrap_or(0);
        let above = &entry.place[..entry.place.len().saturating_sub(1)];
        let left = match entry.state {
            State::Refined(_) => link(&below(&entry.place, 0)),
            State::Open | State::Closed => 0,
        };
        let (parent, at) = (link(above), link(&entry.place));
        let (present, absent) = fixed(&tree, parent, &entry.place);
        tree.nodes[at] = Node { parent, left, present, absent, ..figures(table, entry) };
    }
    tree
}

/// The faults fixed at a place, from those of its parent's record and the last step.
fn fixed(tree: &Tree, parent: usize, place: &[u8]) -> (u64, u64) {
    let node = &tree.nodes[parent];
    let bit = if node.kind == 3 { 1 << node.fault } else { 0 };
    match place.last() {
        None => (0, 0),
        Some(0) => (node.present | bit, node.absent),
        Some(_) => (node.present, node.absent | bit),
    }
}

/// A record without its links and fixed faults.
fn figures(table: &Table, entry: &Entry) -> Node {
    let (kind, fault, live) = match entry.state {
        State::Closed => (1, 0, 0),
        State::Open => (1, 0, 1),
        State::Refined(Act::Independence) => (2, 0, 0),
        State::Refined(Act::Fault(fault)) => (3, fault, 0),
        State::Refined(Act::Common) => (4, 0, 0),
    };
    let own = leaf_interval(&table.weights, &entry.ways);
    let numbers = entry.ways.iter().fold(0u128, |set, way| set | 1 << way.number);
    Node {
        kind,
        fault,
        live,
        waysa: numbers as u64,
        waysb: (numbers >> 64) as u64,
        out: entry.out.iter().fold(0, |word, fault| word | 1 << fault),
        low: entry.interval.low,
        high: entry.interval.high,
        ownlow: own.low,
        ownhigh: own.high,
        ..Node::default()
    }
}

/// The reference's tree with the series that these records tell, if they are just what it gives by this table:
/// otherwise 16 applies.
pub fn grown_by(table: &Table, tree: &Tree, series: &[Refinement]) -> Option<reference::Tree> {
    let (_, mut grown) = open(table);
    let accepted = |(place, act): &Refinement| refine_by_hand(table, &mut grown, place, *act).number == 0;
    let all = series.iter().all(accepted);
    (all && *layout(table, &grown.places(table), series) == *tree).then_some(grown)
}
