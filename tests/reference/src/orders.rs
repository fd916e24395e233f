//! Lists of calls that end with the same places refined, in several orders, refused calls among them: they must
//! share what stands at every place, the count, and the outcome of every further run.

use crate::paper::{most_named, own_interval, p4, ring, widest};
use crate::random::Random;
use crate::scripts::{any_call, lined, Call, Line, Script};
use crate::shares::least_share;
use crate::tree::{open, Entry, State};
use crate::vectors::make;
use crate::{by_distance, by_share, Act, Limits, Table, Tree, S};
use std::collections::HashSet;
use std::mem::discriminant;

const SEED: u64 = 2023;
const SMALL: usize = 8;

/// For each table a first list of calls and two others to the same places: by hand alone, and with runs.
pub fn orders_of_refinement() -> Vec<Script> {
    let mut random = Random::new(SEED);
    let run = |budget| vec![Call::Run(by_distance(0, budget))];
    let mut lists = vec![
        (p4(), run(2)),
        (own_interval(), run(3)),
        (most_named(), run(6)),
        (widest(), run(7)),
    ];
    lists.extend((0..SMALL).map(|_| drawn(&mut random, |random| random.table_within(9, 12), 1)));
    lists.extend((0..SMALL).map(|_| drawn(&mut random, |random| random.common_table(9, 12), 3)));
    let mut scripts: Vec<Script> = lists
        .into_iter()
        .flat_map(|(table, calls)| several_orders(&mut random, table, calls))
        .collect();
    scripts.extend(full_in_two_orders(&mut random));
    scripts
}

/// A table and calls that leave some refinements, of so many kinds at least, and an open leaf.
fn drawn(random: &mut Random, table: fn(&mut Random) -> Table, kinds: usize) -> (Table, Vec<Call>) {
    loop {
        let table = table(random);
        let mut tree = open(&table).1;
        let mut calls = Vec::new();
        for _ in 0..random.between(4, 9) {
            let call = match any_call(random, &table, &tree) {
                Call::Run(limits) => Call::Run(Limits {
                    budget: limits.budget % 5,
                    ..limits
                }),
                hand => hand,
            };
            make(&table, &mut tree, &call);
            calls.push(call);
        }
        let open = |entry: &Entry| entry.state == State::Open;
        if tree.refinements() >= 3
            && kinds_of(&table, &tree) >= kinds
            && tree.places(&table).iter().any(open)
        {
            return (table, calls);
        }
    }
}

/// How many kinds of refinements a tree has.
pub fn kinds_of(table: &Table, tree: &Tree) -> usize {
    let acts = refined(table, tree).into_iter().map(|(_, act)| act);
    let kinds: HashSet<_> = acts.map(|act| discriminant(&act)).collect();
    kinds.len()
}

/// The first list, one by hand alone and one with runs, each with all places and with further runs, refused ones included.
fn several_orders(random: &mut Random, table: Table, first: Vec<Call>) -> Vec<Script> {
    let mut tree = open(&table).1;
    let reported = made(&table, &mut tree, &first);
    let by_hand = toward(random, &table, &tree, false);
    let with_runs = toward(random, &table, &tree, true);
    let further = further_runs(&table, &tree);
    let other = Limits {
        mode: 2,
        ..by_distance(0, 1)
    };
    let refused = [by_distance(S + 1, 1), by_distance(0, 256), other].map(Call::Run);
    [first, by_hand, with_runs]
        .into_iter()
        .map(|calls| {
            let mut other = open(&table).1;
            assert_eq!(made(&table, &mut other, &calls), reported);
            assert_eq!(other.places(&table), tree.places(&table));
            let calls = calls.into_iter().chain(refused.clone());
            let mut lines: Vec<Line> = calls.map(Line::Call).collect();
            lines.push(Line::Show);
            lines.extend(further.iter().cloned().map(Line::Try));
            lined(table.clone(), lines)
        })
        .collect()
}

/// Makes the calls; gives the sum of their reports, which is the number of inner nodes.
fn made(table: &Table, tree: &mut Tree, calls: &[Call]) -> u64 {
    let reports = calls.iter().map(|call| make(table, tree, call).count);
    let sum = reports.sum();
    assert_eq!(tree.refinements(), sum);
    sum
}

/// Runs of several allowances and budgets, in both modes.
fn further_runs(table: &Table, tree: &Tree) -> Vec<Call> {
    let root = tree.interval(table);
    let width = root.high - root.low;
    let share = least_share(root);
    let limits = [
        by_distance(0, 0),
        by_distance(0, 1),
        by_distance(width / 2, 4),
        by_distance(width, 255),
        by_distance(0, 9),
        by_share(0, 1),
        by_share(share, 4),
        by_share(share / 2, 9),
    ];
    limits.map(Call::Run).to_vec()
}

/// Calls in an order of their own that lead from the opening to the same places refined: hand
/// refinements, refused calls, and runs where one takes only what is wanted.
pub fn toward(random: &mut Random, table: &Table, target: &Tree, runs: bool) -> Vec<Call> {
    let wanted = refined(table, target);
    let mut tree = open(table).1;
    let mut calls = Vec::new();
    while tree.refinements() < target.refinements() {
        let call = if random.one_in(4) {
            any_call(random, table, &tree)
        } else if runs && random.one_in(2) {
            Call::Run(random.narrowest(1, 3))
        } else {
            missing(random, table, &tree, &wanted)
        };
        if !runs && matches!(call, Call::Run(..)) {
            continue;
        }
        let mut next = tree.clone();
        let refused = make(table, &mut next, &call).number != 0;
        let within = refined(table, &next)
            .iter()
            .all(|refinement| wanted.contains(refinement));
        if refused || within {
            tree = next;
            calls.push(call);
        }
    }
    calls
}

/// The inner nodes of a tree: their places and what was done there.
fn refined(table: &Table, tree: &Tree) -> Vec<(Vec<u8>, Act)> {
    let entries = tree.places(table).into_iter();
    let inner = entries.filter_map(|entry| match entry.state {
        State::Refined(act) => Some((entry.place, act)),
        State::Open | State::Closed => None,
    });
    inner.collect()
}

/// One of the wanted refinements whose place is a leaf now.
fn missing(random: &mut Random, table: &Table, tree: &Tree, wanted: &[(Vec<u8>, Act)]) -> Call {
    let entries = tree.places(table);
    let is_leaf = |place: &Vec<u8>| {
        let leaves = |entry: &&Entry| !matches!(entry.state, State::Refined(_));
        entries
            .iter()
            .filter(leaves)
            .any(|entry| entry.place == *place)
    };
    let now: Vec<&(Vec<u8>, Act)> = wanted.iter().filter(|(place, _)| is_leaf(place)).collect();
    let (place, act) = now[random.below(now.len())];
    Call::Hand(place.clone(), *act)
}

/// All 255 refinements by one run, and by hand in another order.
fn full_in_two_orders(random: &mut Random) -> Vec<Script> {
    let table = ring();
    let mut tree = open(&table).1;
    let once = vec![Call::Run(by_distance(0, 255))];
    assert_eq!(made(&table, &mut tree, &once), 255);
    let wanted = refined(&table, &tree);
    let mut other = open(&table).1;
    let by_hand: Vec<Call> = (0..255)
        .map(|_| {
            let call = missing(random, &table, &other, &wanted);
            make(&table, &mut other, &call);
            call
        })
        .collect();
    assert_eq!(other.places(&table), tree.places(&table));
    [once, by_hand]
        .into_iter()
        .map(|calls| {
            let mut lines: Vec<Line> = calls.into_iter().map(Line::Call).collect();
            lines.push(Line::Show);
            lines.push(Line::Call(Call::Run(by_distance(0, 255))));
            lined(table.clone(), lines)
        })
        .collect()
}
