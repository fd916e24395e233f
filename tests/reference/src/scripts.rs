//! Scripts for the library's test program: a table and the calls on its tree, written by
//! hand at the edges of the rules, with the answers they must have, and seeded random ones.
//! The figures by name, damaged trees and lists in several orders have modules of their own.

use crate::common;
use crate::damages::damages;
use crate::figures::figures;
use crate::orders::orders_of_refinement;
use crate::paper::{
    cases, chain, easy_to_get_wrong, largest_ring, limits, most_named, orders, p3, p4, p6, p7,
    ring, widest, H, THIRD,
};
use crate::random::Random;
use crate::redundant;
use crate::table::MOST_COUNTED;
use crate::tree::{open, State};
use crate::vectors::make;
use crate::{
    by_distance, by_share, Act, Limits, Table, Tree, DONE, FULL, MET, MOST_FAULTS, MOST_WAYS, NONE,
    S, SPENT,
};

const SEED: u64 = 2003;
const SMALL: usize = 200;
const ANY_SIZE: usize = 100;
const DAMAGED: usize = 100;
const RANDOM: usize = 60;
const RANDOM_ANY_SIZE: usize = 12;

/// A call after the opening: a place and an act, or what a run is asked for.
#[derive(Clone, Debug)]
pub enum Call {
    Hand(Vec<u8>, Act),
    Run(Limits),
}

/// One number of a tree's records, or of those in use, and what is added to it.
#[derive(Clone, Copy, Debug)]
pub struct Damage {
    pub record: u64,
    pub field: u64,
    pub by: u64,
}

/// What a script asks for after its table.
#[derive(Clone, Debug)]
pub enum Line {
    /// A call on the tree at hand.
    Call(Call),
    /// A call on the tree with a damage, which is undone on the tree that it hands back.
    Damaged(Damage, Call),
    /// What stands at every place.
    Show,
    /// A call and what then stands at every place; the tree at hand stays as it was.
    Try(Call),
}

/// A table and lines: on its opened tree, or on the tree of the script before.
pub struct Script {
    pub opens: bool,
    pub table: Table,
    pub lines: Vec<Line>,
}

/// All scripts, in order.
pub fn scripts() -> Vec<Script> {
    let mut random = Random::new(SEED);
    let mut scripts: Vec<Script> = tables(&mut random)
        .into_iter()
        .map(|table| opened(table, vec![]))
        .collect();
    scripts.extend(paper());
    scripts.extend(refused_by_table());
    scripts.extend(paper_runs());
    scripts.extend(refused_by_hand());
    scripts.push(deep());
    scripts.push(full());
    scripts.extend(cut_in_two(&mut random));
    scripts.extend(handed_on());
    scripts.extend((0..RANDOM).map(|_| drawn(&mut random, |random| random.table_within(8, 10))));
    scripts.extend((0..RANDOM_ANY_SIZE).map(|_| drawn(&mut random, Random::table)));
    scripts.extend(largest());
    scripts.extend(figures());
    scripts.extend(damages());
    scripts.extend(orders_of_refinement());
    scripts.extend(redundant::left_out_stored());
    scripts.extend(redundant::drawn());
    scripts.push(common::deep());
    scripts.extend(common::handed_on());
    scripts.extend(common::stored());
    scripts.extend(common::drawn());
    scripts
}

/// The opened table and calls on its tree.
fn opened(table: Table, calls: Vec<Call>) -> Script {
    lined(table, calls.into_iter().map(Line::Call).collect())
}

/// The opened table and lines on its tree.
pub(crate) fn lined(table: Table, lines: Vec<Line>) -> Script {
    Script {
        opens: true,
        table,
        lines,
    }
}

pub(crate) fn hand(place: &[u8], act: Act) -> Call {
    Call::Hand(place.to_vec(), act)
}

/// A script with each call's number and verdict, which the rules must give.
pub(crate) fn told(table: Table, calls: &[(Call, u64, u64)]) -> Script {
    let mut tree = open(&table).1;
    for (call, number, verdict) in calls {
        let answer = make(&table, &mut tree, call);
        let given = (answer.number, answer.verdict);
        assert_eq!(given, (*number, *verdict), "{call:?} of {table:?}");
    }
    let calls = calls.iter().map(|(call, ..)| call.clone()).collect();
    opened(table, calls)
}

// Openings alone

fn tables(random: &mut Random) -> Vec<Table> {
    let mut tables: Vec<Table> = easy_to_get_wrong();
    tables.extend((0..SMALL).map(|_| random.table_within(MOST_COUNTED, 16)));
    tables.extend((0..ANY_SIZE).map(|_| random.table()));
    tables.extend((0..DAMAGED).map(|_| damaged(random)));
    tables
}

/// A damaged table that the test program has room for: one element more than the rules allow.
fn damaged(random: &mut Random) -> Table {
    loop {
        let table = random.damaged_table();
        let ways = table.present.len().max(table.absent.len());
        if table.faults() <= MOST_FAULTS + 1 && ways <= MOST_WAYS + 1 {
            return table;
        }
    }
}

// By hand

/// P1 to P9 with their refinements.
fn paper() -> Vec<Script> {
    let call = |(place, act, _): (Vec<u8>, Act, (u64, u64))| Call::Hand(place, act);
    cases()
        .into_iter()
        .map(|case| opened(case.table, case.hand.into_iter().map(call).collect()))
        .collect()
}

/// Tables at the limits and beyond: a refused table's number comes before any other but 3.
fn refused_by_table() -> Vec<Script> {
    let beyond = by_distance(S + 1, 256);
    let other = Limits { mode: 2, ..beyond };
    let calls = [
        hand(&[2], Act::Fault(64)),
        Call::Run(beyond),
        Call::Run(other),
    ];
    let tables = limits().into_iter().chain(orders());
    tables
        .map(|(number, table)| {
            let numbers = match number {
                0 => [17, 14, 3],
                _ => [number, number, 3],
            };
            let calls = calls.clone().into_iter().zip(numbers);
            let calls: Vec<_> = calls.map(|(call, number)| (call, number, NONE)).collect();
            told(table, &calls)
        })
        .collect()
}

/// Runs at the limits of allowance, budget and mode, each with its number and verdict.
fn paper_runs() -> Vec<Script> {
    let asked = |limits, number, verdict| (Call::Run(limits), number, verdict);
    let run =
        |allowance, budget, number, verdict| asked(by_distance(allowance, budget), number, verdict);
    let share = |share, budget, number, verdict| asked(by_share(share, budget), number, verdict);
    let other = |mode| {
        let limits = Limits {
            mode,
            ..by_distance(S + 1, 256)
        };
        asked(limits, 3, NONE)
    };
    let others = [
        2,
        3,
        255,
        256,
        257,
        65_535,
        65_536,
        65_537,
        1 << 32,
        u64::MAX,
    ]
    .map(other);
    vec![
        told(p3(), &[run(0, 255, 0, DONE), run(1, 255, 0, MET)]),
        told(p4(), &[run(0, 256, 15, NONE), run(0, 255, 0, MET)]),
        told(p4(), &[run(S + 1, 0, 14, NONE), run(S, 0, 0, MET)]),
        told(p4(), &[run(S + 1, 256, 14, NONE), run(0, 0, 0, SPENT)]),
        told(p4(), &[run(0, 1, 0, SPENT), run(0, 1, 0, MET)]),
        told(p6(), &[run(0, 1, 0, MET), run(0, 1, 0, MET)]),
        // Within the limits if they were cut to 32 and 16 bits.
        told(
            p4(),
            &[
                run(5_000_000_000, 65_576, 14, NONE),
                run(0, 65_576, 15, NONE),
            ],
        ),
        told(p4(), &[share(0, 256, 15, NONE), share(0, 255, 0, MET)]),
        told(p4(), &[share(S + 1, 256, 14, NONE), share(S, 0, 0, MET)]),
        told(p4(), &[share(0, 1, 0, SPENT), run(0, 1, 0, MET)]),
        told(p4(), &[run(0, 1, 0, SPENT), share(0, 1, 0, MET)]),
        told(p4(), &others),
    ]
}

/// Refusals 17, 18 and 20, for all three acts, and acts that are just allowed.
fn refused_by_hand() -> Vec<Script> {
    let at = |place: &[u8], act, number| (hand(place, act), number, NONE);
    let by = Act::Fault;
    let (apart, common) = (Act::Independence, Act::Common);
    vec![
        told(
            p4(),
            &[
                at(&[0; 65], by(0), 17),
                at(&[0; 64], by(0), 17),
                at(&[2], by(0), 17),
                at(&[0], by(0), 17),
                at(&[], apart, 20),
                at(&[], by(3), 20),
                at(&[], by(64), 20),
                at(&[], by(u64::from(u32::MAX)), 20),
                at(&[], by(1 << 32), 20),
                at(&[], by(0), 0),
                at(&[], by(1), 17),
                at(&[0, 2], apart, 17),
                at(&[2, 0], apart, 17),
                at(&[1], by(1), 18),
                at(&[1], common, 18),
                at(&[0], by(0), 20),
                at(&[0], common, 20),
                at(&[0], apart, 0),
                at(&[0, 1], by(2), 18),
                at(&[0, 0, 0], by(2), 17),
            ],
        ),
        told(
            p4(),
            &[
                at(&[0; 65], common, 17),
                at(&[2], common, 17),
                at(&[], common, 0),
                at(&[], common, 17),
                at(&[0], common, 18),
                at(&[1], common, 20),
                at(&[1], by(0), 20),
                at(&[1], apart, 0),
                at(&[1, 0], common, 18),
            ],
        ),
        told(p3(), &[at(&[], by(0), 18), at(&[1], by(0), 17)]),
        told(p3(), &[at(&[], common, 18), at(&[1], common, 17)]),
        told(p6(), &[at(&[], common, 20), at(&[], by(0), 0)]),
        told(chain(), &[at(&[], apart, 20), at(&[], by(1), 0)]),
        told(p7(), &[at(&[], by(2), 20), at(&[], by(1), 0)]),
        told(p7(), &[at(&[], common, 20), at(&[], apart, 0)]),
        // Closed because one of two ways is left out, and a fault that only the one left out names: 18 comes first.
        told(Table::of(&[H; 2], &[&[0], &[0, 1]]), &[at(&[], by(1), 18)]),
    ]
}

/// A leaf 64 steps from the root: 64 groups, a fault each, present in one way and absent in another.
pub fn deep() -> Script {
    let each: Vec<[i64; 1]> = (0..64).map(|i| [i]).chain((0..64).map(|i| [!i])).collect();
    let ways: Vec<&[i64]> = each.iter().map(|way| &way[..]).collect();
    let table = Table::of(&[1_000_000; MOST_FAULTS], &ways);
    let mut calls: Vec<(Call, u64, u64)> = (0..63)
        .map(|steps| (hand(&vec![1; steps], Act::Independence), 0, NONE))
        .collect();
    let last = Act::Fault(63);
    calls.push((hand(&[1; 63], Act::Independence), 20, NONE));
    calls.push((hand(&[1; 63], last), 0, NONE));
    calls.push((hand(&[1; 64], last), 18, NONE));
    calls.push((hand(&[1; 65], last), 17, NONE));
    calls.push((hand(&[1; 70], last), 17, NONE));
    calls.push((Call::Run(by_distance(0, 3)), 0, MET));
    told(table, &calls)
}

/// A tree with all 255 refinements: 17 and 18 come before 19, and 20 after it.
pub fn full() -> Script {
    let table = ring();
    let mut tree = open(&table).1;
    make(&table, &mut tree, &Call::Run(by_distance(0, 255)));
    let leaf = |state| {
        let entries = tree.places(&table);
        let entry = entries.into_iter().find(|entry| entry.state == state);
        entry.expect("a leaf of either state").place
    };
    let by_hand = |place, act, number| (Call::Hand(place, act), number, NONE);
    told(
        table.clone(),
        &[
            (Call::Run(by_distance(0, 254)), 0, SPENT),
            (Call::Run(by_distance(0, 255)), 0, FULL),
            by_hand(leaf(State::Open), Act::Fault(64), 19),
            by_hand(leaf(State::Open), Act::Independence, 19),
            by_hand(leaf(State::Open), Act::Common, 19),
            by_hand(leaf(State::Closed), Act::Fault(64), 18),
            by_hand(leaf(State::Closed), Act::Common, 18),
            by_hand(vec![2], Act::Fault(64), 17),
            (Call::Run(by_distance(0, 256)), 15, NONE),
            (Call::Run(by_distance(0, 255)), 0, FULL),
            (Call::Run(by_distance(0, 0)), 0, FULL),
            (Call::Run(by_distance(S, 0)), 0, MET),
        ],
    )
}

/// Runs of a and then b against a run of a + b, all by distance or all by the same share: the same places, verdict and further
/// runs, and the counts add up.
fn cut_in_two(random: &mut Random) -> Vec<Script> {
    let mut tables = vec![widest(), most_named(), p4(), ring()];
    tables.extend((0..6).map(|_| random.table_within(8, 10)));
    tables.extend((0..4).map(|_| mostly_open(random, |random| random.common_table(8, 10))));
    let mut aimed = Vec::new();
    for table in tables {
        let share = random.between(0, S as usize / 10) as u64;
        aimed.push((table.clone(), by_distance(0, 0)));
        aimed.push((table, by_share(share, 0)));
    }
    aimed
        .into_iter()
        .flat_map(|(table, aim)| {
            let (a, b) = (random.between(1, 4) as u64, random.between(1, 8) as u64);
            let (mut cut, mut whole) = (open(&table).1, open(&table).1);
            let run = |budget| Call::Run(Limits { budget, ..aim });
            let calls = [run(a), run(b)];
            let first = make(&table, &mut cut, &calls[0]);
            let second = make(&table, &mut cut, &calls[1]);
            let once = make(&table, &mut whole, &run(a + b));
            assert_eq!(cut, whole);
            assert_eq!((second.low, second.high), (once.low, once.high));
            assert_eq!(first.count + second.count, once.count);
            assert_eq!(second.verdict, once.verdict);
            let and_then = |calls: &[Call]| {
                let further = [by_distance(0, 2), by_share(0, 2)];
                let further = further.map(|limits| Line::Try(Call::Run(limits)));
                let then = [Line::Show].into_iter().chain(further);
                let calls = calls.iter().cloned().map(Line::Call);
                lined(table.clone(), calls.chain(then).collect())
            };
            [and_then(&calls), and_then(&[run(a + b)])]
        })
        .collect()
}

// Trees handed on to another table

/// A script on the tree of the one before, with each call's number, which the rules must give.
pub(crate) fn handed(tree: &mut Tree, table: Table, calls: &[(Call, u64)]) -> Script {
    for (call, number) in calls {
        let answer = make(&table, tree, call);
        assert_eq!(answer.number, *number, "{call:?} of {table:?}");
    }
    let calls = calls.iter().map(|(call, _)| Line::Call(call.clone()));
    Script {
        opens: false,
        table,
        lines: calls.collect(),
    }
}

/// The tree of a refused opening, and a grown tree, with tables that they belong to or not.
fn handed_on() -> Vec<Script> {
    let refused = Table::of(&[H], &[&[1]]);
    let by_hand = hand(&[], Act::Fault(0));
    let run = |allowance, budget| Call::Run(by_distance(allowance, budget));
    let other = Call::Run(Limits {
        mode: 2,
        ..by_distance(S + 1, 256)
    });
    let all = |number| [(by_hand.clone(), number), (run(0, 9), number)];
    let mut tree = open(&refused).1;
    let mut scripts = vec![opened(
        refused.clone(),
        vec![by_hand.clone(), run(S + 1, 256)],
    )];
    scripts.push(handed(&mut tree, refused, &all(12)));
    scripts.push(handed(&mut tree, p4(), &all(16)));
    let limits = [
        (other, 3),
        (run(S + 1, 256), 14),
        (run(S, 256), 15),
        (run(S, 255), 16),
        (Call::Run(by_share(S, 255)), 16),
    ];
    scripts.push(handed(&mut tree, p4(), &limits));
    scripts.push(handed(&mut tree, p3(), &all(16)));

    tree = open(&p4()).1;
    make(&p4(), &mut tree, &by_hand);
    scripts.push(opened(p4(), vec![by_hand.clone()]));
    scripts.push(handed(&mut tree, p6(), &all(16)));
    let mut other = p4();
    other.weights[2] += 1;
    scripts.push(handed(&mut tree, other, &all(16)));
    // A fault that no way names changes nothing that a tree holds.
    let mut more = p4();
    more.weights.push(THIRD);
    let again = [(by_hand.clone(), 17), (hand(&[0], Act::Independence), 0)];
    scripts.push(handed(&mut tree, more, &again));
    scripts.push(handed(&mut tree, p4(), &[(run(0, 9), 0)]));
    scripts
}

// Random scripts, and the largest run

/// A table with 3 to 8 calls, of which each is drawn with the tree then at hand.
fn drawn(random: &mut Random, table: fn(&mut Random) -> Table) -> Script {
    let table = mostly_open(random, table);
    let mut tree = open(&table).1;
    let mut calls = Vec::new();
    for _ in 0..random.between(3, 8) {
        let call = any_call(random, &table, &tree);
        make(&table, &mut tree, &call);
        calls.push(call);
    }
    opened(table, calls)
}

/// A table with 2 to 5 such calls, every place shown at the end.
pub(crate) fn drawn_and_shown(random: &mut Random, table: fn(&mut Random) -> Table) -> Script {
    let table = mostly_open(random, table);
    let mut tree = open(&table).1;
    let mut lines = Vec::new();
    for _ in 0..random.between(2, 5) {
        let call = any_call(random, &table, &tree);
        make(&table, &mut tree, &call);
        lines.push(Line::Call(call));
    }
    lines.push(Line::Show);
    lined(table, lines)
}

/// A table, seven in eight of them with an open root.
pub fn mostly_open(random: &mut Random, table: fn(&mut Random) -> Table) -> Table {
    let any = random.one_in(8);
    loop {
        let table = table(random);
        if any || open(&table).1.places(&table)[0].state == State::Open {
            return table;
        }
    }
}

/// Any call, about half of them such as the rules accept.
pub fn any_call(random: &mut Random, table: &Table, tree: &Tree) -> Call {
    match random.below(6) {
        0 => Call::Run(random.limits()),
        1 => Call::Run(random.narrowest(0, 3)),
        2 => by(random.bad_refinement(table, tree)),
        3 => by(random.hand_refinement(table, tree)),
        _ => match random.sound_refinement(table, tree) {
            Some(sound) => by(sound),
            None => by(random.bad_refinement(table, tree)),
        },
    }
}

fn by((place, act): (Vec<u8>, Act)) -> Call {
    Call::Hand(place, act)
}

fn largest() -> [Script; 2] {
    [largest_ring(), common::repeater()]
        .map(|table| told(table, &[(Call::Run(by_distance(0, 255)), 0, FULL)]))
}
