//! The common part taken out: E1 to E8 with what stands at each place, the sheet that has them as cues, every place of random
//! trees held to the words of the rules, and a count over all assignments beside trees of all three kinds.

use reference::common::{cases, nested, only_out_differs, repeater, sheet, ways_of, PRINTED};
use reference::files::{stored, stored_text};
use reference::leaf::{leaf_interval, Interval, Way};
use reference::paper::{p4, THIRD};
use reference::random::Random;
use reference::report::{encloses_alone, report};
use reference::run::{pick, run};
use reference::scripts::{any_call, mostly_open, Call};
use reference::sheet::encode;
use reference::table::{Count, MOST_COUNTED};
use reference::tree::{common, open, refine_by_hand, split, Entry, State};
use reference::vectors::make;
use reference::{by_distance, Act, Answer, Table, Tree, FULL, S};
use std::collections::{BTreeMap, BTreeSet};

/// What a way names: a fault, and whether it is present.
type Named = BTreeSet<(usize, bool)>;

/// What all ways name in the same sense: what the first names, less what any other does not.
fn in_all(ways: &[Way]) -> Named {
    let mut sets = ways.iter().map(Way::named);
    let first = sets.next().unwrap_or_default();
    sets.fold(first, |part, set| &part & &set)
}

fn faults(part: &Named) -> BTreeSet<usize> {
    part.iter().map(|&(fault, _)| fault).collect()
}

/// The nodes of a tree by place.
fn by_place(table: &Table, tree: &Tree) -> BTreeMap<Vec<u8>, Entry> {
    let entries = tree.places(table).into_iter();
    entries.map(|entry| (entry.place.clone(), entry)).collect()
}

fn below(entries: &BTreeMap<Vec<u8>, Entry>, place: &[u8], step: u8) -> Entry {
    entries[&[place, &[step]].concat()].clone()
}

#[test]
fn the_figures_e1_to_e8() {
    for case in cases() {
        let (name, table, root, calls) = case.figures;
        let count = Count::new(&table.weights);
        let (opened, mut tree) = open(&table);
        assert_eq!((opened.low, opened.high), root, "{name}");
        for (call, [number, low, high, made, verdict, figure]) in calls {
            let due = Answer {
                number,
                low,
                high,
                count: made,
                verdict,
                figure,
            };
            assert_eq!(make(&table, &mut tree, &call), due, "{name}");
            assert!(count.encloses(low, high, &table.ways()), "{name}");
        }
        let entries = tree.places(&table);
        let typed = case.below.iter().map(|&(place, ways, out)| {
            (place.to_vec(), ways_of(ways), out.iter().copied().collect())
        });
        let told = |entry: &Entry| (entry.place.clone(), entry.ways.clone(), entry.out.clone());
        let typed: Vec<_> = typed.collect();
        assert_eq!(
            entries[1..].iter().map(told).collect::<Vec<_>>(),
            typed,
            "{name}"
        );
        assert!(entries[0].out.is_empty(), "{name}");
    }
}

#[test]
fn the_stored_sheet_has_them_as_cues() {
    let bytes = encode(&sheet());
    assert_eq!(stored("samples/common.sheet"), bytes);
    assert_eq!(report(&bytes), PRINTED);
    assert!(stored_text("samples/README.md").contains(PRINTED));
}

/// The sheet has more faults than are counted, so that each cue stands here alone.
#[test]
fn each_line_encloses_the_count_over_the_cues_own_faults() {
    for (case, line) in cases().into_iter().zip(PRINTED.lines().skip(1)) {
        let (name, table, ..) = case.figures;
        assert_eq!(encloses_alone(table, line), Ok(()), "{name}");
    }
}

/// The faults fixed on the path to a place.
fn fixed(entries: &BTreeMap<Vec<u8>, Entry>, place: &[u8]) -> BTreeSet<usize> {
    let above = (0..place.len()).map(|steps| entries[&place[..steps]].state);
    let by_fault = above.filter_map(|state| match state {
        State::Refined(Act::Fault(fault)) => Some(fault as usize),
        _ => None,
    });
    by_fault.collect()
}

/// Every refined place of the tree is what the words of the rules say of its kind, and at every place a way names what it
/// names in the table, without the faults fixed or left out on the path.
fn assert_as_written(table: &Table, tree: &Tree, kinds: &mut BTreeMap<&'static str, u64>) {
    let entries = by_place(table, tree);
    for (place, entry) in &entries {
        let part = in_all(&entry.ways);
        assert_eq!(common(&entry.ways).into_iter().collect::<Named>(), part);
        let dropped = &fixed(&entries, place) | &entry.out;
        for way in &entry.ways {
            let mut told = table.way(way.number).expect("a way").named();
            told.retain(|(fault, _)| !dropped.contains(fault));
            assert_eq!(way.named(), told, "{entry:?} of {table:?}");
        }
        let State::Refined(act) = entry.state else {
            continue;
        };
        let (left, right) = (below(&entries, place, 0), below(&entries, place, 1));
        let Interval { low, high } = entry.interval;
        let own = leaf_interval(&table.weights, &entry.ways);
        assert!(own.low <= low && high <= own.high);
        let named_at = |entry: &Entry| -> Vec<(usize, Named)> {
            let ways = entry.ways.iter();
            ways.map(|way| (way.number, way.named())).collect()
        };
        match act {
            Act::Common => {
                *kinds.entry("common").or_default() += 1;
                assert!(!part.is_empty());
                // The left child is one way, the common part, and is closed.
                assert_eq!(named_at(&left), [(entry.ways[0].number, part.clone())]);
                assert_eq!(left.state, State::Closed);
                let without = named_at(entry).into_iter();
                let without = without.map(|(number, set)| (number, &set - &part));
                assert_eq!(named_at(&right), without.collect::<Vec<_>>());
                // Taken out is what a child's ways named here and name no more.
                let first = faults(&(&entry.ways[0].named() - &part));
                assert_eq!(left.out, &entry.out | &first);
                assert_eq!(right.out, &entry.out | &faults(&part));
                // Nothing is left in common, no way is empty, and none says nothing new.
                assert!(in_all(&right.ways).is_empty());
                assert!(right.ways.iter().all(|way| !way.is_empty()));
                assert_eq!(right.ways, right.before);
                // The product of the ends, the low one rounded down and the high one up, within the node's own interval.
                let (l, r) = (left.interval, right.interval);
                let product = |a: u64, b: u64| u128::from(a) * u128::from(b);
                let combined_low = (product(l.low, r.low) / u128::from(S)) as u64;
                let combined_high = product(l.high, r.high).div_ceil(u128::from(S)) as u64;
                assert_eq!(low, own.low.max(combined_low));
                assert_eq!(high, own.high.min(combined_high));
            }
            Act::Independence => {
                *kinds.entry("independence").or_default() += 1;
                assert!(
                    part.is_empty(),
                    "ways that fall apart have nothing in common"
                );
                assert_eq!((&left.out, &right.out), (&entry.out, &entry.out));
            }
            Act::Fault(_) => {
                *kinds.entry("fault").or_default() += 1;
                assert_eq!((&left.out, &right.out), (&entry.out, &entry.out));
            }
        }
        // Taken out, a fault is named no more below.
        for child in [&left, &right] {
            let names = |fault: &usize| child.ways.iter().any(|way| way.names(*fault));
            assert!(!child.out.iter().any(names), "{child:?} of {table:?}");
        }
    }
}

#[test]
fn every_place_is_as_the_rules_word_it() {
    let mut random = Random::new(41);
    let mut kinds = BTreeMap::new();
    for _ in 0..6_000 {
        let table = mostly_open(&mut random, |random| match random.below(3) {
            0 => random.table_within(10, 12),
            1 => random.redundant_table(9, 12),
            _ => random.common_table(10, 12),
        });
        let mut tree = open(&table).1;
        for _ in 0..6 {
            let call = any_call(&mut random, &table, &tree);
            make(&table, &mut tree, &call);
        }
        assert_as_written(&table, &tree, &mut kinds);
    }
    println!("refinements by kind: {kinds:?}");
    assert!(
        kinds.len() == 3 && kinds.values().all(|&met| met > 2_000),
        "{kinds:?}"
    );
}

/// Whether some way happens in an assignment: bit i says that fault i is present.
fn happens(ways: &[Way], assignment: u64) -> bool {
    let so = |way: &Way| way.present & !assignment == 0 && way.absent & assignment == 0;
    ways.iter().any(so)
}

/// For tables of up to 12 faults, at every place after every call. Where the common part was taken out, a node's ways happen
/// in just those assignments in which both children's do, and the children share no fault.
#[test]
fn every_place_encloses_the_count_over_all_assignments() {
    let mut random = Random::new(42);
    let mut refined = 0;
    for number in 0..400 {
        let table = match number % 20 {
            0 => |random: &mut Random| random.common_table(MOST_COUNTED, 12),
            _ => |random: &mut Random| random.common_table(8, 12),
        };
        let table = mostly_open(&mut random, table);
        let count = Count::new(&table.weights);
        let mut tree = open(&table).1;
        for _ in 0..5 {
            let call = any_call(&mut random, &table, &tree);
            make(&table, &mut tree, &call);
            let entries = by_place(&table, &tree);
            for (place, entry) in &entries {
                let sum = count.exact_sum(&entry.before);
                let Interval { low, high } = entry.interval;
                assert!(
                    count.encloses_sum(low, high, &sum),
                    "{entry:?} of {table:?}"
                );
                assert!(sum == count.exact_sum(&entry.ways));
                if entry.state != State::Refined(Act::Common) {
                    continue;
                }
                refined += 1;
                let [left, right] = [0, 1].map(|step| below(&entries, place, step).ways);
                for assignment in 0..1 << table.faults() {
                    let both = happens(&left, assignment) && happens(&right, assignment);
                    assert_eq!(happens(&entry.ways, assignment), both, "{table:?}");
                }
                assert!(right.iter().all(|way| way.faults() & left[0].faults() == 0));
            }
        }
    }
    assert!(refined > 1_000, "{refined}");
}

/// A run takes the common part wherever there is one and the ways do not fall apart; a fault only where there is none.
#[test]
fn a_run_tries_independence_then_the_common_part_then_a_fault() {
    let mut random = Random::new(43);
    let mut taken = BTreeMap::new();
    for _ in 0..4_000 {
        let table = mostly_open(&mut random, |random| random.common_table(10, 12));
        let mut tree = open(&table).1;
        run(&table, &mut tree, by_distance(0, 12));
        for entry in tree.places(&table) {
            let State::Refined(act) = entry.state else {
                continue;
            };
            let (apart, part) = (split(&entry.ways).is_some(), in_all(&entry.ways));
            let due = match (apart, part.is_empty()) {
                (true, _) => "independence",
                (false, false) => "common",
                (false, true) => "fault",
            };
            let done = match act {
                Act::Independence => "independence",
                Act::Common => "common",
                Act::Fault(_) => "fault",
            };
            assert_eq!(done, due, "{entry:?} of {table:?}");
            assert_eq!(pick(&entry.ways), act);
            *taken.entry(done).or_insert(0) += 1;
        }
    }
    println!("taken by runs: {taken:?}");
    assert!(
        taken.len() == 3 && taken.values().all(|&met| met > 1_000),
        "{taken:?}"
    );
}

/// The most levels, half of them common parts: the right end of `nested` is 64 steps from the root.
#[test]
fn a_leaf_64_steps_down_through_common_parts() {
    let table = nested();
    let (opened, mut tree) = open(&table);
    assert_eq!(opened.number, 0);
    let mut place = Vec::new();
    let mut out = BTreeSet::new();
    while place.len() < 64 {
        let leaf = tree
            .places(&table)
            .into_iter()
            .find(|entry| entry.place == place);
        let leaf = leaf.expect("a leaf to the right");
        assert_eq!((leaf.state, &leaf.out), (State::Open, &out));
        let act = pick(&leaf.ways);
        match act {
            Act::Common => out.extend(faults(&in_all(&leaf.ways))),
            Act::Independence | Act::Fault(_) => {}
        }
        assert_eq!(act == Act::Common, place.len() % 2 == 0 && place.len() < 63);
        assert_eq!(refine_by_hand(&table, &mut tree, &place, act).number, 0);
        place.push(1);
    }
    assert_eq!(out.len(), 32);
    assert_eq!(
        refine_by_hand(&table, &mut tree, &place, Act::Common).number,
        18
    );
}

#[test]
fn the_largest_table_with_a_common_part_takes_all_refinements() {
    let table = repeater();
    assert_eq!((table.faults(), table.present.len()), (64, 128));
    let mut tree = open(&table).1;
    let answer = run(&table, &mut tree, by_distance(0, 255));
    assert_eq!(
        (answer.number, answer.count, answer.verdict),
        (0, 255, FULL)
    );
    let places = tree.places(&table);
    assert_eq!(places[0].state, State::Refined(Act::Common));
    // The exact chance is at most that of the repeater.
    assert!(answer.low < answer.high && answer.high <= u64::from(THIRD / 3));
}

/// 16 looks at the faults left out too: all else that a tree has is the same by both tables.
#[test]
fn a_tree_tells_which_faults_were_taken_out() {
    let but_out = |entry: &Entry| {
        let numbers: Vec<usize> = entry.ways.iter().map(|way| way.number).collect();
        (entry.place.clone(), entry.state, entry.interval, numbers)
    };
    for (own, other) in only_out_differs() {
        let grown = |table: &Table| {
            let mut tree = open(table).1;
            assert_eq!(refine_by_hand(table, &mut tree, &[], Act::Common).number, 0);
            tree
        };
        let (mut tree, again) = (grown(&own), grown(&other));
        let (one, two) = (tree.places(&own), again.places(&other));
        assert!(one.iter().map(but_out).eq(two.iter().map(but_out)));
        assert!(one
            .iter()
            .map(|entry| &entry.out)
            .ne(two.iter().map(|entry| &entry.out)));
        let before = tree.clone();
        assert_eq!(
            run(&other, &mut tree, by_distance(0, 1)),
            Answer::refused(16)
        );
        assert_eq!(tree, before);
        assert_eq!(run(&own, &mut tree, by_distance(0, 1)).number, 0);
    }
}

/// Where nothing is common 20, after 17, 18 and 19; and a tree stays as it was.
#[test]
fn an_empty_common_part_is_refused_20() {
    let mut random = Random::new(44);
    let mut numbers = BTreeMap::new();
    for _ in 0..3_000 {
        let table = mostly_open(&mut random, |random| match random.below(2) {
            0 => random.table_within(8, 10),
            _ => random.common_table(8, 10),
        });
        let mut tree = open(&table).1;
        run(&table, &mut tree, by_distance(0, random.below(4) as u64));
        for entry in tree.places(&table) {
            let due = match entry.state {
                State::Refined(_) => 17,
                State::Closed => 18,
                State::Open if in_all(&entry.ways).is_empty() => 20,
                State::Open => 0,
            };
            let mut tried = tree.clone();
            let answer = refine_by_hand(&table, &mut tried, &entry.place, Act::Common);
            assert_eq!(answer.number, due, "{entry:?} of {table:?}");
            assert_eq!(tried == tree, due != 0);
            *numbers.entry(due).or_insert(0) += 1;
        }
    }
    println!("common parts asked for, by number: {numbers:?}");
    assert!(
        numbers.len() == 4 && numbers.values().all(|&met| met > 300),
        "{numbers:?}"
    );
}

/// The rules' sheet keeps its lines: by the common part and independence, where it was by a fault and independence.
#[test]
fn the_rules_own_sheet_takes_the_common_part() {
    let table = p4();
    let mut tree = open(&table).1;
    make(&table, &mut tree, &Call::Run(by_distance(10_000_000, 40)));
    let states: Vec<State> = tree
        .places(&table)
        .iter()
        .map(|entry| entry.state)
        .collect();
    let inner = [
        State::Refined(Act::Common),
        State::Closed,
        State::Refined(Act::Independence),
    ];
    assert_eq!(states, [&inner[..], &[State::Closed; 2]].concat());
}
