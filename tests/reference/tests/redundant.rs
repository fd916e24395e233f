//! Ways that say nothing new: A1 to A10, the sheet that has them as cues, and what holds of every table.

use reference::files::{stored, stored_text};
use reference::leaf::{staying, Way};
use reference::random::Random;
use reference::redundant::{cases, sheet, PRINTED};
use reference::report::report;
use reference::run::run;
use reference::sheet::encode;
use reference::table::Count;
use reference::tree::{open, State};
use reference::{by_distance, Table};

fn numbers(ways: &[Way]) -> Vec<usize> {
    ways.iter().map(|way| way.number).collect()
}

/// For each pair of ways: the one that names every fault of the other, in the same sense, is left out; of equal ways the
/// higher numbered.
fn pairwise(ways: &[Way]) -> Vec<Way> {
    let sets: Vec<_> = ways.iter().map(Way::named).collect();
    let left_out = |i: usize| {
        (0..ways.len()).any(|j| match sets[i] == sets[j] {
            true => ways[j].number < ways[i].number,
            false => sets[i].is_superset(&sets[j]),
        })
    };
    let stay = (0..ways.len()).filter(|&i| !left_out(i));
    stay.map(|i| ways[i]).collect()
}

fn drawn(random: &mut Random) -> Table {
    random.redundant_table(7, 12)
}

#[test]
fn the_figures_a1_to_a10() {
    for case in cases() {
        let (name, table, root, _) = case.figures;
        let (opened, tree) = open(&table);
        assert_eq!((opened.low, opened.high), root, "{name}");
        let entry = &tree.places(&table)[0];
        assert_eq!(numbers(&entry.ways), case.staying, "{name}");
        assert_eq!(entry.state == State::Open, root.0 < root.1, "{name}");
        assert!(table.encloses(root.0, root.1, &table.ways()), "{name}");
    }
}

#[test]
fn the_stored_sheet_has_them_as_cues() {
    let bytes = encode(&sheet());
    assert_eq!(stored("samples/redundant.sheet"), bytes);
    assert_eq!(report(&bytes), PRINTED);
    assert!(stored_text("samples/README.md").contains(PRINTED));
}

#[test]
fn what_stays_is_what_no_other_leaves_out() {
    let mut random = Random::new(31);
    let mut left_out = 0;
    for _ in 0..20_000 {
        let ways = drawn(&mut random).ways();
        let stay = staying(&ways);
        assert_eq!(stay, pairwise(&ways));
        assert_eq!(staying(&stay), stay);
        left_out += usize::from(stay.len() < ways.len());
    }
    assert!(left_out > 10_000, "{left_out}");
}

/// At every place of a grown tree nothing is left to leave out, and the same assignments satisfy what stays as did
/// before; at the root, as the table's own ways.
#[test]
fn the_same_assignments_satisfy_what_stays() {
    let mut random = Random::new(32);
    for _ in 0..1_500 {
        let table = drawn(&mut random);
        let count = Count::new(&table.weights);
        let mut tree = open(&table).1;
        run(&table, &mut tree, by_distance(0, 4));
        for entry in tree.places(&table) {
            assert_eq!(pairwise(&entry.ways), entry.ways, "{table:?}");
            let sum = count.exact_sum(&entry.ways);
            assert!(sum == count.exact_sum(&entry.before), "{table:?}");
            if entry.place.is_empty() {
                assert_eq!(entry.before, table.ways());
            }
        }
    }
}
