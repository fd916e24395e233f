//! The kept ways: F1 to F4, each beside the wrong reading that it turns away, the sheet that has them as cues, and at every
//! place of random trees the one set of ways that the rules' words leave.

use reference::files::{stored, stored_text};
use reference::kept::{cases, first_apart, sheet, Misread, PRINTED};
use reference::leaf::{kept, leaf_low, Way};
use reference::random::Random;
use reference::report::{encloses_alone, report};
use reference::run::run;
use reference::scripts::mostly_open;
use reference::sheet::encode;
use reference::table::Count;
use reference::tree::{open, State};
use reference::vectors::make;
use reference::{by_distance, Answer, S};

/// What a wrong reading keeps.
fn misread(ways: &[Way], reading: Misread) -> Vec<Way> {
    let mut taken = 0;
    let mut kept = Vec::new();
    for way in ways {
        let tested = match reading {
            Misread::AbsentNotTested => way.present,
            _ => way.faults(),
        };
        let stays = tested & taken == 0;
        taken |= match reading {
            Misread::AbsentNotTaken if stays => way.present,
            _ if stays || reading == Misread::NotKeptTaken => way.faults(),
            _ => 0,
        };
        kept.extend(stays.then_some(*way));
    }
    kept
}

/// The low end of a leaf from these ways, whether or not they share a fault.
fn low_of(weights: &[u32], kept: &[Way]) -> u64 {
    let lows = kept.iter().map(|way| leaf_low(weights, &[*way]));
    let s = u128::from(S);
    lows.fold(0, |a, c| {
        let neither = (s - u128::from(a)) * (s - u128::from(c));
        (s - neither.div_ceil(s)) as u64
    })
}

#[test]
fn the_figures_f1_to_f4() {
    for case in cases() {
        let (name, table, root, calls) = case.figures;
        let count = Count::new(&table.weights);
        let (opened, mut tree) = open(&table);
        assert_eq!((opened.low, opened.high), root, "{name}");
        assert_eq!(tree.places(&table)[0].state, State::Open, "{name}");
        assert!(count.encloses(root.0, root.1, &table.ways()), "{name}");
        for (call, [number, low, high, made, verdict, figure]) in calls {
            let due = Answer {
                number,
                low,
                high,
                count: made,
                verdict,
                figure,
            };
            assert_eq!(make(&table, &mut tree, &call), due, "{name}");
            // The two ends are one, so that the chance is just this.
            assert_eq!(low, high, "{name}");
            assert!(count.encloses(low, high, &table.ways()), "{name}");
        }
    }
}

#[test]
fn a_wrong_reading_has_another_low_end() {
    for case in cases() {
        let (name, table, (low, _), _) = case.figures;
        let (reading, wrong) = case.misread;
        let ways = table.ways();
        assert_eq!(low_of(&table.weights, &kept(&ways)), low, "{name}");
        let told = low_of(&table.weights, &misread(&ways, reading));
        assert_eq!(told, wrong, "{name}");
        assert_ne!(wrong, low, "{name}");
    }
}

#[test]
fn the_stored_sheet_has_them_as_cues() {
    let bytes = encode(&sheet());
    assert_eq!(stored("samples/kept.sheet"), bytes);
    assert_eq!(report(&bytes), PRINTED);
    assert!(stored_text("samples/README.md").contains(PRINTED));
}

/// The sheet has more faults than are counted, so that each cue stands here alone.
#[test]
fn each_line_encloses_the_count_over_the_cues_own_faults() {
    for (case, line) in cases().into_iter().zip(PRINTED.lines().skip(1)) {
        let (name, table, ..) = case.figures;
        assert_eq!(encloses_alone(table, line), Ok(()), "{name}");
    }
}

/// Each wrong reading keeps other ways at many places.
#[test]
fn kept_is_the_first_of_all_sets_of_ways_apart() {
    let mut random = Random::new(51);
    let readings = [
        Misread::NotKeptTaken,
        Misread::AbsentNotTested,
        Misread::AbsentNotTaken,
    ];
    let mut told_apart = [0; 3];
    for _ in 0..10_000 {
        let table = mostly_open(&mut random, |random| random.opposed_table(9, 10));
        let mut tree = open(&table).1;
        run(&table, &mut tree, by_distance(0, 3));
        for entry in tree.places(&table) {
            let due = first_apart(&entry.ways);
            assert_eq!(kept(&entry.ways), due, "{entry:?} of {table:?}");
            let low = low_of(&table.weights, &due);
            assert_eq!(leaf_low(&table.weights, &entry.ways), low, "{table:?}");
            for (told, reading) in told_apart.iter_mut().zip(readings) {
                *told += u64::from(misread(&entry.ways, reading) != due);
            }
        }
    }
    println!("places at which a wrong reading keeps other ways: {told_apart:?}");
    assert!(
        told_apart.iter().all(|&told| told > 1_000),
        "{told_apart:?}"
    );
}
