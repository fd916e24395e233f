//! The kept ways: tables F1 to F4 with figures typed by hand, each with the low end that a wrong reading gives, and the sheet
//! that has them as its cues; and which ways are kept, found without going through them in turn.

use crate::figures::Figures;
use crate::leaf::Way;
use crate::paper::{skipped, H, Q};
use crate::scripts::Call;
use crate::sheet::{of_tables, Sheet};
use crate::{by_distance, Table, MET, S};
use std::collections::BTreeSet;

/// What the program prints for `sheet`.
pub const PRINTED: &str = "cue low high steps verdict
1 500000000 500000000 2 met
2 500000000 500000000 1 met
3 500000000 500000000 1 met
4 750000000 750000000 3 met
";

/// Wrong readings of which ways are kept.
#[derive(Clone, Copy, Debug, PartialEq, Eq)]
pub enum Misread {
    /// The faults of a way that is not kept are taken too.
    NotKeptTaken,
    /// A fault that a way names absent is not tested.
    AbsentNotTested,
    /// A fault that a kept way names absent is not taken.
    AbsentNotTaken,
}

/// The figures of a table, and the low end of its root by a wrong reading.
pub struct Case {
    pub figures: Figures,
    pub misread: (Misread, u64),
}

/// F1 to F4.
pub fn cases() -> Vec<Case> {
    let (half, quarter) = (u64::from(H), u64::from(Q));
    let run = Call::Run(by_distance(0, 255));
    let end = |figure, count| vec![(run.clone(), [0, figure, figure, count, MET, figure])];
    let case = |name, table, root, calls, misread| Case {
        figures: (name, table, root, calls),
        misread,
    };
    vec![
        case(
            "F1: a way that is not kept bars no other",
            Table::of(&[H; 4], &[&[0, 1], &[1, 2], &[2, 3]]),
            (437_500_000, 750_000_000),
            end(half, 2),
            (Misread::NotKeptTaken, quarter),
        ),
        case(
            "F2: a fault named absent is tested",
            Table::of(&[H; 3], &[&[0, 1], &[!1, 2]]),
            (quarter, half),
            end(half, 1),
            (Misread::AbsentNotTested, 437_500_000),
        ),
        case(
            "F3: a fault named absent is taken",
            Table::of(&[H; 3], &[&[0, !1], &[1, 2]]),
            (quarter, half),
            end(half, 1),
            (Misread::AbsentNotTaken, 437_500_000),
        ),
        case(
            "F4: nor one that names a kept way's fault absent",
            skipped(),
            (625_000_000, S),
            end(750_000_000, 3),
            (Misread::NotKeptTaken, half),
        ),
    ]
}

/// The tables as the cues 1 to 4 of one sheet, each with faults of its own.
pub fn sheet() -> Sheet {
    of_tables(cases().into_iter().map(|case| case.figures.1), 255)
}

/// The kept ways as one choice among all sets of ways: of the sets in which no two ways name the same fault, in whichever
/// senses, the one that beside any other has the first way in which the two differ. For up to about 16 ways.
pub fn first_apart(ways: &[Way]) -> Vec<Way> {
    let faults = |way: &Way| way.named().into_iter().map(|(fault, _)| fault).collect();
    let faults: Vec<BTreeSet<usize>> = ways.iter().map(faults).collect();
    // The first way is the highest bit: of two sets the greater number has the first way in which they differ.
    let last = ways.len().saturating_sub(1);
    let chosen = |set: u32| (0..ways.len()).filter(move |way| set >> (last - way) & 1 == 1);
    let apart = |&set: &u32| {
        let pairs = chosen(set).flat_map(|a| chosen(set).map(move |b| (a, b)));
        pairs
            .filter(|(a, b)| a < b)
            .all(|(a, b)| faults[a].is_disjoint(&faults[b]))
    };
    let first = (0..1 << ways.len()).rev().find(apart);
    chosen(first.expect("no ways are apart"))
        .map(|way| ways[way])
        .collect()
}
