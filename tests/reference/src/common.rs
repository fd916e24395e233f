//! The common part taken out: tables E1 to E8 with figures typed by hand, each of which some wrong reading gets wrong, what
//! stands at each place then, and the sheet that has them as its cues; a path of 64 steps with many common parts; trees that
//! only the faults left out give away; and trees of tables with common parts, drawn at random.

use crate::figures::Figures;
use crate::leaf::Way;
use crate::paper::{p4, H, Q, THIRD};
use crate::random::Random;
use crate::scripts::{drawn_and_shown, hand, handed, lined, told, Call, Damage, Line, Script};
use crate::sheet::{of_tables, Sheet};
use crate::tree::open;
use crate::vectors::make;
use crate::{by_distance, Act, Table, DONE, MET, MOST_FAULTS, NONE, S};

const SEED: u64 = 2005;
const RANDOM: usize = 60;
const FIFTH: u32 = 200_000_000;

/// What the program prints for `sheet`.
pub const PRINTED: &str = "cue low high steps verdict
1 187500000 187500000 2 met
2 125000000 125000000 2 met
3 500000000 500000000 2 met
4 500000000 500000000 2 met
5 1000000000 1000000000 1 met
6 533333332 533333334 2 done
7 300000000 300000000 2 met
8 250000000 250000000 3 met
";

/// A place below the root: its remaining ways, each by number with what it names (f present, !f absent), and the faults
/// left out on the path.
pub type Below = (
    &'static [u8],
    &'static [(usize, &'static [i64])],
    &'static [usize],
);

/// The figures of a table, and what stands below the root after the calls.
pub struct Case {
    pub figures: Figures,
    pub below: &'static [Below],
}

/// E1 to E8.
pub fn cases() -> Vec<Case> {
    let (half, quarter) = (u64::from(H), u64::from(Q));
    let run = Call::Run(by_distance(0, 255));
    let end = |figure, count| vec![(run.clone(), [0, figure, figure, count, MET, figure])];
    let by_hand = |place: &[u8], act, answer| (hand(place, act), answer);
    let root = |low, high| by_hand(&[], Act::Common, [0, low, high, 1, NONE, 0]);
    let refused = |place: &[u8], act, number| by_hand(place, act, [number, 0, S, 0, NONE, 0]);
    let nearly = [0, 533_333_332, 533_333_334, 2, DONE, 533_333_333];
    let then = [0, quarter, 312_500_000, 1, NONE, 0];
    let case = |name, table, root, calls, below| Case {
        figures: (name, table, root, calls),
        below,
    };
    vec![
        case(
            "E1: the part has all common faults",
            Table::of(&[H; 4], &[&[0, 1, 2], &[0, 1, 3]]),
            (125_000_000, quarter),
            vec![root(187_500_000, quarter)],
            &[
                (&[0], &[(0, &[0, 1])], &[2]),
                (&[1], &[(0, &[2]), (1, &[3])], &[0, 1]),
            ],
        ),
        case(
            "E2: not one fault at a time",
            Table::of(&[FIFTH, Q, H], &[&[0, 1, 2], &[!0, 1, 2]]),
            (25_000_000, 125_000_000),
            end(125_000_000, 2),
            &[
                (&[0], &[(0, &[1, 2])], &[0]),
                (&[1], &[(0, &[0]), (1, &[!0])], &[1, 2]),
                (&[1, 0], &[(0, &[])], &[1, 2]),
                (&[1, 1], &[(1, &[])], &[1, 2]),
            ],
        ),
        case(
            "E3: before a fault, and no more than the part on the left",
            Table::of(&[H; 2], &[&[0, 1], &[!0, 1]]),
            (quarter, half),
            end(half, 2),
            &[
                (&[0], &[(0, &[1])], &[0]),
                (&[1], &[(0, &[0]), (1, &[!0])], &[1]),
                (&[1, 0], &[(0, &[])], &[1]),
                (&[1, 1], &[(1, &[])], &[1]),
            ],
        ),
        case(
            "E4: an absent fault is common too",
            Table::of(&[FIFTH, H], &[&[!0, !1], &[0, !1]]),
            (400_000_000, half),
            end(half, 2),
            &[
                (&[0], &[(0, &[!1])], &[0]),
                (&[1], &[(0, &[!0]), (1, &[0])], &[1]),
                (&[1, 0], &[(1, &[])], &[1]),
                (&[1, 1], &[(0, &[])], &[1]),
            ],
        ),
        case(
            "E5: in different senses a fault is not common",
            Table::of(&[FIFTH; 2], &[&[!1], &[1]]),
            (800_000_000, S),
            end(S, 1),
            &[(&[0], &[(1, &[])], &[]), (&[1], &[(0, &[])], &[])],
        ),
        case(
            "E6: the high end is rounded up",
            Table::of(&[THIRD, FIFTH, H], &[&[!1, 2], &[0, !1]]),
            (400_000_000, 666_666_667),
            vec![(run.clone(), nearly)],
            &[
                (&[0], &[(0, &[!1])], &[2]),
                (&[1], &[(0, &[2]), (1, &[0])], &[1]),
                (&[1, 0], &[(0, &[2])], &[1]),
                (&[1, 1], &[(1, &[0])], &[1]),
            ],
        ),
        case(
            "E7: what is closed then, and what does not occur",
            p4(),
            (quarter, 350_000_000),
            vec![
                root(300_000_000, 350_000_000),
                refused(&[0], Act::Fault(0), 18),
                refused(&[1], Act::Fault(0), 20),
                refused(&[1], Act::Common, 20),
            ],
            &[
                (&[0], &[(0, &[0])], &[1]),
                (&[1], &[(0, &[1]), (1, &[2])], &[0]),
            ],
        ),
        case(
            "E8: what is taken out does not come back",
            Table::of(&[H; 5], &[&[4, 0, 1], &[4, 1, 2], &[4, 2, 3]]),
            (125_000_000, 375_000_000),
            vec![
                root(218_750_000, 375_000_000),
                by_hand(&[1], Act::Fault(1), then),
            ],
            &[
                (&[0], &[(0, &[4])], &[0, 1]),
                (&[1], &[(0, &[0, 1]), (1, &[1, 2]), (2, &[2, 3])], &[4]),
                (&[1, 0], &[(0, &[0]), (1, &[2])], &[4]),
                (&[1, 1], &[(2, &[2, 3])], &[4]),
            ],
        ),
    ]
}

/// The typed ways of a place.
pub fn ways_of(ways: &[(usize, &[i64])]) -> Vec<Way> {
    let named = |&literal: &i64| match literal {
        0.. => (literal as usize, true),
        _ => (!literal as usize, false),
    };
    let way = |&(number, literals): &(usize, &[i64])| {
        let faults: Vec<(usize, bool)> = literals.iter().map(named).collect();
        Way::naming(number, &faults)
    };
    ways.iter().map(way).collect()
}

/// The tables as the cues 1 to 8 of one sheet, each with faults of its own.
pub fn sheet() -> Sheet {
    of_tables(cases().into_iter().map(|case| case.figures.1), 255)
}

/// The largest table with a common part, which takes all 255 refinements: 63 faults in a ring, each paired with the next
/// two, two of them with the third too, and fault 63 in every way.
pub fn repeater() -> Table {
    let next = (0..63).flat_map(|a| [[a, (a + 1) % 63, 63], [a, (a + 2) % 63, 63]]);
    let ways: Vec<[i64; 3]> = next.chain([[0, 3, 63], [1, 4, 63]]).collect();
    let ways: Vec<&[i64]> = ways.iter().map(|way| &way[..]).collect();
    Table::of(&[THIRD / 3; MOST_FAULTS], &ways)
}

/// A leaf 64 steps from the root, always to the right. Way k, up to 30, names the faults 0 to k and 31 + k; ways 31 and 32
/// name 0 to 30, 63, and 62 in different senses. So the common part is fault 0, then way 0 stands apart, then it is fault 1,
/// and so on; at last it is fault 63, and fault 62 is left.
pub fn nested() -> Table {
    let first = (0..31).map(|k| (0..=k).chain([31 + k]).collect());
    let last = [62, !62].map(|sense| (0..31).chain([63, sense]).collect());
    let ways: Vec<Vec<i64>> = first.chain(last).collect();
    let ways: Vec<&[i64]> = ways.iter().map(|way| &way[..]).collect();
    Table::of(&[900_000_000; MOST_FAULTS], &ways)
}

/// Down to it by hand, and beyond.
pub fn deep() -> Script {
    let right = |steps: usize| vec![1; steps];
    let mut calls = Vec::new();
    let mut at = |steps, act, number| calls.push((Call::Hand(right(steps), act), number, NONE));
    for pair in 0..31 {
        at(2 * pair, Act::Independence, 20);
        at(2 * pair, Act::Common, 0);
        at(2 * pair + 1, Act::Fault(pair as u64), 20);
        at(2 * pair + 1, Act::Common, 20);
        at(2 * pair + 1, Act::Independence, 0);
    }
    at(62, Act::Common, 0);
    at(63, Act::Common, 20);
    at(63, Act::Fault(63), 20);
    at(63, Act::Fault(62), 0);
    at(64, Act::Common, 18);
    at(65, Act::Common, 17);
    told(nested(), &calls)
}

/// Two tables that give a tree the same places, sets of ways and intervals, but not the same faults left out: of a fault
/// that is certain it makes no difference to any figure whether a way names it.
pub fn only_out_differs() -> [(Table, Table); 2] {
    let table = |ways: &[&[i64]]| Table::of(&[H, H, S as u32, H], ways);
    [
        // Besides the common part way 0 names 1, or 1 and 2.
        (table(&[&[0, 1], &[0, 3]]), table(&[&[0, 1, 2], &[0, 3]])),
        // The common part is 0, or 0 and 2.
        (table(&[&[0, 1], &[0, 3]]), table(&[&[0, 1, 2], &[0, 2, 3]])),
    ]
}

/// A tree grown by one of them is refused 16 with the other, and goes on with its own; so is one whose common part was
/// taken out with a table where nothing is common.
pub fn handed_on() -> Vec<Script> {
    let run = Call::Run(by_distance(0, 1));
    let by_hand = hand(&[1], Act::Independence);
    let refused = [(run.clone(), 16), (by_hand.clone(), 16)];
    let apart = Table::of(&[H, H, FIFTH], &[&[0, 1], &[2]]);
    let pairs = only_out_differs().into_iter().chain([(p4(), apart)]);
    pairs
        .flat_map(|(own, other)| {
            let mut tree = open(&own).1;
            let first = hand(&[], Act::Common);
            make(&own, &mut tree, &first);
            vec![
                lined(own.clone(), vec![Line::Call(first)]),
                handed(&mut tree, other, &refused),
                handed(&mut tree, own, &[(by_hand.clone(), 0), (run.clone(), 0)]),
            ]
        })
        .collect()
}

/// The field of a record that has the faults left out.
pub const OUT: u64 = 9;

/// A record with a fault more left out, where every figure is the same: a table whose root is refined by the common part,
/// the record, its own faults left out and the wrong ones.
pub type Stored = (Table, u64, u64, u64);

/// A fault that none of the record's ways names: way 0 on the left does not name fault 2, no way names fault 3 or 63.
pub fn wrong_out() -> [Stored; 5] {
    let mut more = p4();
    more.weights.push(H);
    [
        (p4(), 0, 0, 1 << 63),
        (p4(), 1, 0b010, 0b110),
        (p4(), 2, 0b001, 0b001 | 1 << 63),
        (more.clone(), 1, 0b0010, 0b1010),
        (more, 2, 0b0001, 0b1001),
    ]
}

/// Calls on such a tree, which 16 refuses, and on the tree as it was.
pub fn stored() -> Vec<Script> {
    let script = |(table, record, own, wrong): Stored| {
        let damage = |by| Damage {
            record,
            field: OUT,
            by,
        };
        let mut lines = vec![Line::Call(hand(&[], Act::Common))];
        for by in [wrong - own, 0] {
            lines.push(Line::Damaged(damage(by), Call::Run(by_distance(0, 0))));
            lines.push(Line::Damaged(damage(by), hand(&[1], Act::Fault(0))));
        }
        lines.push(Line::Show);
        lined(table, lines)
    };
    wrong_out().into_iter().map(script).collect()
}

/// Calls on random tables with common parts, every place shown at the end.
pub fn drawn() -> Vec<Script> {
    let mut random = Random::new(SEED);
    let table = |random: &mut Random| random.common_table(9, 12);
    let script = |_| drawn_and_shown(&mut random, table);
    (0..RANDOM).map(script).collect()
}
