//! Ways that say nothing new: tables A1 to A10 with figures typed by hand, each of which some wrong reading gets wrong, and
//! the sheet that has them as its cues; records with the number of a way that is left out; trees of such tables, drawn at random.

use crate::figures::Figures;
use crate::paper::{H, Q};
use crate::random::Random;
use crate::scripts::{drawn_and_shown, lined, Call, Damage, Line, Script};
use crate::sheet::{of_tables, Sheet};
use crate::{by_distance, Act, Table, MET, NONE, S};

const SEED: u64 = 2002;
const RANDOM: usize = 40;
const Q3: u32 = 750_000_000;
const FIFTH: u32 = 200_000_000;

/// What the program prints for `sheet`.
pub const PRINTED: &str = "cue low high steps verdict
1 500000000 500000000 0 met
2 750000000 750000000 0 met
3 1000000000 1000000000 1 met
4 500000000 500000000 0 met
5 875000000 875000000 1 met
6 906250000 906250000 4 met
7 1000000000 1000000000 2 met
8 750000000 750000000 1 met
9 750000000 750000000 1 met
10 1000000000 1000000000 0 met
";

/// The figures of a table, with the numbers of the ways that stay at its root.
pub struct Case {
    pub figures: Figures,
    pub staying: &'static [usize],
}

/// A1 to A10.
pub fn cases() -> Vec<Case> {
    let (half, q3) = (u64::from(H), u64::from(Q3));
    let run = Call::Run(by_distance(0, 255));
    let end = |figure, count| vec![(run.clone(), [0, figure, figure, count, MET, figure])];
    let by_hand = |act, answer| vec![(Call::Hand(vec![], act), answer)];
    let apart = by_hand(Act::Independence, [0, q3, q3, 1, NONE, 0]);
    let refused = by_hand(Act::Fault(2), [20, 0, S, 0, NONE, 0]);
    let closed = |figure| (figure, figure);
    let open = |low| (low, S);
    let case = |name, weights: &[u32], ways: &[&[i64]], staying, root, calls| Case {
        figures: (name, Table::of(weights, ways), root, calls),
        staying,
    };
    vec![
        case(
            "A1: a way that names more",
            &[H, H],
            &[&[0], &[0, 1]],
            &[0],
            closed(half),
            end(half, 0),
        ),
        case(
            "A2: equal ways",
            &[Q, H],
            &[&[!0], &[!0]],
            &[0],
            closed(q3),
            end(q3, 0),
        ),
        case(
            "A3: one fault in both senses",
            &[Q, H],
            &[&[!0], &[0]],
            &[0, 1],
            open(q3),
            end(S, 1),
        ),
        case(
            "A4: the shorter comes later",
            &[H, 300_000_000],
            &[&[0, 1], &[0]],
            &[1],
            closed(half),
            end(half, 0),
        ),
        case(
            "A5: at a child",
            &[FIFTH, H, Q],
            &[&[!1], &[1, !2], &[0, !2]],
            &[0, 1, 2],
            open(575_000_000),
            end(875_000_000, 1),
        ),
        case(
            "A6: never back",
            &[H, Q3, Q],
            &[&[1], &[0, 2], &[0, !2], &[2], &[0, !1]],
            &[0, 2, 3, 4],
            open(843_750_000),
            end(906_250_000, 4),
        ),
        case(
            "A7: the lowest of equals",
            &[Q3, H, FIFTH],
            &[&[!0], &[1], &[0], &[!0], &[2]],
            &[0, 1, 2, 4],
            open(700_000_000),
            end(S, 2),
        ),
        case(
            "A8: what falls apart then",
            &[H, H],
            &[&[0, 1], &[0], &[1]],
            &[1, 2],
            open(q3),
            apart,
        ),
        case(
            "A9: what occurs then",
            &[H; 3],
            &[&[0], &[1], &[0, 2]],
            &[0, 1],
            open(q3),
            refused,
        ),
        case(
            "A10: an empty way",
            &[H, H],
            &[&[0], &[]],
            &[1],
            closed(S),
            end(S, 0),
        ),
    ]
}

/// The tables as the cues 1 to 10 of one sheet, each with faults of its own.
pub fn sheet() -> Sheet {
    of_tables(cases().into_iter().map(|case| case.figures.1), 255)
}

/// A record with the number of a way that is left out, where every figure is the same with that way and without it: the table,
/// whether the root is refined by fault 1 first, the record, its own set of ways and the wrong one.
pub type Stored = (Table, bool, u64, u64, u64);

/// Beside an empty way; of equal ways the other one; and in a child a way whose chance is 0.
pub fn stored() -> [Stored; 3] {
    let child = Table::of(&[0, H, Q], &[&[!1], &[1, !2], &[0, !2]]);
    [
        (Table::of(&[H, H], &[&[0], &[]]), false, 0, 0b10, 0b11),
        (Table::of(&[Q, H], &[&[!0], &[!0]]), false, 0, 0b01, 0b10),
        (child, true, 1, 0b010, 0b110),
    ]
}

/// The field of a record that has the numbers below 64 of its ways.
pub const WAYS_BELOW_64: u64 = 5;

/// Calls on such a tree, which 16 refuses, and on the tree as it was.
pub fn left_out_stored() -> Vec<Script> {
    let script = |(table, refined, record, own, wrong): Stored| {
        let damage = |by| Damage {
            record,
            field: WAYS_BELOW_64,
            by,
        };
        let first = Call::Hand(vec![], Act::Fault(1));
        let mut lines = if refined {
            vec![Line::Call(first)]
        } else {
            vec![]
        };
        for by in [wrong - own, 0] {
            lines.push(Line::Damaged(damage(by), Call::Run(by_distance(0, 0))));
            lines.push(Line::Damaged(damage(by), Call::Hand(vec![], Act::Fault(0))));
        }
        lines.push(Line::Show);
        lined(table, lines)
    };
    stored().into_iter().map(script).collect()
}

/// Calls on random tables of which many ways say nothing new, every place shown at the end.
pub fn drawn() -> Vec<Script> {
    let mut random = Random::new(SEED);
    let table = |random: &mut Random| random.redundant_table(8, 12);
    let script = |_| drawn_and_shown(&mut random, table);
    (0..RANDOM).map(script).collect()
}
