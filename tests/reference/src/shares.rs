//! The allowance is a share: runs G1 to G19 with figures typed by hand, each of which some wrong reading gets wrong, and for each
//! run the sheet of one cue that asks for it, with what the program prints; G20 to G22, runs in both modes; texts that ask for a
//! share, and the lines that are printed for them; the least share at which an interval is met, and what met says, beside an exact
//! count; and a show of small chances, whose sheet asks for a share, or for a distance.

use crate::csv::figures::typed;
use crate::figures::Figures;
use crate::leaf::{product, Interval};
use crate::natural::Natural;
use crate::paper::{p3, p4, H};
use crate::random::Random;
use crate::report::told_of_one_cue;
use crate::scripts::Call;
use crate::sheet::{of_one_cue, Sheet};
use crate::table::Count;
use crate::{by_distance, by_share, Answer, Limits, Table, DONE, MET, NONE, S, SHARE, SPENT};

/// A run on the tree that the opening of a table leaves: number, low, high, count, verdict and figure.
pub struct Case {
    pub name: &'static str,
    pub table: Table,
    /// The interval of the root leaf; none if the table is refused.
    pub root: Option<(u64, u64)>,
    pub limits: Limits,
    pub answer: [u64; 6],
    /// The number of a sheet with this table and these limits.
    pub sheet: u64,
}

impl Case {
    /// The run among the figures, if there is a root to begin with.
    pub fn figures(self) -> Option<Figures> {
        let run = (Call::Run(self.limits), self.answer);
        Some((self.name, self.table, self.root?, vec![run]))
    }

    /// Its name, its sheet and the text of that.
    pub fn printed(self) -> (&'static str, Sheet, String) {
        let [_, low, high, count, verdict, figure] = self.answer;
        let told = told_of_one_cue([self.sheet, low, high, count, verdict, figure]);
        (self.name, of_one_cue(self.table, self.limits), told)
    }
}

/// G1 to G19.
pub fn cases() -> Vec<Case> {
    let case = |name, table, root, limits, answer: [u64; 6]| Case {
        name,
        table,
        root,
        limits,
        answer,
        sheet: answer[0],
    };
    let of_rare = |name, limits, answer| case(name, rare(), Some((5999, 6000)), limits, answer);
    let root_of_p4 = (250_000_000, 350_000_000);
    let of_p4 = |name, limits, answer| case(name, p4(), Some(root_of_p4), limits, answer);
    let of_p3 = |name, limits, answer| {
        let root = Some((111_111_110, 111_111_111));
        case(name, p3(), root, limits, answer)
    };
    let both = || Table::of(&[1; 2], &[&[0, 1]]);
    let of_both = |name, limits, answer| case(name, both(), Some((0, 1)), limits, answer);
    let either = || Table::of(&[1; 3], &[&[0, 1], &[0, 2]]);
    let of_either = |name, limits, answer| case(name, either(), Some((0, 2)), limits, answer);
    let apart = Table::of(&[3, 1_000_000], &[&[0], &[1]]);
    let refused = |number| [number, 0, S, 0, NONE, 0];
    let mode = |mode, limits| Limits { mode, ..limits };
    vec![
        of_rare(
            "G1: a share just too small",
            by_share(83_340, 255),
            [0, 5999, 6000, 1, DONE, 0],
        ),
        of_rare(
            "G2: the least share that will do",
            by_share(83_341, 255),
            [0, 5999, 6000, 0, MET, 0],
        ),
        of_rare(
            "G3: the same number as a distance",
            by_distance(83_341, 255),
            [0, 5999, 6000, 0, MET, 5999],
        ),
        of_p4(
            "G4: two steps",
            by_share(76_923_076, 255),
            [0, 300_000_000, 300_000_000, 2, MET, 0],
        ),
        of_p4(
            "G5: one step",
            by_share(76_923_077, 255),
            [0, 300_000_000, 350_000_000, 1, MET, 0],
        ),
        of_p4(
            "G6: one step still, for nothing is doubled",
            by_share(166_666_666, 255),
            [0, 300_000_000, 350_000_000, 1, MET, 0],
        ),
        of_p4(
            "G7: no step",
            by_share(166_666_667, 255),
            [0, 250_000_000, 350_000_000, 0, MET, 0],
        ),
        of_both(
            "G8: no share but S of a low end of 0",
            by_share(999_999_999, 255),
            [0, 0, 1, 0, DONE, 0],
        ),
        of_both(
            "G9: share S is always met",
            by_share(S, 255),
            [0, 0, 1, 0, MET, 0],
        ),
        case(
            "G10: 0 and 0 are met at every share",
            Table::of(&[H], &[]),
            Some((0, 0)),
            by_share(0, 255),
            [0, 0, 0, 0, MET, 0],
        ),
        of_p3(
            "G11: a width of 1 and a share of 4",
            by_share(4, 255),
            [0, 111_111_110, 111_111_111, 0, DONE, 0],
        ),
        of_p3(
            "G12: a width of 1 and a share of 5",
            by_share(5, 255),
            [0, 111_111_110, 111_111_111, 0, MET, 0],
        ),
        of_either(
            "G13: spent, and no figure",
            by_share(999_999_999, 0),
            [0, 0, 2, 0, SPENT, 0],
        ),
        of_either(
            "G14: met before spent",
            by_share(S, 0),
            [0, 0, 2, 0, MET, 0],
        ),
        case(
            "G15: a share of the chance, not of a weight",
            apart,
            Some((1_000_002, 1_000_003)),
            by_share(100_000_000, 255),
            [0, 1_000_002, 1_000_003, 0, MET, 0],
        ),
        Case {
            sheet: 2,
            ..case(
                "G16: 3 before all others",
                Table::default(),
                None,
                mode(2, by_distance(S + 1, 300)),
                refused(3),
            )
        },
        of_p4(
            "G17: 3 by the higher byte of the mode",
            mode(256, by_distance(0, 255)),
            refused(3),
        ),
        of_p4("G18: 14 by share", by_share(S + 1, 255), refused(14)),
        Case {
            sheet: 2,
            ..case(
                "G19: 9 by share",
                Table::default(),
                None,
                by_share(0, 255),
                refused(9),
            )
        },
    ]
}

/// Two faults of 3 in a million, either of which will do.
fn rare() -> Table {
    Table::of(&[3000; 2], &[&[0], &[1]])
}

/// G20 to G22: runs in both modes on one tree, and all that they answer.
pub fn mixed() -> Vec<Figures> {
    let after_one = |count, verdict, figure| [0, 300_000_000, 350_000_000, count, verdict, figure];
    let share = by_share(76_923_077, 255);
    let root = (250_000_000, 350_000_000);
    let first_by_distance = vec![
        (
            Call::Run(by_distance(0, 1)),
            after_one(1, SPENT, 325_000_000),
        ),
        (Call::Run(share), after_one(0, MET, 0)),
    ];
    let first_by_share = vec![
        (Call::Run(share), after_one(1, MET, 0)),
        (
            Call::Run(by_distance(0, 255)),
            [0, 300_000_000, 300_000_000, 1, MET, 300_000_000],
        ),
    ];
    let narrow = |count, verdict, figure| [0, 5999, 6000, count, verdict, figure];
    let of_rare = [
        (by_share(83_340, 255), narrow(1, DONE, 0)),
        (by_distance(83_340, 255), narrow(0, MET, 5999)),
        (by_share(83_341, 255), narrow(0, MET, 0)),
        (by_distance(83_341, 255), narrow(0, MET, 5999)),
        (by_distance(0, 255), narrow(0, DONE, 5999)),
    ];
    let of_rare = of_rare.map(|(limits, answer)| (Call::Run(limits), answer));
    vec![
        (
            "G20: by distance, then by share",
            p4(),
            root,
            first_by_distance,
        ),
        (
            "G21: by share, then by distance",
            p4(),
            root,
            first_by_share,
        ),
        (
            "G22: the same numbers by share and by distance",
            rare(),
            (5999, 6000),
            of_rare.to_vec(),
        ),
    ]
}

/// Texts of one cue, with ⏎ for CR LF, and the line that is printed for the sheet of each.
pub const PRINTED: [(&str, &str); 10] = [
    (
        "run,76923077,255,1⏎weights,500000000,500000000,200000000⏎7,1,2⏎7,1,3⏎",
        "7 300000000 350000000 1 met",
    ),
    (
        "run,76923076,255,1⏎weights,500000000,500000000,200000000⏎7,1,2⏎7,1,3⏎",
        "7 300000000 300000000 2 met",
    ),
    (
        "run,1000000000,255,1⏎weights,500000000,500000000,200000000⏎7,1,2⏎7,1,3⏎",
        "7 250000000 350000000 0 met",
    ),
    (
        "run,1000000000,0,1⏎weights,1,1,1⏎7,1,2⏎7,1,3⏎",
        "7 0 2 0 met",
    ),
    (
        "run,999999999,0,1⏎weights,1,1,1⏎7,1,2⏎7,1,3⏎",
        "7 0 2 0 spent",
    ),
    (
        "run,100000000,255,1⏎weights,3,1000000⏎7,1⏎7,2⏎",
        "7 1000002 1000003 0 met",
    ),
    (
        "run,83340,255,1⏎weights,3000,3000⏎7,1⏎7,2⏎",
        "7 5999 6000 1 done",
    ),
    (
        "run,83340,255⏎weights,3000,3000⏎7,1⏎7,2⏎",
        "7 5999 6000 0 met",
    ),
    (
        "run,83341,255,\"1\"⏎weights,3000,3000⏎7,1⏎7,2⏎",
        "7 5999 6000 0 met",
    ),
    ("run,0,0,1⏎weights,5⏎7⏎", "7 0 0 0 met"),
];

/// Their bytes, and all that is printed.
pub fn printed() -> Vec<(Vec<u8>, String)> {
    let told = |line| format!("cue low high steps verdict\n{line}\n");
    let printed = PRINTED.into_iter();
    printed
        .map(|(text, line)| (typed(text), told(line)))
        .collect()
}

/// The least share at which an interval is met: half its width as a share of its middle, S × (high − low) / (high + low),
/// rounded up.
pub fn least_share(Interval { low, high }: Interval) -> u64 {
    match u128::from(low + high) {
        0 => 0,
        sum => product(high - low, S).div_ceil(sum) as u64,
    }
}

/// What met says of a run beside the sum of its table. By distance the chance is within the allowance of the figure. By share
/// there are numbers from (S − e) × high / S to (S + e) × low / S, the first and the last of them are within the share of the
/// chance, and so are all between them, whole or not; the figure is 0.
pub fn is_near(count: &Count, sum: &Natural, answer: &Answer, limits: Limits) -> bool {
    let (e, figure) = (limits.allowance, answer.figure);
    if limits.mode != SHARE {
        return count.encloses_sum(figure.saturating_sub(e), figure + e, sum);
    }
    let ends = [(S - e) * answer.high, (S + e) * answer.low];
    let within = |end: &u64| count.within_share((*end, S as u32), e, sum);
    figure == 0 && ends[0] <= ends[1] && ends.iter().all(within)
}

/// Numbers of billionths X / D in the range of an interval that is met, as X and D: the first and the last that have this D, and
/// one between; none where none has.
pub fn in_range(
    random: &mut Random,
    root: Interval,
    share: u64,
    parts: u32,
) -> Option<[(u64, u32); 3]> {
    let parts_of = |end, share| product(end, share) * u128::from(parts);
    let first = parts_of(root.high, S - share).div_ceil(u128::from(S)) as u64;
    let last = (parts_of(root.low, S + share) / u128::from(S)) as u64;
    if first > last {
        return None;
    }
    let between = random.between(first as usize, last as usize) as u64;
    Some([first, last, between].map(|number| (number, parts)))
}

/// The show of small chances, in samples/README.md: two lines, a port and two supplies, of about a thousandth each, and two relays
/// of 3 in a million.
const SMALL_WEIGHTS: [u32; 7] = [
    1_500_000, 2_000_000, 1_000_000, 2_500_000, 1_200_000, 3000, 3000,
];
const SMALL_CUES: [(u16, &[&[i64]]); 4] = [
    (1, &[&[5], &[6]]),
    (2, &[&[0, 1], &[0, 2], &[1, 2]]),
    (4, &[&[0, 1], &[1, 2], &[2, 3], &[3, 4], &[0, 4]]),
    (9, &[&[5, 6]]),
];

/// What its two sheets ask for, which differ in the mode alone: a hundredth of the chance, and a hundredth away from it.
pub const SMALL_SHARE: Limits = by_share(S / 100, 40);
pub const SMALL_DISTANCE: Limits = by_distance(S / 100, 40);

/// The show's sheet with these limits.
pub fn small(limits: Limits) -> Sheet {
    let mut sheet = Sheet {
        weights: SMALL_WEIGHTS.to_vec(),
        allowance: limits.allowance,
        budget: limits.budget,
        mode: limits.mode,
        ..Sheet::default()
    };
    for (cue, ways) in SMALL_CUES {
        let table = Table::of(&SMALL_WEIGHTS, ways);
        sheet.cues.push(cue);
        sheet.counts.push(ways.len() as u16);
        sheet.present.extend(table.present);
        sheet.absent.extend(table.absent);
    }
    sheet
}
