//! The figures that are easy to get wrong and those to be run in the tests, each by name and typed by hand: the
//! root leaf's interval, then for each call number, low, high, count, verdict and figure.

use crate::common;
use crate::distances;
use crate::kept;
use crate::paper::{
    chain, done_and_full, equal_ways, most_named, one_division, one_pass, own_high, own_interval,
    p3, p4, p6, p7, p8, skipped, widest, with_empty_way, H,
};
use crate::redundant;
use crate::scripts::{self, lined, Call, Line, Script};
use crate::shares;
use crate::tree::{open, State};
use crate::vectors::make;
use crate::{by_distance, Act, Answer, Table, DONE, MET, NONE, S, SPENT};

/// A name, a table, its root leaf's interval, and calls with all that they must answer.
pub type Figures = (&'static str, Table, (u64, u64), Vec<(Call, [u64; 6])>);

/// All of them.
pub fn typed() -> Vec<Figures> {
    let redundant = redundant::cases().into_iter().map(|case| case.figures);
    let distances = distances::cases().into_iter().map(distances::Case::figures);
    let common = common::cases().into_iter().map(|case| case.figures);
    let kept = kept::cases().into_iter().map(|case| case.figures);
    let shares = shares::cases()
        .into_iter()
        .filter_map(shares::Case::figures);
    let more = redundant
        .chain(distances)
        .chain(common)
        .chain(kept)
        .chain(shares)
        .chain(shares::mixed());
    [roots_and_widths(), stops(), more.collect()].concat()
}

/// All of them as scripts, every place shown at the end.
pub fn figures() -> Vec<Script> {
    let mut scripts: Vec<Script> = typed().into_iter().map(held).collect();
    scripts.push(counted_once());
    let unopened = shares::cases()
        .into_iter()
        .filter(|case| case.root.is_none());
    scripts.extend(unopened.map(on_no_nodes));
    scripts
}

fn run(allowance: u64, budget: u64, answer: [u64; 6]) -> (Call, [u64; 6]) {
    (Call::Run(by_distance(allowance, budget)), answer)
}

fn by_hand(place: &[u8], act: Act, answer: [u64; 6]) -> (Call, [u64; 6]) {
    (Call::Hand(place.to_vec(), act), answer)
}

fn roots_and_widths() -> Vec<Figures> {
    let q3 = 750_000_000;
    let half = 500_000_000;
    // Of an interval that is at most 1 wide the figure is its low end.
    let end = |low, high, count, verdict| run(0, 255, [0, low, high, count, verdict, low]);
    let own = run(0, 1, [0, q3, 875_000_000, 1, SPENT, 812_500_000]);
    let own_high_end = 612_759_200;
    let fault_0 = [0, 378_640_398, own_high_end, 1, NONE, 0];
    let narrow = run(
        25_000_000,
        255,
        [0, 156_250_000, 203_125_000, 2, MET, 179_687_500],
    );
    let closed = by_hand(&[], Act::Fault(0), [18, 0, S, 0, NONE, 0]);
    let nothing = Table::of(&[H], &[]);
    vec![
        (
            "one pass, both senses mixed",
            one_pass(),
            (49_999_999, 50_000_000),
            vec![end(49_999_999, 50_000_000, 0, DONE)],
        ),
        (
            "never compared with a skipped way",
            skipped(),
            (625_000_000, S),
            vec![],
        ),
        (
            "groups through chains",
            chain(),
            (q3, S),
            vec![end(S, S, 2, MET)],
        ),
        (
            "the leaf's own width",
            widest(),
            (121_093_750, 250_000_000),
            vec![narrow],
        ),
        (
            "overlap with the own interval",
            own_interval(),
            (q3, S),
            vec![own],
        ),
        (
            "overlap with the own interval at the high end",
            own_high(),
            (128_900_954, own_high_end),
            vec![by_hand(&[], Act::Fault(0), fault_0)],
        ),
        (
            "one division for a node",
            one_division(),
            (499_999_999, half + 1),
            vec![end(half, half, 1, MET)],
        ),
        (
            "an empty way",
            with_empty_way(),
            (S, S),
            vec![closed.clone(), end(S, S, 0, MET)],
        ),
        ("no ways", nothing, (0, 0), vec![closed, end(0, 0, 0, MET)]),
        (
            "equal ways",
            equal_ways(),
            (half, half),
            vec![end(half, half, 0, MET)],
        ),
    ]
}

fn stops() -> Vec<Figures> {
    let of_p3 = (111_111_110, 111_111_111);
    let of_p4 = (250_000_000, 350_000_000);
    vec![
        (
            "P3 with allowance 0 is done",
            p3(),
            of_p3,
            vec![run(0, 255, [0, of_p3.0, of_p3.1, 0, DONE, of_p3.0])],
        ),
        (
            "P3 with allowance 1 is met",
            p3(),
            of_p3,
            vec![run(1, 255, [0, of_p3.0, of_p3.1, 0, MET, of_p3.0])],
        ),
        (
            "met after the last budgeted refinement",
            p6(),
            (500_000_000, S),
            vec![run(0, 1, [0, S, S, 1, MET, S])],
        ),
        (
            "done after the last budgeted refinement",
            p8(),
            (555_555_555, 666_666_666),
            vec![run(
                0,
                1,
                [0, 555_555_555, 555_555_556, 1, DONE, 555_555_555],
            )],
        ),
        (
            "spent counts this run",
            p4(),
            of_p4,
            vec![
                run(0, 0, [0, of_p4.0, of_p4.1, 0, SPENT, 300_000_000]),
                run(0, 1, [0, 300_000_000, 350_000_000, 1, SPENT, 325_000_000]),
                run(0, 0, [0, 300_000_000, 350_000_000, 0, SPENT, 325_000_000]),
                run(0, 1, [0, 300_000_000, 300_000_000, 1, MET, 300_000_000]),
            ],
        ),
        (
            "the whole sheet's cue 7",
            p4(),
            of_p4,
            vec![run(
                10_000_000,
                40,
                [0, 300_000_000, 300_000_000, 2, MET, 300_000_000],
            )],
        ),
        (
            "done before full",
            done_and_full(),
            (683_786_240, S),
            vec![
                run(
                    0,
                    254,
                    [0, 931_355_327, 931_371_430, 254, SPENT, 931_363_378],
                ),
                run(0, 1, [0, 931_355_327, 931_355_348, 1, DONE, 931_355_337]),
                run(0, 0, [0, 931_355_327, 931_355_348, 0, DONE, 931_355_337]),
            ],
        ),
        (
            "a fault by hand where the ways fall apart",
            p7(),
            (840_000_000, S),
            vec![by_hand(
                &[],
                Act::Fault(1),
                [0, 840_000_000, 840_000_000, 1, NONE, 0],
            )],
        ),
    ]
}

/// A script whose answers are the typed ones.
fn held((name, table, root, calls): Figures) -> Script {
    let (opened, mut tree) = open(&table);
    assert_eq!(told(&opened), [0, root.0, root.1, 0, NONE, 0], "{name}");
    for (call, answer) in &calls {
        assert_eq!(told(&make(&table, &mut tree, call)), *answer, "{name}");
    }
    let mut lines: Vec<Line> = calls
        .into_iter()
        .map(|(call, _)| Line::Call(call))
        .collect();
    lines.push(Line::Show);
    lined(table, lines)
}

/// An answer as its figures stand here.
pub fn told(answer: &Answer) -> [u64; 6] {
    let Answer {
        number,
        low,
        high,
        count,
        verdict,
        figure,
    } = *answer;
    [number, low, high, count, verdict, figure]
}

/// A run on the tree of a refused opening.
fn on_no_nodes(case: shares::Case) -> Script {
    let [number, .., verdict, _] = case.answer;
    scripts::told(case.table, &[(Call::Run(case.limits), number, verdict)])
}

/// The fault named in most ways counts only ways that stay: a run takes fault 0.
fn counted_once() -> Script {
    let table = most_named();
    let (_, mut tree) = open(&table);
    make(&table, &mut tree, &Call::Run(by_distance(0, 1)));
    let root = &tree.places(&table)[0];
    assert_eq!(root.state, State::Refined(Act::Fault(0)));
    let run = Line::Call(Call::Run(by_distance(0, 1)));
    lined(table, vec![run, Line::Show])
}
