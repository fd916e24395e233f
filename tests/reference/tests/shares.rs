//! The allowance is a share: G1 to G22, each wrong reading with the figures that turn it away, what is printed for texts, met beside
//! other ways to say it, what met says beside a count over all assignments, and the show of small chances, by share and by distance.

use reference::csv::{export, import, joined, table};
use reference::figures::told;
use reference::files::{stored, stored_text};
use reference::leaf::{product, Interval};
use reference::natural::Natural;
use reference::random::Random;
use reference::report::{enclosing_lines, report};
use reference::run::{near_enough, run};
use reference::scripts::{mostly_open, Call};
use reference::shares::{
    cases, in_range, is_near, least_share, mixed, printed, small, Case, SMALL_DISTANCE, SMALL_SHARE,
};
use reference::sheet::{cue_table, encode, Sheet};
use reference::table::{Count, MOST_COUNTED};
use reference::tree::open;
use reference::{by_distance, by_share, Answer, Limits, Table, DONE, MET, S, SHARE};

#[test]
fn the_figures_g1_to_g19() {
    let cases = cases();
    assert_eq!(cases.len(), 19);
    for (case, number) in cases.into_iter().zip(1..) {
        let name = case.name;
        assert!(name.starts_with(&format!("G{number}: ")), "{name}");
        let (opened, mut tree) = open(&case.table);
        let root = (opened.number == 0).then_some((opened.low, opened.high));
        assert_eq!(root, case.root, "{name}");
        let before = tree.clone();
        let answer = run(&case.table, &mut tree, case.limits);
        assert_eq!(told(&answer), case.answer, "{name}");
        if answer.number != 0 {
            assert_eq!(tree, before, "{name}");
            continue;
        }
        let count = Count::new(&case.table.weights);
        let sum = count.exact_sum(&case.table.ways());
        let Answer { low, high, .. } = answer;
        assert!(count.encloses_sum(low, high, &sum), "{name}");
        if answer.verdict == MET {
            assert!(is_near(&count, &sum, &answer, case.limits), "{name}");
        }
    }
}

#[test]
fn the_figures_g20_to_g22() {
    let mixed = mixed();
    assert_eq!(mixed.len(), 3);
    for ((name, table, root, calls), number) in mixed.into_iter().zip(20..) {
        assert!(name.starts_with(&format!("G{number}: ")), "{name}");
        let (opened, mut tree) = open(&table);
        assert_eq!((opened.low, opened.high), root, "{name}");
        for (call, answer) in calls {
            let Call::Run(limits) = call else {
                panic!("{name}")
            };
            assert_eq!(told(&run(&table, &mut tree, limits)), answer, "{name}");
        }
    }
}

#[test]
fn the_program_prints_them() {
    for (name, sheet, text) in cases().into_iter().map(Case::printed) {
        assert_eq!(report(&encode(&sheet)), text, "{name}");
    }
}

/// From the text to the sheet to the line; each text by share is the text of its sheet again, but for quotes.
#[test]
fn what_is_printed_for_texts() {
    for (text, line) in printed() {
        let mut sheet = [0; 100];
        let answer = import(&text, &mut sheet);
        assert_eq!(answer.number, 0, "{line}");
        let sheet = &sheet[..answer.count as usize];
        assert_eq!(report(sheet), line);
        let mut back = [0; 100];
        let length = export(sheet, &mut back).count as usize;
        let bare: Vec<u8> = text.into_iter().filter(|&byte| byte != b'"').collect();
        assert_eq!(back[..length], bare, "{line}");
    }
    // The first of them, byte for byte: its head, and its contents, which begin behind the 12 bytes of it.
    let mut sheet = [0; 100];
    import(&printed()[0].0, &mut sheet);
    let head = [3, 0, 1, 0, 0xc5, 0xc0, 0x95, 0x04, 0xff, 0, 1, 0];
    assert_eq!((&sheet[..12], &sheet[12..14]), (&head[..], &[7, 0][..]));
}

/// A wrong reading of met by share: low and high end, and the share.
type Misread = fn(u128, u128, u128) -> bool;

/// Low, high, count and verdict of a run on an opened table that takes such a reading: else it goes on, or stops, as one at share 0.
fn misread(table: &Table, limits: Limits, reading: Misread) -> [u64; 4] {
    let (_, mut tree) = open(table);
    let mut made = 0;
    loop {
        let Interval { low, high } = tree.interval(table);
        if reading(low.into(), high.into(), limits.allowance.into()) {
            return [low, high, made, MET];
        }
        let left = u64::from(made < limits.budget);
        let answer = run(table, &mut tree, by_share(0, left));
        if answer.count == 0 {
            // Equal ends that are not taken for met have no open leaf in these tables.
            let verdict = if answer.verdict == MET {
                DONE
            } else {
                answer.verdict
            };
            return [low, high, made, verdict];
        }
        made += 1;
    }
}

/// Each with figures that turn it away.
#[test]
fn wrong_readings_of_met_are_turned_away() {
    const T: u128 = S as u128;
    let readings: [(&str, Misread, &[usize]); 8] = [
        (
            "doubled",
            |l, h, e| (T - (2 * e).min(T)) * h <= (T + 2 * e) * l,
            &[1, 4, 6, 8, 11, 13],
        ),
        ("a distance", |l, h, e| h - l <= 2 * e, &[1, 4, 5, 6]),
        (
            "the width alone",
            |l, h, e| h - l <= e,
            &[1, 4, 6, 8, 11, 13],
        ),
        (
            "the ends exchanged",
            |l, h, e| (T + e) * h <= (T - e) * l,
            &[2, 5, 7, 9],
        ),
        (
            "below it",
            |l, h, e| (T - e) * h < (T + e) * l,
            &[9, 10, 14],
        ),
        (
            "a share of the high end",
            |l, h, e| T * (h - l) <= e * h,
            &[2, 7],
        ),
        (
            "a share of the low end",
            |l, h, e| T * (h - l) <= e * l,
            &[2, 7, 9, 14],
        ),
        (
            "in billionths",
            |l, h, e| (T - e) * h / T <= (T + e) * l / T,
            &[1, 8, 11, 13],
        ),
    ];
    let right: Misread = |l, h, e| (T - e) * h <= (T + e) * l;
    let shared: Vec<(Case, usize)> = cases().into_iter().zip(1..).collect();
    let shared = || {
        let accepted = |(case, _): &&(Case, usize)| case.answer[0] == 0;
        shared
            .iter()
            .filter(accepted)
            .filter(|(case, _)| case.limits.mode == SHARE)
    };
    let told = |case: &Case| {
        [
            case.answer[1],
            case.answer[2],
            case.answer[3],
            case.answer[4],
        ]
    };
    for (case, _) in shared() {
        assert_eq!(
            misread(&case.table, case.limits, right),
            told(case),
            "{}",
            case.name
        );
    }
    for (name, reading, due) in readings {
        let differs = |case: &Case| misread(&case.table, case.limits, reading) != told(case);
        let found: Vec<usize> = shared()
            .filter(|(case, _)| differs(case))
            .map(|(_, number)| *number)
            .collect();
        println!("{name}: {found:?}");
        assert!(
            due.iter().all(|number| found.contains(number)),
            "{name}: {found:?}"
        );
    }
}

/// An interval of billionths, often a narrow one, of a small chance, or at an end of what there is.
fn interval(random: &mut Random) -> Interval {
    let top = random.one_of(&[3, 10_000, S / 1000, S]) as usize;
    let high = random.between(0, top);
    let low = match random.below(4) {
        0 => 0,
        1 => high,
        2 => high - random.below(high.min(9) + 1),
        _ => random.between(0, high),
    };
    let (low, high) = (low as u64, high as u64);
    Interval { low, high }
}

/// As document 003 words it, by the range that is not empty, by half the width as a share of the middle, and by the least share:
/// each just at the threshold too.
#[test]
fn met_is_the_same_in_other_words() {
    let mut random = Random::new(61);
    let mut met = [0; 2];
    for _ in 0..300_000 {
        let root = interval(&mut random);
        let Interval { low, high } = root;
        let least = least_share(root);
        let any = random.between(0, S as usize) as u64;
        for e in [least.saturating_sub(1), least, least + 1, any, 0, S] {
            let e = e.min(S);
            let is_met = near_enough(root, by_share(e, 0));
            assert_eq!(is_met, (S - e) * high <= (S + e) * low, "{root:?} {e}");
            assert_eq!(is_met, product(high - low, S) <= product(high + low, e));
            assert_eq!(is_met, least <= e, "{root:?} {e}");
            met[usize::from(is_met)] += 1;
        }
        // Share S is always met, and at share 0 only equal ends are, as at distance 0.
        assert!(near_enough(root, by_share(S, 0)));
        let none = [by_share(0, 0), by_distance(0, 0)];
        assert_eq!(
            none.map(|limits| near_enough(root, limits)),
            [low == high; 2]
        );
    }
    println!("not met and met: {met:?}");
    assert!(met.iter().all(|&met| met > 100_000), "{met:?}");
}

/// At met every number of the range is within the share of every chance that the interval leaves, and no other number is; where
/// it is not met, no number is within the share of both ends. Numbers of quarters, chances and shares in tenths.
#[test]
fn the_range_is_all_that_is_within_the_share() {
    let tenth = S / 10;
    for (low, high) in (0..=10).flat_map(|high| (0..=high).map(move |low| (low, high))) {
        for share in 0..=10 {
            let root = Interval {
                low: low * tenth,
                high: high * tenth,
            };
            let is_met = near_enough(root, by_share(share * tenth, 0));
            // A number x / 400 is within the share of the chance p / 10: |x / 400 - p / 10| is at most share / 10 of p / 10.
            let within = |x: u64, p: u64| x.abs_diff(40 * p) <= 4 * share * p;
            let all = |x: u64| (low..=high).all(|p| within(x, p));
            let numbers = (0..=800).filter(|&x| all(x));
            let (first, last) = (4 * (10 - share) * high, 4 * (10 + share) * low);
            let range = (0..=800).filter(|x| (first..=last).contains(x));
            assert!(numbers.clone().eq(range), "{root:?} {share}");
            assert_eq!(is_met, numbers.count() > 0, "{root:?} {share}");
        }
    }
}

/// Small tables of small chances, and any others.
fn drawn(random: &mut Random, faults: usize) -> Table {
    let mut table = match random.below(3) {
        0 => random.table_within(faults, 12),
        1 => random.redundant_table(faults, 12),
        _ => random.common_table(faults, 12),
    };
    if random.one_in(2) {
        let top = random.one_of(&[100, 3000, 100_000, 3_000_000]);
        for weight in &mut table.weights {
            *weight = random.between(0, top) as u32;
        }
    }
    table
}

/// Shares about the least that the root meets after some refinements: at that share and one more a run of as many is met, at one
/// less it goes on or ends otherwise; and at met both ends of the range, and fractions in it, are within the share of the exact
/// chance.
#[test]
fn at_met_the_range_is_within_the_share_of_the_exact_chance() {
    let mut random = Random::new(62);
    let (mut met, mut other, mut fractions) = (0, 0, 0);
    for number in 0..1500 {
        let faults = if number % 20 == 0 { MOST_COUNTED } else { 8 };
        let table = match faults {
            8 => mostly_open(&mut random, |random| drawn(random, 8)),
            _ => drawn(&mut random, faults),
        };
        let count = Count::new(&table.weights);
        let sum = count.exact_sum(&table.ways());
        let budget = random.below(8) as u64;
        let (_, mut tree) = open(&table);
        let Answer { low, high, .. } = run(&table, &mut tree, by_share(0, budget));
        let least = least_share(Interval { low, high });
        for share in [least.saturating_sub(1), least, least + 1] {
            let limits = by_share(share.min(S), budget);
            let (_, mut tree) = open(&table);
            let answer = run(&table, &mut tree, limits);
            assert!(answer.number == 0 && answer.figure == 0);
            if share >= least {
                assert_eq!(answer.verdict, MET, "{table:?} {limits:?}");
            }
            if answer.verdict == MET {
                met += 1;
                let near = is_near(&count, &sum, &answer, limits);
                assert!(near, "{answer:?} is not near: {table:?} {limits:?}");
                let Answer { low, high, .. } = answer;
                let parts = random.one_of(&[1, 2, 7, 1000, 999_983]);
                let root = Interval { low, high };
                for number in in_range(&mut random, root, limits.allowance, parts)
                    .into_iter()
                    .flatten()
                {
                    let within = count.within_share(number, limits.allowance, &sum);
                    assert!(within, "{number:?} is not near: {table:?} {limits:?}");
                    fractions += 1;
                }
            } else {
                other += 1;
            }
        }
    }
    println!("met {met}, other {other}, fractions {fractions}");
    assert!(
        met > 2500 && other > 500 && fractions > 2500,
        "{met} {other} {fractions}"
    );
}

/// What is not within the share is found: the ends of a range of another share, and a number beside the range.
#[test]
fn a_count_finds_what_is_not_within_the_share() {
    let rare = Table::of(&[3000; 2], &[&[0], &[1]]);
    let count = Count::new(&rare.weights);
    let sum = count.exact_sum(&rare.ways());
    // Exactly 5999.991: a tenth of it more and less is 6599.9901 and 5399.9919.
    assert_eq!(sum.to_string(), "5999991000000");
    for (number, parts, within) in [
        (5_399_991_900_000, S as u32, true),
        (5_399_991_899_999, S as u32, false),
        (5_999_991_000_000, S as u32, true),
        (6_599_990_100_000, S as u32, true),
        (6_599_990_100_001, S as u32, false),
        (53_999_919, 10_000, true),
        (53_999_918, 10_000, false),
        (65_999_901, 10_000, true),
        (65_999_902, 10_000, false),
        (5400, 1, true),
        (5399, 1, false),
        (6599, 1, true),
        (6600, 1, false),
        (0, 1, false),
    ] {
        let found = count.within_share((number, parts), S / 10, &sum);
        assert_eq!(found, within, "{number} / {parts}");
    }
    assert!(count.within_share((0, 1), S, &sum));
    assert!(count.within_share((5_999_991, 1000), 0, &sum));
    assert!(!count.within_share((6000, 1), 0, &sum));
    let answer = run(&rare, &mut open(&rare).1, by_share(83_341, 255));
    let near = |answer: Answer, share| is_near(&count, &sum, &answer, by_share(share, 255));
    assert!(near(answer, 83_341) && !near(answer, 83_340));
    assert!(!near(
        Answer {
            figure: 5999,
            ..answer
        },
        83_341
    ));
}

/// At share 0 a run does what it does at distance 0; only the figure differs.
#[test]
fn a_share_of_0_asks_for_equal_ends() {
    let mut random = Random::new(63);
    for _ in 0..2000 {
        let table = random.table_within(10, 14);
        let budget = random.budget().min(30);
        let (mut one, mut other) = (open(&table).1, open(&table).1);
        let by_distance = run(&table, &mut one, by_distance(0, budget));
        let by_share = run(&table, &mut other, by_share(0, budget));
        assert_eq!(one, other);
        let figure = by_share.figure;
        assert_eq!(
            (figure, by_share),
            (
                0,
                Answer {
                    figure,
                    ..by_distance
                }
            )
        );
    }
}

/// The sheets in samples/ differ in the mode alone.
#[test]
fn the_stored_sheets_are_the_show_of_small_chances() {
    let (share, faint) = (small(SMALL_SHARE), small(SMALL_DISTANCE));
    assert_eq!(stored("samples/share.sheet"), encode(&share));
    assert_eq!(stored("samples/faint.sheet"), encode(&faint));
    assert_eq!(stored("samples/share.csv"), joined(&table(&share)));
    assert_eq!(Sheet { mode: 0, ..share }, faint);
    let differ = encode(&faint)
        .into_iter()
        .zip(stored("samples/share.sheet"));
    assert_eq!(differ.filter(|(one, other)| one != other).count(), 1);
}

/// The page has the lines of both beside each other, every interval encloses the count, and where it is met what that says is so.
/// By distance all cues are met at once, and the figures say nothing of chances so small: the allowance is above every one of them.
#[test]
fn the_page_tells_both() {
    for limits in [SMALL_SHARE, SMALL_DISTANCE] {
        let sheet = small(limits);
        let bytes = encode(&sheet);
        let text = report(&bytes);
        assert_eq!(enclosing_lines(&bytes, &text), Ok(sheet.cues.len()));
        let count = Count::new(&sheet.weights);
        for position in 0..sheet.cues.len() {
            let table = cue_table(&sheet, position).expect("a cue's table");
            let answer = run(&table, &mut open(&table).1, limits);
            let sum = count.exact_sum(&table.ways());
            // Both relays at once: below a billionth, and no share but S of a low end of 0 is met.
            let never = limits.mode == SHARE && position == 3;
            assert_eq!(answer.verdict, if never { DONE } else { MET });
            if !never {
                assert!(is_near(&count, &sum, &answer, limits));
            }
            if limits.mode != SHARE {
                assert!(answer.count == 0 && answer.high < limits.allowance);
            }
            // 12280.900009 billionths of 7 faults, and the middle of 5499 and 12300, as the page has them.
            if position == 2 {
                let due = Natural::new(12_280_900_009).times_s_to(6);
                assert!(sum.times(1_000_000) == due, "{sum}");
                let middle = if limits.mode == SHARE { 0 } else { 8899 };
                assert_eq!(answer.figure, middle);
            }
        }
    }
    let page = stored_text("samples/README.md");
    let printed = [SMALL_DISTANCE, SMALL_SHARE].map(|limits| report(&encode(&small(limits))));
    for (distance, share) in printed[0].lines().zip(printed[1].lines()) {
        let row = format!("| `{distance}` | `{share}` |\n");
        assert!(page.contains(&row), "{row}");
    }
}

/// Within one mode two runs are one; a run by share behind one by distance is not what either would be.
#[test]
fn runs_are_cut_within_one_mode() {
    let mut random = Random::new(64);
    let mut differ = 0;
    for _ in 0..1500 {
        let table = mostly_open(&mut random, |random| drawn(random, 9));
        let aim = Limits {
            mode: SHARE,
            ..random.aim()
        };
        let with = |aim, budget| Limits { budget, ..aim };
        let (a, b) = (random.below(6) as u64, random.below(12) as u64);
        let (mut once, mut twice) = (open(&table).1, open(&table).1);
        let single = run(&table, &mut once, with(aim, a + b));
        let first = run(&table, &mut twice, with(aim, a));
        let second = run(&table, &mut twice, with(aim, b));
        assert_eq!(once, twice);
        let count = first.count + second.count;
        assert_eq!(Answer { count, ..second }, single);
        let mut mixed = open(&table).1;
        run(&table, &mut mixed, by_distance(aim.allowance, a));
        run(&table, &mut mixed, with(aim, b));
        differ += usize::from(mixed != once);
    }
    println!("other trees with modes mixed: {differ}");
    assert!(differ > 30, "{differ}");
}
