//! Random inputs held against the rules: enclosure by a count over all assignments,
//! runs that follow one another, places that keep what they had, and sheets there and back.

use reference::leaf::{leaf_interval, staying, Interval};
use reference::random::Random;
use reference::report::{enclosing_lines, report};
use reference::run::run;
use reference::sheet::{cue_at, decode, encode, length, sheet_number, write, writing_number};
use reference::table::Count;
use reference::tree::{open, refine_by_hand, split, Entry, State};
use reference::{
    by_distance, by_share, Answer, Limits, Table, Tree, DISTANCE, DONE, FULL, LONGEST_SHEET, MET,
    MOST_REFINEMENTS, NONE, S, SHARE, SPENT,
};
use std::collections::BTreeMap;

fn assert_encloses_everywhere(table: &Table, tree: &Tree, count: &Count) {
    for entry in tree.places(table) {
        let Interval { low, high } = entry.interval;
        assert!(low <= high && high <= S, "{entry:?} of {table:?}");
        assert!(
            count.encloses(low, high, &entry.before),
            "{entry:?} of {table:?}"
        );
    }
}

#[test]
fn every_place_encloses_after_every_call() {
    let mut random = Random::new(1);
    for _ in 0..1500 {
        let table = random.table_within(7, 9);
        let count = Count::new(&table.weights);
        let (opened, mut tree) = open(&table);
        assert_eq!(opened.number, 0);
        assert_encloses_everywhere(&table, &tree, &count);
        for _ in 0..6 {
            if random.one_in(3) {
                run(&table, &mut tree, random.limits());
            } else {
                let (place, act) = random.hand_refinement(&table, &tree);
                refine_by_hand(&table, &mut tree, &place, act);
            }
            assert_encloses_everywhere(&table, &tree, &count);
        }
    }
}

#[test]
fn larger_tables_enclose_after_a_run() {
    let mut random = Random::new(2);
    for _ in 0..60 {
        let table = random.table_within(12, 20);
        let count = Count::new(&table.weights);
        let (_, mut tree) = open(&table);
        let budget = random.between(0, 60) as u64;
        run(&table, &mut tree, by_distance(0, budget));
        assert_encloses_everywhere(&table, &tree, &count);
    }
    let table = random.table_within(16, 20);
    let (answer, _) = open(&table);
    assert!(table.encloses(answer.low, answer.high, &table.ways()));
}

#[test]
fn a_count_finds_what_does_not_enclose() {
    let table = Table::of(&[333_333_333; 2], &[&[0, 1]]);
    let count = Count::new(&table.weights);
    // Exactly 111111110.888888889.
    assert_eq!(
        count.exact_sum(&table.ways()).to_string(),
        "111111110888888889"
    );
    assert!(count.encloses(111_111_110, 111_111_111, &table.ways()));
    assert!(!count.encloses(111_111_111, 111_111_111, &table.ways()));
    assert!(!count.encloses(111_111_110, 111_111_110, &table.ways()));
    // All assignments together: S to the number of faults.
    let certain = Table::of(&[123_456_789; 9], &[&[]]);
    let sum = Count::new(&certain.weights).exact_sum(&certain.ways());
    assert_eq!(sum.to_string(), format!("1{}", "0".repeat(81)));
    // P6's trap: combining as if independent gives 750000000.
    let p6 = Table::of(&[500_000_000], &[&[0], &[!0]]);
    assert!(!p6.encloses(500_000_000, 750_000_000, &p6.ways()));
}

#[test]
fn two_runs_are_one() {
    let mut random = Random::new(3);
    for _ in 0..1200 {
        let table = random.table_within(14, 20);
        let aim = random.aim();
        let a = random.budget().min(40);
        let b = random.budget().min(40);
        let (_, mut once) = open(&table);
        if random.one_in(2) {
            if let Some((place, act)) = random.sound_refinement(&table, &once) {
                assert_eq!(refine_by_hand(&table, &mut once, &place, act).number, 0);
            }
        }
        let mut twice = once.clone();
        let with = |budget| Limits { budget, ..aim };
        let single = run(&table, &mut once, with(a + b));
        let first = run(&table, &mut twice, with(a));
        let second = run(&table, &mut twice, with(b));
        assert_eq!(once, twice);
        assert_eq!(first.count + second.count, single.count);
        assert_eq!(
            Answer {
                count: single.count,
                ..second
            },
            single
        );
    }
}

/// What a verdict says, looked up in the tree that the run left.
fn assert_verdict(table: &Table, tree: &Tree, answer: Answer, limits: Limits) {
    let entries = tree.places(table);
    let (low, high, e) = (answer.low, answer.high, limits.allowance);
    let met = match limits.mode {
        SHARE => (S - e) * high <= (S + e) * low,
        _ => high - low <= 2 * e,
    };
    let done = entries.iter().all(|entry| entry.state != State::Open);
    let full = tree.refinements() == MOST_REFINEMENTS;
    let expected = if met {
        MET
    } else if done {
        DONE
    } else if full {
        FULL
    } else {
        SPENT
    };
    assert_eq!(answer.verdict, expected);
    assert!(expected != SPENT || answer.count == limits.budget);
    let figure = match limits.mode {
        SHARE => 0,
        _ => low + (high - low) / 2,
    };
    assert_eq!(answer.figure, figure);
    assert_eq!(
        (low, high),
        (entries[0].interval.low, entries[0].interval.high)
    );
}

#[test]
fn runs_count_what_they_add_and_say_why_they_stop() {
    let mut random = Random::new(4);
    let mut verdicts = BTreeMap::new();
    for _ in 0..600 {
        let table = random.table();
        let (_, mut tree) = open(&table);
        for _ in 0..3 {
            let before = tree.clone();
            let limits = random.limits();
            let limits = Limits {
                budget: limits.budget.min(60),
                ..limits
            };
            let answer = run(&table, &mut tree, limits);
            let met = (limits.mode.min(2), answer.number, answer.verdict);
            *verdicts.entry(met).or_insert(0) += 1;
            if answer.number != 0 {
                let due = if limits.mode > SHARE { 3 } else { 14 };
                assert_eq!((answer, &tree), (Answer::refused(due), &before));
                continue;
            }
            assert_eq!(tree.refinements() - before.refinements(), answer.count);
            assert!(answer.count <= limits.budget);
            assert_verdict(&table, &tree, answer, limits);
        }
    }
    println!("runs by (mode, number, verdict): {verdicts:?}");
    for mode in [DISTANCE, SHARE] {
        assert!(verdicts.contains_key(&(mode, 14, NONE)));
        let mut ended = [MET, DONE, SPENT].iter();
        assert!(ended.all(|&verdict| verdicts.contains_key(&(mode, 0, verdict))));
    }
    assert!(verdicts.contains_key(&(2, 3, NONE)));
}

/// All but the intervals, which may narrow on the path to a new refinement.
fn apart_from(entries: &[Entry], place: &[u8]) -> Vec<Entry> {
    let apart =
        |entry: &&Entry| !place.starts_with(&entry.place) && !entry.place.starts_with(place);
    entries.iter().filter(apart).cloned().collect()
}

#[test]
fn hand_refinements_change_one_place() {
    let mut random = Random::new(5);
    let mut numbers = BTreeMap::new();
    for _ in 0..700 {
        let table = random.table_within(10, 14);
        let (_, mut tree) = open(&table);
        for _ in 0..20 {
            let before = tree.clone();
            let (place, act) = random.hand_refinement(&table, &tree);
            let answer = refine_by_hand(&table, &mut tree, &place, act);
            *numbers.entry(answer.number).or_insert(0) += 1;
            if answer.number != 0 {
                assert_eq!(answer, Answer::refused(answer.number));
                assert_eq!(tree, before);
                continue;
            }
            let (was, is) = (before.places(&table), tree.places(&table));
            assert_eq!((answer.count, is.len()), (1, was.len() + 2));
            assert_eq!(tree.refinements(), before.refinements() + 1);
            assert_eq!(apart_from(&was, &place), apart_from(&is, &place));
            let at = |entries: &[Entry]| entries.iter().find(|entry| entry.place == place).cloned();
            assert_eq!(at(&was).map(|entry| entry.state), Some(State::Open));
            assert_eq!(at(&is).map(|entry| entry.state), Some(State::Refined(act)));
            // The root never widens, for each inner node keeps its own leaf interval.
            assert!(
                is[0].interval.low >= was[0].interval.low
                    && is[0].interval.high <= was[0].interval.high
            );
        }
    }
    println!("hand refinements by number: {numbers:?}");
    assert!([0, 17, 18, 20]
        .iter()
        .all(|number| numbers.contains_key(number)));
}

/// Groups again, by following shared faults from the first way until nothing is added.
#[test]
fn groups_agree_with_a_search() {
    let mut random = Random::new(6);
    for _ in 0..3000 {
        let mut ways = random.table().ways();
        ways.retain(|way| !way.is_empty());
        let mut reached = ways.first().map_or(0, |way| way.faults());
        for _ in 0..64 {
            let sharing = ways.iter().filter(|way| way.faults() & reached != 0);
            reached = sharing.fold(reached, |faults, way| faults | way.faults());
        }
        let (left, right): (Vec<_>, Vec<_>) =
            ways.iter().partition(|way| way.faults() & reached != 0);
        let numbers = |ways: Vec<&reference::leaf::Way>| {
            ways.iter().map(|way| way.number).collect::<Vec<_>>()
        };
        let expected = (!right.is_empty()).then(|| (numbers(left), numbers(right)));
        assert_eq!(split(&ways), expected);
    }
}

#[test]
fn the_root_of_an_opening_is_its_leaf() {
    let mut random = Random::new(7);
    for _ in 0..2000 {
        let table = random.table();
        let (answer, tree) = open(&table);
        let leaf = leaf_interval(&table.weights, &staying(&table.ways()));
        assert_eq!(answer, Answer::accepted(leaf, 0));
        assert_eq!(tree.places(&table).len(), 1);
    }
}

#[test]
fn damaged_tables_are_refused_alike_everywhere() {
    let mut random = Random::new(8);
    let mut numbers = BTreeMap::new();
    for _ in 0..5000 {
        let table = random.damaged_table();
        let number = table.table_number();
        *numbers.entry(number).or_insert(0) += 1;
        let (answer, mut tree) = open(&table);
        assert_eq!(answer.number, number);
        if number != 0 {
            assert_eq!(answer, Answer::refused(number));
            for limits in [by_distance(0, 0), by_share(0, 0)] {
                assert_eq!(run(&table, &mut tree, limits), answer);
            }
            assert_eq!(tree, Tree::default());
        }
    }
    println!("damaged tables by number: {numbers:?}");
    assert!([9, 10, 11, 12, 13]
        .iter()
        .all(|number| numbers.contains_key(number)));
}

#[test]
fn sheets_there_and_back() {
    let mut random = Random::new(9);
    for _ in 0..2000 {
        let sheet = random.sheet();
        let bytes = encode(&sheet);
        assert_eq!(bytes.len(), length(&sheet));
        assert!(bytes.len() <= LONGEST_SHEET);
        assert_eq!(decode(&bytes).as_ref(), Ok(&sheet));
        let mut space = vec![0xAA; bytes.len() + random.below(9)];
        assert_eq!(write(&sheet, &mut space).count, bytes.len() as u64);
        assert_eq!(space[..bytes.len()], bytes[..]);
        assert!(space[bytes.len()..].iter().all(|&byte| byte == 0xAA));
        for position in 0..sheet.cues.len() {
            let handed = cue_at(&bytes, position);
            assert_eq!(
                (handed.cue, handed.ways),
                (
                    u64::from(sheet.cues[position]),
                    u64::from(sheet.counts[position])
                )
            );
        }
        assert!(cue_at(&bytes, sheet.cues.len()).ended);
    }
    let longest = encode(&random.longest_sheet());
    assert_eq!((longest.len(), sheet_number(&longest)), (LONGEST_SHEET, 0));
}

#[test]
fn damaged_sheets_get_a_number_or_read_back() {
    let mut random = Random::new(10);
    let mut numbers = BTreeMap::new();
    for _ in 0..30000 {
        let bytes = random.damaged_sheet();
        let number = sheet_number(&bytes);
        *numbers.entry(number).or_insert(0) += 1;
        match decode(&bytes) {
            Ok(sheet) => assert_eq!((number, encode(&sheet)), (0, bytes)),
            Err(refused) => {
                assert_eq!(
                    (number, report(&bytes)),
                    (refused, format!("refused {refused}\n"))
                );
                // The program reads one byte more than the longest sheet; that is enough to refuse.
                let seen = &bytes[..bytes.len().min(LONGEST_SHEET + 1)];
                assert_eq!(sheet_number(seen), number);
            }
        }
    }
    println!("damaged sheets by number: {numbers:?}");
    let due = [1, 2, 3, 4, 5, 6, 7, 8, 10, 12, 13, 14, 15];
    assert!(due.iter().all(|number| numbers.contains_key(number)));
}

#[test]
fn damaged_lists_get_a_number_or_are_written() {
    let mut random = Random::new(11);
    let mut numbers = BTreeMap::new();
    for _ in 0..20000 {
        let lists = random.damaged_lists();
        let mut space = vec![0xAA; random.space(&lists)];
        let number = writing_number(&lists, space.len());
        *numbers.entry(number).or_insert(0) += 1;
        let answer = write(&lists, &mut space);
        if number == 0 {
            assert_eq!(decode(&space[..answer.count as usize]), Ok(lists));
        } else {
            assert_eq!(answer, Answer::refused(number));
            assert!(space.iter().all(|&byte| byte == 0xAA));
        }
    }
    println!("damaged lists by number: {numbers:?}");
    let due = [2, 3, 5, 6, 10, 12, 13, 14, 15, 21, 22];
    assert!(due.iter().all(|number| numbers.contains_key(number)));
}

#[test]
fn the_report_is_one_run_for_each_cue() {
    let mut random = Random::new(12);
    for _ in 0..150 {
        let sheet = random.sheet_within(8, 6, 6);
        let bytes = encode(&sheet);
        let text = report(&bytes);
        assert_eq!(enclosing_lines(&bytes, &text), Ok(sheet.cues.len()));
        let lines: Vec<&str> = text.lines().collect();
        assert_eq!(lines.len(), 1 + sheet.cues.len());
        assert!(text.ends_with('\n'));
        for (line, cue) in lines[1..].iter().zip(&sheet.cues) {
            assert!(line.starts_with(&format!("{cue} ")));
            assert_eq!(line.split(' ').count(), 5);
        }
    }
}
