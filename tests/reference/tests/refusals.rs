//! Examples for every refusal, for the order in which they are tried, and for what a
//! refused call leaves as it was.

use reference::paper::{limits, orders, p4, whole_sheet, H};
use reference::report::report;
use reference::run::run;
use reference::sheet::{encode, read, sheet_number, write, writing_number, Sheet};
use reference::tree::{open, refine_by_hand};
use reference::{by_distance, by_share, Act, Answer, Limits, Table, Tree, S};

const ABOVE: u32 = S as u32 + 1;

fn sheet() -> Sheet {
    whole_sheet(40)
}

/// The number for the rules' sheet with some bytes put in.
fn with_bytes(changes: &[(usize, u8)]) -> u64 {
    let mut bytes = encode(&sheet());
    for &(at, byte) in changes {
        bytes[at] = byte;
    }
    sheet_number(&bytes)
}

/// The number for the rules' lists with something changed, in ample space.
fn with_lists(change: impl Fn(&mut Sheet)) -> u64 {
    let mut lists = sheet();
    change(&mut lists);
    writing_number(&lists, 100_000)
}

#[test]
fn sheets_1_to_8() {
    let bytes = encode(&sheet());
    assert_eq!(sheet_number(&bytes), 0);
    for length in 0..12 {
        assert_eq!(sheet_number(&bytes[..length]), 1);
    }
    assert_eq!(with_bytes(&[(0, 0)]), 2);
    assert_eq!(with_bytes(&[(0, 65)]), 2);
    assert_eq!(with_bytes(&[(2, 0)]), 2);
    assert_eq!(with_bytes(&[(2, 25)]), 2);
    assert_eq!(with_bytes(&[(3, 1)]), 2);
    assert_eq!(with_bytes(&[(10, 1)]), 0);
    // Both bytes together are one number.
    for bytes in [[2, 0], [255, 0], [0, 1], [1, 1], [0, 255], [255, 255]] {
        assert_eq!(with_bytes(&[(10, bytes[0]), (11, bytes[1])]), 3);
    }
    for length in 12..40 {
        assert_eq!(sheet_number(&bytes[..length]), 4);
    }
    assert_eq!(with_bytes(&[(0, 64)]), 4);
    assert_eq!(with_bytes(&[(12, 0)]), 5);
    assert_eq!(with_bytes(&[(20, 7)]), 5);
    assert_eq!(with_bytes(&[(20, 6)]), 5);
    assert_eq!(with_bytes(&[(14, 129)]), 6);
    assert_eq!(with_bytes(&[(14, 128)]), 7);
    assert_eq!(with_bytes(&[(16, 41)]), 7);
    assert_eq!(with_bytes(&[(24, 71)]), 7);
    assert_eq!(with_bytes(&[(27, 1)]), 7);
    for length in 40..72 {
        assert_eq!(sheet_number(&bytes[..length]), 8);
    }
    assert_eq!(sheet_number(&[&bytes[..], &[0]].concat()), 8);
    assert_eq!(with_bytes(&[(22, 1)]), 8);
}

#[test]
fn sheets_10_and_12_to_15() {
    assert_eq!(with_bytes(&[(31, 0x40)]), 10);
    assert_eq!(with_bytes(&[(40, 8)]), 12);
    assert_eq!(with_bytes(&[(71, 128)]), 12);
    assert_eq!(with_bytes(&[(48, 1)]), 13);
    assert_eq!(with_bytes(&[(7, 0x40)]), 14);
    assert_eq!(with_bytes(&[(9, 1)]), 15);
}

#[test]
fn sheets_try_each_over_the_whole_before_the_next() {
    assert_eq!(with_bytes(&[(9, 1), (7, 0x40)]), 14);
    // 13 in the first way and 12 in the second.
    assert_eq!(with_bytes(&[(48, 1), (56, 8)]), 12);
    // 6 and 7 in the first cue, 5 in the second.
    assert_eq!(with_bytes(&[(14, 200), (16, 0), (20, 0)]), 5);
    assert_eq!(with_bytes(&[(16, 0), (22, 200)]), 6);
    assert_eq!(with_bytes(&[(10, 2), (0, 64)]), 3);
    assert_eq!(with_bytes(&[(10, 2), (0, 65)]), 2);
    assert_eq!(with_bytes(&[(10, 1), (0, 64)]), 4);
    assert_eq!(with_bytes(&[(31, 0x40), (40, 8)]), 10);
    assert_eq!(report(&[]), "refused 1\n");
    assert_eq!(read(&[0; 11]), Answer::refused(1));
}

#[test]
fn a_cue_without_ways_still_needs_its_place() {
    let mut none = sheet();
    none.counts = vec![0, 0];
    none.present.clear();
    none.absent.clear();
    let mut bytes = encode(&none);
    assert_eq!(bytes.len(), 40);
    assert_eq!(sheet_number(&bytes), 0);
    bytes[24] = 41;
    assert_eq!(sheet_number(&bytes), 7);
}

#[test]
fn tables_9_to_13() {
    for (number, table) in limits() {
        assert_eq!(table.table_number(), number, "{table:?}");
    }
}

#[test]
fn tables_try_each_over_the_whole_before_the_next() {
    for (number, table) in orders() {
        assert_eq!(table.table_number(), number, "{table:?}");
    }
}

#[test]
fn runs_14_15_before_16() {
    let table = p4();
    let (_, mut tree) = open(&table);
    let before = tree.clone();
    assert_eq!(
        run(&table, &mut tree, by_distance(S + 1, 256)),
        Answer::refused(14)
    );
    assert_eq!(
        run(&table, &mut tree, by_distance(S, 256)),
        Answer::refused(15)
    );
    assert_eq!(
        run(&Table::default(), &mut tree, by_distance(S + 1, 256)),
        Answer::refused(9)
    );
    assert_eq!(tree, before);
    let mut none = Tree::default();
    assert_eq!(
        run(&table, &mut none, by_distance(S + 1, 0)),
        Answer::refused(14)
    );
    assert_eq!(
        run(&table, &mut none, by_distance(S, 255)),
        Answer::refused(16)
    );
    assert_eq!(run(&table, &mut tree, by_distance(S, 255)).number, 0);
}

/// 3 is tried first, whatever the table, the tree and the other limits are; in all 64 bits.
#[test]
fn runs_3_before_9() {
    let table = p4();
    let (_, mut tree) = open(&table);
    let before = tree.clone();
    let modes = [2, 3, 255, 256, 257, 65_535, 65_536, 65_537, 1 << 32];
    for mode in modes.into_iter().chain([(1 << 32) + 1, 1 << 63, u64::MAX]) {
        let asked = |allowance, budget| Limits {
            allowance,
            budget,
            mode,
        };
        for (allowance, budget) in [(0, 0), (S, 255), (S + 1, 0), (0, 256), (S + 1, 300)] {
            let limits = asked(allowance, budget);
            assert_eq!(run(&table, &mut tree, limits), Answer::refused(3));
            let none = run(&table, &mut Tree::default(), limits);
            assert_eq!(none, Answer::refused(3));
            for (_, table) in self::limits().into_iter().chain(orders()) {
                assert_eq!(run(&table, &mut tree, limits), Answer::refused(3));
            }
        }
    }
    assert_eq!(tree, before);
}

/// By share the other numbers come as they do by distance.
#[test]
fn runs_by_share_9_to_16() {
    let share = |share, budget| [by_distance(share, budget), by_share(share, budget)];
    for (number, table) in limits().into_iter().chain(orders()) {
        let (_, mut tree) = open(&table);
        let due = if number == 0 { 14 } else { number };
        for limits in share(S + 1, 256) {
            assert_eq!(run(&table, &mut tree, limits), Answer::refused(due));
        }
    }
    let (table, mut none) = (p4(), Tree::default());
    for limits in share(S + 1, 256) {
        assert_eq!(run(&table, &mut none, limits), Answer::refused(14));
    }
    for limits in share(S, 256) {
        assert_eq!(run(&table, &mut none, limits), Answer::refused(15));
    }
    for limits in share(S, 255) {
        assert_eq!(run(&table, &mut none, limits), Answer::refused(16));
        assert_eq!(run(&table, &mut open(&table).1, limits).number, 0);
    }
}

#[test]
fn a_refused_opening_gives_a_tree_without_nodes() {
    let (refused, mut tree) = open(&Table::of(&[ABOVE], &[]));
    assert_eq!(refused, Answer::refused(10));
    assert!(tree.places(&p4()).is_empty());
    assert_eq!(
        refine_by_hand(&p4(), &mut tree, &[9; 70], Act::Independence),
        Answer::refused(16)
    );
}

#[test]
fn a_tree_of_another_table_is_16() {
    let (_, mut tree) = open(&p4());
    refine_by_hand(&p4(), &mut tree, &[], Act::Fault(0));
    let other = Table::of(&[H, H, H], &[&[0, 1], &[0, 2]]);
    assert_eq!(
        run(&other, &mut tree, by_distance(0, 1)),
        Answer::refused(16)
    );
    // Fault 3 occurs nowhere, so this table gives the very same tree.
    let wider = Table::of(&[H, H, 200_000_000, 1], &[&[0, 1], &[0, 2]]);
    assert_eq!(run(&wider, &mut tree, by_distance(0, 1)).number, 0);
}

#[test]
fn by_hand_17() {
    let table = p4();
    let (_, mut tree) = open(&table);
    let hand =
        |tree: &mut Tree, place: &[u8]| refine_by_hand(&table, tree, place, Act::Fault(0)).number;
    assert_eq!(hand(&mut tree, &[0]), 17);
    assert_eq!(hand(&mut tree, &[2]), 17);
    assert_eq!(hand(&mut tree, &[0; 64]), 17);
    assert_eq!(hand(&mut tree, &[0; 65]), 17);
    assert_eq!(hand(&mut tree, &[]), 0);
    assert_eq!(hand(&mut tree, &[]), 17, "an inner place has no leaf");
    assert_eq!(hand(&mut tree, &[255]), 17);
}

#[test]
fn by_hand_18_and_20() {
    let table = p4();
    let (_, mut tree) = open(&table);
    let hand = |tree: &mut Tree, place: &[u8], act| refine_by_hand(&table, tree, place, act).number;
    assert_eq!(hand(&mut tree, &[], Act::Independence), 20);
    for fault in [3, 63, 64, 255, u64::MAX] {
        assert_eq!(hand(&mut tree, &[], Act::Fault(fault)), 20);
    }
    let mut other = tree.clone();
    assert_eq!(hand(&mut tree, &[], Act::Fault(0)), 0);
    assert_eq!(hand(&mut tree, &[1], Act::Fault(0)), 18, "no ways remain");
    assert_eq!(hand(&mut tree, &[1], Act::Common), 18);
    assert_eq!(hand(&mut tree, &[0], Act::Fault(0)), 20, "fault 0 is fixed");
    assert_eq!(hand(&mut tree, &[0], Act::Common), 20, "{{1}} {{2}}");
    assert_eq!(hand(&mut tree, &[0], Act::Independence), 0);
    assert_eq!(hand(&mut other, &[], Act::Common), 0);
    assert_eq!(hand(&mut other, &[0], Act::Common), 18, "one way");
    assert_eq!(
        hand(&mut other, &[1], Act::Fault(0)),
        20,
        "fault 0 is taken out"
    );
    assert_eq!(hand(&mut other, &[1], Act::Common), 20);
}

/// A tree with all 255 refinements, an open leaf and a closed one.
fn full_tree() -> (Table, Tree) {
    let pairs: Vec<[i64; 2]> = (0..24)
        .flat_map(|a| (1..5).map(move |d| [a, (a + d) % 24]))
        .collect();
    let ways: Vec<&[i64]> = pairs.iter().map(|pair| &pair[..]).collect();
    let table = Table::of(&[H; 24], &ways);
    let (_, mut tree) = open(&table);
    assert_eq!(run(&table, &mut tree, by_distance(0, 255)).count, 255);
    (table, tree)
}

#[test]
fn by_hand_19() {
    use reference::tree::State;
    let (table, mut tree) = full_tree();
    let before = tree.clone();
    let entries = tree.places(&table);
    let open = entries
        .iter()
        .find(|entry| entry.state == State::Open)
        .expect("an open leaf");
    let closed = entries
        .iter()
        .find(|entry| entry.state == State::Closed)
        .expect("a closed leaf");
    assert_eq!(
        refine_by_hand(&table, &mut tree, &open.place, Act::Fault(64)),
        Answer::refused(19)
    );
    assert_eq!(
        refine_by_hand(&table, &mut tree, &closed.place, Act::Fault(64)),
        Answer::refused(18)
    );
    assert_eq!(
        refine_by_hand(&table, &mut tree, &[], Act::Fault(64)),
        Answer::refused(17)
    );
    for (place, number) in [(&open.place[..], 19), (&closed.place, 18), (&[], 17)] {
        let answer = refine_by_hand(&table, &mut tree, place, Act::Common);
        assert_eq!(answer, Answer::refused(number));
    }
    assert_eq!(tree, before);
}

#[test]
fn a_place_of_length_64_is_legal() {
    // Fault 0 last, which the ways name in different senses: every other fault is fixed away one by one, a level each.
    let all: Vec<i64> = (0..64).collect();
    let first_absent = [&[!0], &all[1..]].concat();
    let table = Table::of(&[S as u32 - 1; 64], &[&all, &first_absent]);
    let (_, mut tree) = open(&table);
    let mut place = Vec::new();
    for fault in (1..64).rev().chain([0]) {
        let answer = refine_by_hand(&table, &mut tree, &place, Act::Fault(fault));
        assert_eq!(answer.number, 0, "fault {fault}");
        place.push(0);
    }
    assert_eq!(place.len(), 64);
    assert_eq!(
        refine_by_hand(&table, &mut tree, &place, Act::Fault(0)).number,
        18
    );
    place.push(0);
    assert_eq!(
        refine_by_hand(&table, &mut tree, &place, Act::Fault(0)).number,
        17
    );
}

#[test]
fn writing() {
    assert_eq!(with_lists(|_| {}), 0);
    assert_eq!(with_lists(|lists| lists.weights.clear()), 2);
    assert_eq!(with_lists(|lists| lists.weights = vec![H; 65]), 2);
    assert_eq!(with_lists(|lists| lists.cues.clear()), 2);
    assert_eq!(with_lists(|lists| lists.counts.clear()), 2);
    assert_eq!(with_lists(|lists| lists.cues = (1..26).collect()), 2);
    assert_eq!(with_lists(|lists| lists.counts = vec![0; 25]), 2);
    assert_eq!(with_lists(|lists| lists.mode = 1), 0);
    assert_eq!(with_lists(|lists| lists.mode = 2), 3);
    assert_eq!(with_lists(|lists| lists.mode = 256), 3);
    assert_eq!(with_lists(|lists| lists.mode = 65_535), 3);
    assert_eq!(with_lists(|lists| lists.cues = vec![0, 1]), 5);
    assert_eq!(with_lists(|lists| lists.cues = vec![7, 7]), 5);
    assert_eq!(with_lists(|lists| lists.counts = vec![2, 129]), 6);
    assert_eq!(with_lists(|lists| lists.counts = vec![2, 128]), 21);
    assert_eq!(with_lists(|lists| lists.weights[1] = ABOVE), 10);
    assert_eq!(with_lists(|lists| lists.present[1] = 8), 12);
    assert_eq!(with_lists(|lists| lists.absent[1] = 4), 13);
    assert_eq!(with_lists(|lists| lists.allowance = S + 1), 14);
    assert_eq!(with_lists(|lists| lists.budget = 256), 15);
    // Within the limits if they were cut to the widths of their fields.
    assert_eq!(with_lists(|lists| lists.allowance = 1 << 32), 14);
    assert_eq!(with_lists(|lists| lists.budget = 65_576), 15);
    assert_eq!(with_lists(|lists| lists.mode = 65_536), 3);
    assert_eq!(with_lists(|lists| lists.mode = (1 << 32) + 1), 3);
    assert_eq!(with_lists(|lists| lists.cues.push(10)), 21);
    assert_eq!(with_lists(|lists| lists.counts.push(0)), 21);
    assert_eq!(with_lists(|lists| lists.present.push(0)), 21);
    assert_eq!(with_lists(|lists| lists.absent.truncate(1)), 21);
    assert_eq!(with_lists(|lists| lists.counts = vec![1, 0]), 21);
    assert_eq!(writing_number(&sheet(), 71), 22);
    assert_eq!(writing_number(&sheet(), 72), 0);
}

/// 3 directly after 2: before all that is judged of cues, weights, ways and limits.
#[test]
fn writing_tries_3_after_2() {
    let with = |change: fn(&mut Sheet)| {
        with_lists(|lists| {
            lists.mode = 2;
            change(lists);
        })
    };
    assert_eq!(with(|lists| lists.weights.clear()), 2);
    assert_eq!(with(|lists| lists.cues.clear()), 2);
    assert_eq!(with(|lists| lists.counts.clear()), 2);
    assert_eq!(with(|lists| lists.cues = vec![0, 9]), 3);
    assert_eq!(with(|lists| lists.counts = vec![2, 129]), 3);
    assert_eq!(with(|lists| lists.weights[1] = ABOVE), 3);
    assert_eq!(with(|lists| lists.present[1] = 8), 3);
    assert_eq!(with(|lists| lists.absent[1] = 4), 3);
    assert_eq!(with(|lists| lists.allowance = S + 1), 3);
    assert_eq!(with(|lists| lists.budget = 256), 3);
    assert_eq!(with(|lists| lists.counts.push(0)), 3);
    let mut lists = sheet();
    lists.mode = 2;
    assert_eq!(writing_number(&lists, 0), 3);
}

#[test]
fn writing_judges_rows_beyond_what_the_cues_count() {
    assert_eq!(with_lists(|lists| lists.present.push(8)), 12);
    assert_eq!(with_lists(|lists| lists.absent.push(8)), 12);
    // A word that one list lacks is 0, so it contradicts nothing.
    assert_eq!(with_lists(|lists| lists.absent.push(4)), 21);
    assert_eq!(
        with_lists(|lists| {
            lists.present.push(4);
            lists.absent.push(4);
        }),
        13
    );
}

#[test]
fn refused_writing_leaves_the_space() {
    let mut space = [0xAA; 71];
    assert_eq!(write(&sheet(), &mut space), Answer::refused(22));
    assert_eq!(space, [0xAA; 71]);
}
