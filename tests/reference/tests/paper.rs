//! The figures of the rules: cases P1 to P9, the figures that are easy to get wrong,
//! and the whole sheet for the program.

use reference::leaf::Interval;
use reference::paper::{
    cases, chain, done_and_full, equal_ways, most_named, one_division, one_pass, own_high,
    own_interval, p3, p4, p6, p7, p8, ring, singles, skipped, stairs, whole_sheet, widest,
    with_empty_way, H,
};
use reference::report::report;
use reference::run::run;
use reference::sheet::{cue_at, decode, encode, read, write};
use reference::table::Count;
use reference::tree::{first_widest, open, refine_by_hand, State};
use reference::{by_distance, Act, Answer, Table, DONE, FULL, MET, S, SPENT};

/// What an opening or a hand refinement answers.
fn answer(interval: (u64, u64), count: u64) -> Answer {
    Answer::accepted(
        Interval {
            low: interval.0,
            high: interval.1,
        },
        count,
    )
}

/// What a run answers.
fn ended(interval: (u64, u64), count: u64, verdict: u64, figure: u64) -> Answer {
    Answer {
        verdict,
        figure,
        ..answer(interval, count)
    }
}

/// Opens the table and makes one run.
fn one_run(table: &Table, allowance: u64, budget: u64) -> Answer {
    let (_, mut tree) = open(table);
    run(table, &mut tree, by_distance(allowance, budget))
}

#[test]
fn paper() {
    for case in cases() {
        let table = &case.table;
        let count = Count::new(&table.weights);
        let (opened, mut tree) = open(table);
        assert_eq!(opened, answer(case.root, 0), "{}", case.name);
        let root = &tree.places(table)[0];
        assert_eq!(root.state == State::Open, case.open, "{}", case.name);
        assert!(
            count.encloses(case.root.0, case.root.1, &table.ways()),
            "{}",
            case.name
        );
        for (place, act, after) in case.hand {
            assert_eq!(
                refine_by_hand(table, &mut tree, &place, act),
                answer(after, 1),
                "{}",
                case.name
            );
            assert!(
                count.encloses(after.0, after.1, &table.ways()),
                "{}",
                case.name
            );
        }
    }
}

#[test]
fn paper_runs() {
    let p3 = p3();
    assert_eq!(
        one_run(&p3, 0, 255),
        ended((111_111_110, 111_111_111), 0, DONE, 111_111_110)
    );
    assert_eq!(
        one_run(&p3, 1, 255),
        ended((111_111_110, 111_111_111), 0, MET, 111_111_110)
    );
    assert_eq!(
        one_run(&p3, 0, 0),
        ended((111_111_110, 111_111_111), 0, DONE, 111_111_110)
    );
}

#[test]
fn a_way_takes_one_pass_with_both_senses_mixed() {
    assert_eq!(open(&one_pass()).0, answer((49_999_999, 50_000_000), 0));
}

#[test]
fn kept_is_judged_by_every_kept_way_and_no_skipped_one() {
    assert_eq!(open(&skipped()).0.low, 625_000_000);
}

#[test]
fn groups_follow_chains() {
    let table = chain();
    let done = one_run(&table, 0, 255);
    assert_eq!((done.low, done.high), (S, S));
    assert!(table.encloses(S, S, &table.ways()));
    let (_, mut tree) = open(&table);
    assert_eq!(
        refine_by_hand(&table, &mut tree, &[], Act::Independence).number,
        20
    );
}

#[test]
fn widest_is_the_leafs_own_width() {
    assert_eq!(
        one_run(&widest(), 25_000_000, 255),
        ended((156_250_000, 203_125_000), 2, MET, 179_687_500)
    );
}

#[test]
fn an_inner_node_keeps_its_own_leaf_interval() {
    let after = one_run(&own_interval(), 0, 1);
    assert_eq!((after.low, after.count), (750_000_000, 1));
}

#[test]
fn an_inner_node_keeps_its_own_high_end() {
    let table = own_high();
    let (opened, mut tree) = open(&table);
    assert_eq!(opened, answer((128_900_954, 612_759_200), 0));
    let after = refine_by_hand(&table, &mut tree, &[], Act::Fault(0));
    assert_eq!(after, answer((378_640_398, 612_759_200), 1));
}

#[test]
fn one_division_for_each_node() {
    assert_eq!(
        one_run(&one_division(), 0, 255),
        ended((500_000_000, 500_000_000), 1, MET, 500_000_000)
    );
}

#[test]
fn empty_ways_and_no_ways() {
    let with_empty = with_empty_way();
    assert_eq!(one_run(&with_empty, 0, 255), ended((S, S), 0, MET, S));
    assert_eq!(
        open(&with_empty).1.places(&with_empty)[0].state,
        State::Closed
    );
    assert_eq!(
        one_run(&Table::of(&[H], &[]), 0, 255),
        ended((0, 0), 0, MET, 0)
    );
}

#[test]
fn of_equal_ways_one_counts_everywhere() {
    let half = (500_000_000, 500_000_000);
    assert_eq!(open(&equal_ways()).0, answer(half, 0));
    let most = most_named();
    let (_, mut tree) = open(&most);
    run(&most, &mut tree, by_distance(0, 1));
    assert_eq!(tree.places(&most)[0].state, State::Refined(Act::Fault(0)));
}

#[test]
fn stops_are_looked_for_after_the_last_budgeted_refinement() {
    assert_eq!(one_run(&p6(), 0, 1), ended((S, S), 1, MET, S));
    assert_eq!(
        one_run(&p8(), 0, 1),
        ended((555_555_555, 555_555_556), 1, DONE, 555_555_555)
    );
    let p4 = p4();
    assert_eq!(
        one_run(&p4, 0, 1),
        ended((300_000_000, 350_000_000), 1, SPENT, 325_000_000)
    );
    assert_eq!(
        one_run(&p4, 0, 0),
        ended((250_000_000, 350_000_000), 0, SPENT, 300_000_000)
    );
}

#[test]
fn full_counts_the_whole_tree_and_spent_this_run() {
    let table = ring();
    let (_, mut tree) = open(&table);
    let first = run(&table, &mut tree, by_distance(0, 254));
    assert_eq!((first.count, first.verdict), (254, SPENT));
    let second = run(&table, &mut tree, by_distance(0, 255));
    assert_eq!((second.count, second.verdict), (1, FULL));
    let third = run(&table, &mut tree, by_distance(0, 0));
    assert_eq!((third.count, third.verdict), (0, FULL));
    assert_eq!(tree.refinements(), 255);
    assert_eq!(tree.places(&table).len(), 511);
}

#[test]
fn done_comes_before_full() {
    let table = done_and_full();
    let (_, mut tree) = open(&table);
    let first = run(&table, &mut tree, by_distance(0, 254));
    assert_eq!(
        first,
        ended((931_355_327, 931_371_430), 254, SPENT, 931_363_378)
    );
    let after = (931_355_327, 931_355_348);
    assert_eq!(
        run(&table, &mut tree, by_distance(0, 1)),
        ended(after, 1, DONE, 931_355_337)
    );
    assert_eq!(tree.refinements(), 255);
    for budget in [0, 1, 255] {
        assert_eq!(
            run(&table, &mut tree, by_distance(0, budget)),
            ended(after, 0, DONE, 931_355_337)
        );
    }
}

#[test]
fn by_hand_a_fault_may_be_used_where_the_ways_fall_apart() {
    let table = p7();
    let (_, mut tree) = open(&table);
    let after = refine_by_hand(&table, &mut tree, &[], Act::Fault(1));
    assert_eq!((after.number, after.count), (0, 1));
    assert_eq!((after.low, after.high), (840_000_000, 840_000_000));
}

#[test]
fn the_highest_sizes_are_accepted() {
    let table = stairs();
    assert_eq!(table.table_number(), 0);
    assert_eq!(open(&table).0, answer((S, S), 0));
    assert_eq!(open(&singles()).0.high, S);
}

#[test]
fn the_page_is_told_the_first_widest_open_leaf() {
    assert_eq!(first_widest(&[]), None);
    assert_eq!(
        first_widest(&[(false, 0, 9), (true, 5, 5), (true, 9, 1)]),
        None
    );
    assert_eq!(
        first_widest(&[
            (true, 1, 2),
            (false, 0, 9),
            (true, 3, 6),
            (true, 0, 3),
            (true, u64::MAX, 0)
        ]),
        Some(2)
    );
}

#[test]
fn the_whole_sheet_of_the_paper() {
    // Set down byte by byte, so that reading and writing cannot share a mistake.
    let mut bytes = vec![3, 0, 2, 0, 0x80, 0x96, 0x98, 0x00, 40, 0, 0, 0];
    bytes.extend([7, 0, 2, 0, 40, 0, 0, 0]);
    bytes.extend([9, 0, 0, 0, 72, 0, 0, 0]);
    bytes.extend([
        0x00, 0x65, 0xCD, 0x1D, 0x00, 0x65, 0xCD, 0x1D, 0x00, 0xC2, 0xEB, 0x0B,
    ]);
    for word in [3, 0, 5, 0] {
        bytes.extend([word, 0, 0, 0, 0, 0, 0, 0]);
    }
    assert_eq!(bytes.len(), 72);
    assert_eq!(encode(&whole_sheet(40)), bytes);
    assert_eq!(decode(&bytes), Ok(whole_sheet(40)));
    assert_eq!(read(&bytes), answer((0, S), 0));

    let mut space = [0xAA; 80];
    assert_eq!(write(&whole_sheet(40), &mut space), answer((0, S), 72));
    assert_eq!(space[..72], bytes[..]);
    assert_eq!(space[72..], [0xAA; 8]);

    let text = "cue low high steps verdict\n7 300000000 300000000 2 met\n9 0 0 0 met\n";
    assert_eq!(report(&bytes), text);
    let text = "cue low high steps verdict\n7 300000000 350000000 1 spent\n9 0 0 0 met\n";
    assert_eq!(report(&encode(&whole_sheet(1))), text);
}

#[test]
fn a_reader_hands_over_each_cue_and_then_says_the_end() {
    let bytes = encode(&whole_sheet(40));
    let first = cue_at(&bytes, 0);
    assert_eq!(
        (
            first.number,
            first.cue,
            first.ways,
            first.body,
            first.ended,
            first.position
        ),
        (0, 7, 2, 40, false, 1)
    );
    let second = cue_at(&bytes, first.position);
    assert_eq!(
        (
            second.cue,
            second.ways,
            second.body,
            second.ended,
            second.position
        ),
        (9, 0, 72, false, 2)
    );
    for position in [2, 3, usize::MAX] {
        let past = cue_at(&bytes, position);
        assert_eq!(
            (past.number, past.cue, past.ways, past.body, past.ended),
            (0, 0, 0, 0, true)
        );
        assert_eq!(past.position, position);
    }
    let refused = cue_at(&bytes[..71], 0);
    assert_eq!(
        (
            refused.number,
            refused.cue,
            refused.ways,
            refused.ended,
            refused.position
        ),
        (8, 0, 0, false, 0)
    );
    assert_eq!(cue_at(&bytes[..71], 9).number, 8);
}
