//! Tables written by hand: the rules' cases P1 to P9 with the figures typed from them, tables
//! that are easy to get wrong, the largest ones, and those at a limit with their numbers.

use crate::sheet::Sheet;
use crate::{Act, Table, DISTANCE, MOST_FAULTS, MOST_WAYS, S};

pub const H: u32 = 500_000_000;
pub const Q: u32 = 250_000_000;
pub const THIRD: u32 = 333_333_333;
const TOP: u32 = S as u32;
const ABOVE: u32 = TOP + 1;

/// One case: the root leaf and whether it is open, then refinements by hand with the root after each.
pub struct Case {
    pub name: &'static str,
    pub table: Table,
    pub root: (u64, u64),
    pub open: bool,
    pub hand: Vec<(Vec<u8>, Act, (u64, u64))>,
}

pub fn p3() -> Table {
    Table::of(&[THIRD; 2], &[&[0, 1]])
}

pub fn p4() -> Table {
    Table::of(&[H, H, 200_000_000], &[&[0, 1], &[0, 2]])
}

pub fn p6() -> Table {
    Table::of(&[H], &[&[0], &[!0]])
}

pub fn p7() -> Table {
    Table::of(&[600_000_000; 2], &[&[0], &[1]])
}

pub fn p8() -> Table {
    Table::of(&[THIRD; 2], &[&[0], &[1]])
}

/// P1 to P9.
pub fn cases() -> Vec<Case> {
    let case = |name, table, root, open, hand| Case {
        name,
        table,
        root,
        open,
        hand,
    };
    let root_of_p4 = (250_000_000, 350_000_000);
    let by_fault_0 = (vec![], Act::Fault(0), (300_000_000, 350_000_000));
    let then_apart = (vec![0], Act::Independence, (300_000_000, 300_000_000));
    let by_fault = |after| vec![(vec![], Act::Fault(0), after)];
    let apart = |after| vec![(vec![], Act::Independence, after)];
    vec![
        case("P1", Table::of(&[H], &[]), (0, 0), false, vec![]),
        case("P2", Table::of(&[H], &[&[]]), (S, S), false, vec![]),
        case("P3", p3(), (111_111_110, 111_111_111), false, vec![]),
        case("P4", p4(), root_of_p4, true, vec![by_fault_0.clone()]),
        case("P5", p4(), root_of_p4, true, vec![by_fault_0, then_apart]),
        case("P6", p6(), (500_000_000, S), true, by_fault((S, S))),
        case(
            "P7",
            p7(),
            (840_000_000, S),
            true,
            apart((840_000_000, 840_000_000)),
        ),
        case(
            "P8",
            p8(),
            (555_555_555, 666_666_666),
            true,
            apart((555_555_555, 555_555_556)),
        ),
        case(
            "P9",
            Table::of(&[0, TOP], &[&[0], &[1]]),
            (S, S),
            false,
            vec![],
        ),
    ]
}

// Figures that are easy to get wrong

/// A way's chance takes one pass over the faults, both senses mixed.
pub fn one_pass() -> Table {
    Table::of(&[Q, 200_000_000, THIRD], &[&[1, 2, !0]])
}

/// The second way shares with the first and is skipped; the third shares with the second alone.
pub fn skipped() -> Table {
    Table::of(&[H; 3], &[&[1], &[0, !1], &[0, 2]])
}

/// The first two ways hang together through the third.
pub fn chain() -> Table {
    Table::of(&[H; 2], &[&[0], &[1], &[!0, !1]])
}

/// The widest leaf is so by its own width, not weighted by its path.
pub fn widest() -> Table {
    Table::of(&[Q; 4], &[&[0, 3], &[1, 2], &[1, 3], &[0, 2]])
}

/// The root's own leaf interval is better than what its children combine to.
pub fn own_interval() -> Table {
    Table::of(&[H; 3], &[&[0], &[!0, !1, 2], &[1]])
}

/// The same at the high end, where rounding lifts what the children combine to by one.
pub fn own_high() -> Table {
    Table::of(&[483_858_245; 3], &[&[0, !1, !2], &[1]])
}

/// One division for a whole node: one for each product would widen it.
pub fn one_division() -> Table {
    Table::of(&[1, H], &[&[!0, !1], &[0, 1]])
}

pub fn with_empty_way() -> Table {
    Table::of(&[H, H], &[&[0], &[], &[1]])
}

pub fn equal_ways() -> Table {
    Table::of(&[H], &[&[0], &[0]])
}

/// Fault 0 is named in most ways: of the three ways {1, 2, 3} one stays, and all three would be most for fault 1.
pub fn most_named() -> Table {
    let thrice: [&[i64]; 3] = [&[1, 2, 3]; 3];
    let pairs: [&[i64]; 3] = [&[0, 1], &[0, 2], &[0, 3]];
    Table::of(&[H; 4], &[pairs, thrice].concat())
}

/// A table that takes all 255 refinements: 24 faults in a ring, each paired with the next four.
pub fn ring() -> Table {
    paired(24, 4)
}

/// So many faults in a ring, each paired with so many that come next.
fn paired(faults: i64, next: i64) -> Table {
    let pairs: Vec<[i64; 2]> = (0..faults)
        .flat_map(|a| (1..=next).map(move |d| [a, (a + d) % faults]))
        .collect();
    let ways: Vec<&[i64]> = pairs.iter().map(|pair| &pair[..]).collect();
    Table::of(&vec![THIRD / 3; faults as usize], &ways)
}

/// Another, with 12 faults, so that it can be counted over all assignments: fours in a ring.
pub fn fours() -> Table {
    let fours: Vec<[i64; 4]> = [[0, 1, 4, 7], [0, 3, 5, 7]]
        .iter()
        .flat_map(|steps| (0..12).map(move |a| steps.map(|step| (a + step) % 12)))
        .collect();
    let ways: Vec<&[i64]> = fours.iter().map(|four| &four[..]).collect();
    Table::of(&[THIRD; 12], &ways)
}

/// The 255th refinement closes the last open leaf, and the root's ends still differ: a run is done, though the tree is
/// full. Each of the faults 19 to 33 is a way of its own; 0 to 18 hang together in pairs.
pub fn done_and_full() -> Table {
    let apart = (19..34).map(|fault| vec![fault]);
    let next = (0..18).map(|fault| vec![fault, fault + 1]);
    let far = [
        [0, 3],
        [1, 10],
        [2, 17],
        [3, 5],
        [4, 12],
        [0, 5],
        [7, 14],
        [2, 8],
        [10, 16],
        [4, 11],
        [13, 18],
        [6, 14],
        [13, 15],
        [1, 16],
        [8, 17],
        [15, 18],
    ];
    let pairs = next.chain(far.iter().map(|pair| pair.to_vec()));
    let ways: Vec<Vec<i64>> = apart.chain(pairs).collect();
    let ways: Vec<&[i64]> = ways.iter().map(|way| &way[..]).collect();
    let mut weights: Vec<u32> = (0..19).map(|i| THIRD + 1_234_567 * i).collect();
    weights.resize(MOST_FAULTS, 1_234_567);
    Table::of(&weights, &ways)
}

// Tables of the largest size

/// It takes all 255 refinements too: 64 faults in a ring, each paired with the next two, which is 128 ways.
pub fn largest_ring() -> Table {
    paired(64, 2)
}

/// Every fault is certain, and way i names the faults from i on, twice over: of 128 ways one stays.
pub fn stairs() -> Table {
    let all: Vec<i64> = (0..64).collect();
    let ways: Vec<&[i64]> = (0..128).map(|i| &all[i % 64..]).collect();
    Table::of(&[TOP; MOST_FAULTS], &ways)
}

/// Every way names one fault: all high chances together are far above 32 bits.
pub fn singles() -> Table {
    let apart: Vec<[i64; 1]> = (0..128).map(|i| [i % 64]).collect();
    let ways: Vec<&[i64]> = apart.iter().map(|way| &way[..]).collect();
    Table::of(&[999_999_999; MOST_FAULTS], &ways)
}

/// Every way names every fault of 64, present or absent by a pattern of its own.
pub fn every_fault_named(weight: u32) -> Table {
    let patterns = (0..MOST_WAYS as u64).map(|i| match i {
        0 => u64::MAX,
        1 => 0,
        _ => i.wrapping_mul(0x9E37_79B9_7F4A_7C15),
    });
    let present: Vec<u64> = patterns.collect();
    Table {
        weights: vec![weight; MOST_FAULTS],
        absent: present.iter().map(|word| !word).collect(),
        present,
    }
}

/// Tables above, none of P1 to P9, that are opened alone too.
pub fn easy_to_get_wrong() -> Vec<Table> {
    vec![
        one_pass(),
        skipped(),
        chain(),
        widest(),
        own_interval(),
        own_high(),
        one_division(),
        with_empty_way(),
        equal_ways(),
        most_named(),
        ring(),
        fours(),
        done_and_full(),
        stairs(),
        singles(),
        every_fault_named(TOP),
        every_fault_named(H),
        every_fault_named(999_999_999),
    ]
}

/// A table whose lists of words need not agree.
fn uneven(weights: &[u32], present: &[u64], absent: &[u64]) -> Table {
    Table {
        weights: weights.to_vec(),
        present: present.to_vec(),
        absent: absent.to_vec(),
    }
}

/// Sizes and weights at their limits and past them, each with its number.
pub fn limits() -> Vec<(u64, Table)> {
    vec![
        (9, Table::of(&[], &[])),
        (0, Table::of(&[H; 64], &[])),
        (9, Table::of(&[H; 65], &[])),
        (0, Table::of(&[TOP], &[])),
        (0, Table::of(&[TOP], &[&[0]])),
        (10, Table::of(&[ABOVE], &[])),
        (10, Table::of(&[H, H, ABOVE], &[&[0]])),
        (10, Table::of(&[u32::MAX], &[&[0]])),
        (0, Table::of(&[H], &[&[0][..]; 128])),
        (11, Table::of(&[H], &[&[0][..]; 129])),
        (11, uneven(&[H], &[1], &[])),
        (11, uneven(&[H], &[], &[1])),
        (11, uneven(&[H], &[0; 129], &[0; 128])),
        (11, uneven(&[H], &[0; 128], &[0; 129])),
        (12, Table::of(&[H], &[&[1]])),
        (12, Table::of(&[H], &[&[!63]])),
        (12, Table::of(&[H; 63], &[&[63]])),
        (0, Table::of(&[H; 64], &[&[63]])),
        (13, Table::of(&[H], &[&[0, !0]])),
        (13, Table::of(&[H; 64], &[&[63, !63]])),
    ]
}

/// Tables that several numbers concern, each with the first of them.
pub fn orders() -> Vec<(u64, Table)> {
    vec![
        (9, Table::of(&[ABOVE; 65], &[])),
        (9, Table::of(&[], &[&[0][..]; 129])),
        (9, Table::of(&[], &[&[0]])),
        (9, uneven(&[], &[1], &[])),
        (9, Table::of(&[H; 65], &[&[0, !0]])),
        (10, Table::of(&[ABOVE], &[&[1][..]; 129])),
        (10, uneven(&[ABOVE], &[1], &[])),
        (10, Table::of(&[ABOVE], &[&[1]])),
        (10, Table::of(&[ABOVE], &[&[0, !0]])),
        (11, Table::of(&[H], &[&[1][..]; 129])),
        (11, Table::of(&[H], &[&[0, !0][..]; 129])),
        (11, uneven(&[H], &[2], &[])),
        (11, uneven(&[H], &[1, 1], &[1])),
        // 13 in the first way and 12 in the second, and both in one way.
        (12, Table::of(&[H], &[&[0, !0], &[!1]])),
        (12, Table::of(&[H], &[&[1, !1]])),
    ]
}

/// The rules' whole sheet, 3 faults and 2 cues with an allowance of 10000000, with this budget; its own is 40.
pub fn whole_sheet(budget: u64) -> Sheet {
    Sheet {
        weights: vec![500_000_000, 500_000_000, 200_000_000],
        cues: vec![7, 9],
        counts: vec![2, 0],
        present: vec![3, 5],
        absent: vec![0, 0],
        allowance: 10_000_000,
        budget,
        mode: DISTANCE,
    }
}
