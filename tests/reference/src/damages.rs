//! Trees with one number damaged, in use or blank, each of which 16 refuses.
//!
//! One number of a tree that a table gives, changed to another value, is no tree of that table,
//! whatever the series, because each number follows from all others and the table:
//! - the records in use: the first blank one among the 511 ends them; a blank one is all zeros;
//! - a parent: the root's is 0, and a child has its sibling's;
//! - a kind: as many nodes are inner as there are pairs of children, so one that is a leaf stays
//!   one; by a fault the left child has one fault more fixed than the node, by the common part the
//!   right child has more faults left out, by independence neither;
//! - a fault: the one that the left child has fixed more, else 0;
//! - a left link: the pair of children whose parent this record is, else 0;
//! - ways, fixed faults and faults left out: by those of the parent, what was done there and the
//!   table, which gives the root's;
//! - the own interval, and whether a leaf is open: by the table and the ways;
//! - the interval: by the own one, what was done and the children's.

use crate::paper::ring;
use crate::random::Random;
use crate::run::pick;
use crate::scripts::{lined, Call, Damage, Line, Script};
use crate::tree::{open, State};
use crate::vectors::make;
use crate::{by_distance, by_share, Act, Limits, Table, Tree, S};

const SEED: u64 = 2016;
/// So many refinements has the small tree.
const REFINED: u64 = 5;
const RECORDS: u64 = 511;
const FIELDS: u64 = 14;
/// The field number of the count of records in use, which is in no record.
const USED: u64 = FIELDS;
/// The field of a record that has the low end of its interval.
const LOW: u64 = 10;

/// A small tree damaged in each record in use and in blank ones, and a full tree in some.
pub fn damages() -> Vec<Script> {
    let mut random = Random::new(SEED);
    let table = with_every_state(&mut random);
    let in_use = 2 * REFINED + 1;
    let mut records: Vec<u64> = (0..=in_use + 1).collect();
    records.push(RECORDS - 1);
    let small = damaged_everywhere(&mut random, table, REFINED, &records);
    let records = [0, 1, 2, 254, 255, RECORDS - 2, RECORDS - 1];
    let full = damaged_everywhere(&mut random, ring(), 255, &records);
    vec![small, full]
}

/// A table of which some refinements give inner nodes of all three kinds and leaves of both states.
fn with_every_state(random: &mut Random) -> Table {
    loop {
        let table = random.table_within(8, 10);
        let mut tree = open(&table).1;
        let made = make(&table, &mut tree, &Call::Run(by_distance(0, REFINED))).count;
        let entries = tree.places(&table);
        let stands = |state: fn(&State) -> bool| entries.iter().any(|entry| state(&entry.state));
        if made == REFINED
            && stands(|state| *state == State::Open)
            && stands(|state| *state == State::Closed)
            && stands(|state| *state == State::Refined(Act::Independence))
            && stands(|state| *state == State::Refined(Act::Common))
            && stands(|state| matches!(state, State::Refined(Act::Fault(_))))
        {
            return table;
        }
    }
}

/// The tree after a run, and all fields of these records and the count damaged, for a hand refinement
/// and for a run. Where nothing is added, nothing is refused by 16.
fn damaged_everywhere(random: &mut Random, table: Table, refined: u64, records: &[u64]) -> Script {
    let grow = Call::Run(by_distance(0, refined));
    let mut tree = open(&table).1;
    make(&table, &mut tree, &grow);
    let calls = [next_by_hand(&table, &tree), Call::Run(by_distance(0, 1))];
    let mut lines = vec![Line::Call(grow), Line::Show];
    for damage in all_fields(random, records) {
        if damage.by == 0 {
            lines.push(Line::Damaged(damage, Call::Run(by_distance(0, 0))));
        } else {
            lines.extend(calls.iter().map(|call| Line::Damaged(damage, call.clone())));
        }
    }
    // The order of refusals: 3, 14 and 15 before 16, and 16 before 17 to 20.
    let low_end = Damage {
        record: 0,
        field: LOW,
        by: 1,
    };
    let order = [
        Call::Run(Limits {
            mode: 2,
            ..by_distance(S + 1, 256)
        }),
        Call::Run(by_distance(S + 1, 256)),
        Call::Run(by_distance(0, 256)),
        Call::Run(by_share(S, 0)),
        Call::Hand(vec![0; 65], Act::Fault(0)),
        Call::Hand(vec![], Act::Fault(64)),
    ];
    lines.extend(order.into_iter().map(|call| Line::Damaged(low_end, call)));
    lines.push(Line::Show);
    lines.extend(calls.iter().cloned().map(Line::Try));
    let unchanged = Damage { by: 0, ..low_end };
    lines.extend(calls.map(|call| Line::Damaged(unchanged, call)));
    lines.push(Line::Show);
    lined(table, lines)
}

/// Every field of these records as it is, changed by 1 either way and by any other number, and the count by several.
fn all_fields(random: &mut Random, records: &[u64]) -> Vec<Damage> {
    let mut damages = Vec::new();
    for &record in records {
        for field in 0..FIELDS {
            let any = random.draw().max(2);
            damages.extend([0, 1, u64::MAX, any].map(|by| Damage { record, field, by }));
        }
    }
    let others = [0, 1, 2, u64::MAX, u64::MAX - 1, RECORDS, 1 << 63];
    damages.extend(others.map(|by| Damage {
        record: 0,
        field: USED,
        by,
    }));
    damages
}

/// What a run would do next, by hand; of a full tree at its first open leaf.
fn next_by_hand(table: &Table, tree: &Tree) -> Call {
    let entries = tree.places(table);
    let leaf = entries.iter().find(|entry| entry.state == State::Open);
    let leaf = leaf.expect("an open leaf");
    Call::Hand(leaf.place.clone(), pick(&leaf.ways))
}
