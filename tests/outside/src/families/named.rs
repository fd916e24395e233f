//! Figures that are easy to get wrong, each by name, and the order of the refusals of calls on trees.

use super::{make, run_told, scripts::play, told_number, Damage};
use crate::bench::Bench;
use crate::session::{Outcome, Session};
use crate::step::{Field, Step};
use reference::figures::typed;
use reference::paper::{every_fault_named, most_named, orders as refusals, p4, ring, singles, stairs, whole_sheet, H};
use reference::scripts::{deep, full};
use reference::sheet::encode;
use reference::{by_distance, by_share, Act, Limits, Table, FULL, MET, NONE, S, SPENT};

pub fn easy_to_get_wrong(bench: &mut Bench) -> Outcome {
    for (name, table, root, calls) in typed() {
        bench.case(name, |session, _| {
            session.opened(table)?;
            session.told(0, root, 0)?;
            for (call, answer) in calls {
                make(session, call)?;
                session.make(Step::Told(answer.map(Some)))?;
            }
            Ok(())
        })?;
    }
    let largest = [
        ("certain faults, 64 of them", stairs(), (S, S)),
        ("the sum is more than 32 bits", singles(), (999_999_999, S)),
        ("all 64 faults in every way", every_fault_named(S as u32), (S, S)),
    ];
    for (name, table, root) in largest {
        bench.case(name, |session, _| {
            session.opened(table)?;
            session.told(0, root, 0)
        })?;
    }
    for weight in [H, 999_999_999, 1] {
        bench.case("all 64 faults in every way, grown", |session, _| {
            session.opened(every_fault_named(weight))?;
            session.run(by_distance(0, 2))
        })?;
    }
    bench.case("of equal ways one counts in what is named most", |session, _| {
        session.opened(most_named())?;
        session.run(by_distance(0, 1))?;
        // The run fixed fault 0 on both sides: present it leaves {1} {2} {3}, of which none names fault 0.
        session.refine(vec![0], Act::Fault(0))?;
        told_number(session, 20)?;
        session.refine(vec![0], Act::Fault(1))?;
        told_number(session, 0)
    })?;
    bench.case("full counts the tree, spent the run", |session, _| {
        session.opened(ring())?;
        run_told(session, by_distance(0, 254), 0, SPENT)?;
        run_told(session, by_distance(0, 255), 0, FULL)?;
        run_told(session, by_distance(0, 0), 0, FULL)?;
        run_told(session, by_distance(S, 0), 0, MET)
    })?;
    bench.case("a place of length 64, and of 65", |session, _| play(session, deep()))?;
    bench.case("17 and 18 before 19, 20 after it", |session, _| play(session, full()))?;
    bench.case("where a sheet is cut", |session, _| cut_sheet(session))
}

/// Before the bodies 4, in the bodies 8; a cue without ways still needs its place.
fn cut_sheet(session: &mut Session) -> Outcome {
    let bytes = encode(&whole_sheet(40));
    for length in 0..=bytes.len() {
        session.make(Step::Sheet(bytes[..length].to_vec()))?;
        session.make(Step::Check)?;
        let number = match length {
            0..12 => 1,
            12..40 => 4,
            40..72 => 8,
            _ => 0,
        };
        told_number(session, number)?;
    }
    let mut moved = bytes;
    moved[24] += 1;
    session.make(Step::Sheet(moved))?;
    session.make(Step::Check)?;
    told_number(session, 7)
}

pub fn orders(bench: &mut Bench) -> Outcome {
    for (number, table) in refusals() {
        bench.case("a table that several numbers concern", |session, _| {
            session.opened(table)?;
            told_number(session, number)?;
            session.run(by_distance(S + 1, 256))?;
            told_number(session, number)?;
            session.run(by_share(S + 1, 256))?;
            told_number(session, number)?;
            session.run(Limits { mode: 2, ..by_distance(S + 1, 256) })?;
            told_number(session, 3)?;
            session.refine(vec![2], Act::Fault(64))?;
            told_number(session, number)
        })?;
    }
    bench.case("3, 14 and 15 before 16", |session, _| {
        session.opened(p4())?;
        session.make(Step::Poke(Field::Used, 2))?;
        run_told(session, Limits { mode: 2, ..by_distance(S + 1, 256) }, 3, NONE)?;
        for by in [by_distance, by_share] {
            run_told(session, by(S + 1, 256), 14, NONE)?;
            run_told(session, by(S, 256), 15, NONE)?;
            run_told(session, by(S, 255), 16, NONE)?;
        }
        Ok(())
    })?;
    bench.case("two refusals of a run", |session, _| two_faults(session))?;
    bench.case("16 before 17, 18 and 20", |session, _| {
        session.opened(p4())?;
        let open = Field::Of { record: 0, number: 2 };
        session.make(Step::Poke(open, 0))?;
        for (place, act) in [(vec![0; 65], Act::Fault(0)), (vec![], Act::Fault(9)), (vec![], Act::Common)] {
            session.refine(place, act)?;
            told_number(session, 16)?;
        }
        Ok(())
    })?;
    bench.case("17, 18 and 20 in turn", |session, _| by_hand(session))
}

/// What a run is handed: a table, its limits, and a tree, P4's or one that is none.
struct Handed {
    table: Table,
    limits: Limits,
    overwritten: bool,
}

/// What makes a run on P4 refused, with the number. None undoes another, but that a table without weights has no weight that is too
/// large, and one of 65 no fault beyond: the numbers that these keep out come after theirs.
const FAULTS: [Damage<Handed>; 16] = [
    (3, |run| run.limits.mode = 2),
    (3, |run| run.limits.mode = 256),
    (3, |run| run.limits.mode = (1 << 32) + 1),
    (9, |run| run.table.weights.clear()),
    (9, |run| run.table.weights.resize(65, H)),
    (10, |run| run.table.weights.iter_mut().for_each(|weight| *weight = S as u32 + 1)),
    (11, |run| run.table.present.resize(129, 1)),
    (11, |run| run.table.absent.push(0)),
    (12, |run| run.table.present[1] |= 1 << 63),
    (12, |run| run.table.absent[0] |= 1 << 40),
    (13, |run| run.table.absent[0] |= 1),
    (14, |run| run.limits.allowance = S + 1),
    (14, |run| run.limits.allowance = u64::MAX),
    (15, |run| run.limits.budget = 256),
    (15, |run| run.limits.budget = 1 << 16),
    (16, |run| run.overwritten = true),
];

/// Each alone and with each other, by distance and by share.
fn two_faults(session: &mut Session) -> Outcome {
    for limits in [by_distance(0, 255), by_share(0, 255)] {
        for (one, first) in FAULTS {
            for (other, second) in FAULTS {
                let mut run = Handed { table: p4(), limits, overwritten: false };
                first(&mut run);
                second(&mut run);
                session.opened(p4())?;
                session.make(Step::Table(run.table))?;
                if run.overwritten {
                    session.make(Step::Poke(Field::Used, 2))?;
                }
                run_told(session, run.limits, one.min(other), NONE)?;
            }
        }
    }
    Ok(())
}

/// On P4, whose right child is closed once fault 0 is fixed.
fn by_hand(session: &mut Session) -> Outcome {
    session.opened(p4())?;
    let steps: [(&[u8], u64, u64, u64); 18] = [
        (&[0; 65], 1, 9, 17),
        (&[0; 64], 1, 9, 17),
        (&[0], 1, 0, 17),
        (&[2], 1, 0, 17),
        (&[0], 2, 0, 17),
        (&[], 0, 0, 20),
        (&[], 3, 0, 20),
        (&[], 255, 0, 20),
        (&[], 1, 3, 20),
        (&[], 1, u64::MAX, 20),
        (&[], 1, 0, 0),
        (&[], 1, 1, 17),
        (&[], 2, 0, 17),
        (&[1], 1, 9, 18),
        (&[1], 2, 0, 18),
        (&[0], 1, 0, 20),
        (&[0], 2, 0, 20),
        (&[0], 0, 7, 0),
    ];
    for (place, what, fault, number) in steps {
        session.make(Step::Refine(place.to_vec(), what, fault))?;
        told_number(session, number)?;
    }
    Ok(())
}
