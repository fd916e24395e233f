//! Numbers, positions and lengths far beyond what the rules allow, each of which would be allowed if it were cut to
//! fewer bits; and spaces that would be too short then.

use super::{open_leaf, run_told, told_number};
use crate::bench::Bench;
use crate::calls::Node;
use crate::session::{asked, Outcome, Session};
use crate::step::Step;
use reference::paper::{p3, p4, p7, ring, whole_sheet, H};
use reference::random::Random;
use reference::report::report;
use reference::scripts::mostly_open;
use reference::sheet::{encode, length, Sheet};
use reference::{by_distance, by_share, Act, Limits, Table, NONE, S};

/// Cut to 8, 16, 24 .. bits each of these is 0, and to more bits it stays.
const CUTS: [u64; 7] = [1 << 8, 1 << 16, 1 << 24, 1 << 32, 1 << 48, 1 << 56, 1 << 63];

/// How much too long lists can be.
const LENGTHS: [usize; 2] = [1 << 8, 1 << 16];

pub fn far(bench: &mut Bench) -> Outcome {
    for more in LENGTHS {
        bench.case("lists of a table, and a place", |session, _| long_table(session, more))?;
        bench.case("lists for the writer", |session, _| long_lists(session, more))?;
        bench.case("bytes of a sheet", |session, _| long_sheet(session, more))?;
    }
    bench.case("spaces", |session, _| spaces(session))?;
    bench.case("positions", |session, _| positions(session))?;
    bench.case("records", |session, _| records(session))?;
    bench.case("what to do", |session, _| what(session))?;
    bench.case("faults", |session, _| faults(session))?;
    bench.case("the limits of a run", |session, _| limits_of_a_run(session))?;
    bench.case("the limits of a sheet", |session, _| limits_of_a_sheet(session))?;
    bench.case("modes", |session, _| modes(session))?;
    bench.cases("any of them", 150, any_of_them)
}

/// 9, 11 and 17.
fn long_table(session: &mut Session, more: usize) -> Outcome {
    let long = [
        (9, Table { weights: vec![H; more + 1], ..Table::default() }),
        (11, Table { weights: vec![H], present: vec![1; more + 2], absent: vec![0; more + 2] }),
        (11, Table { weights: vec![H], present: vec![1; more + 2], absent: vec![0; 2] }),
        (11, Table { weights: vec![H], present: vec![1; 2], absent: vec![0; more + 2] }),
    ];
    for (number, table) in long {
        session.opened(table)?;
        told_number(session, number)?;
    }
    session.opened(p4())?;
    session.refine(vec![0; more], Act::Fault(0))?;
    told_number(session, 17)
}

/// 2 and 21: each list too long, and those that would agree if both were cut.
fn long_lists(session: &mut Session, more: usize) -> Outcome {
    type Longer = fn(&mut Sheet, usize);
    let longer: [(u64, Longer); 7] = [
        (2, |lists, more| lists.weights.resize(3 + more, 0)),
        (2, |lists, more| lists.cues.extend(rising(more))),
        (2, |lists, more| lists.counts.resize(2 + more, 0)),
        (2, |lists, more| {
            lists.cues.extend(rising(more));
            lists.counts.resize(2 + more, 0);
        }),
        (21, |lists, more| lists.present.resize(2 + more, 0)),
        (21, |lists, more| lists.absent.resize(2 + more, 0)),
        (21, |lists, more| {
            lists.present.resize(2 + more, 0);
            lists.absent.resize(2 + more, 0);
        }),
    ];
    for (number, longer) in longer {
        let mut lists = whole_sheet(40);
        longer(&mut lists, more);
        let space = length(&lists);
        session.make(Step::Write(lists, space))?;
        told_number(session, number)?;
    }
    Ok(())
}

/// Cue numbers above those of the rules' sheet, as far as there are so many.
fn rising(more: usize) -> impl Iterator<Item = u16> {
    (10..).map(|number: usize| number.min(u16::MAX.into()) as u16).take(more)
}

/// 8 with bytes behind the sheet; 2 with so many cues or faults more, all there, and for a head alone that says so.
/// Above 16 bits a head has them cut, so that the first body is not where it should be.
fn long_sheet(session: &mut Session, more: usize) -> Outcome {
    let sheet = whole_sheet(40);
    let mut cues = sheet.clone();
    cues.cues.extend(rising(more));
    cues.counts.resize(2 + more, 0);
    let faults = Sheet { weights: vec![0; 3 + more], ..sheet.clone() };
    let bytes = encode(&sheet);
    let with_1_at = |at: usize| [&bytes[..at], &[1], &bytes[at + 1..]].concat();
    let off = if more < 1 << 16 { 2 } else { 7 };
    let behind = [&bytes[..], &vec![0; more]].concat();
    let heads = [(2, with_1_at(1)), (2, with_1_at(3))];
    for (number, bytes) in [(8, behind), (off, encode(&cues)), (off, encode(&faults))].into_iter().chain(heads) {
        session.make(Step::Sheet(bytes))?;
        session.make(Step::Check)?;
        told_number(session, number)?;
        session.make(Step::Next)?;
        session.make(Step::Report(20))?;
    }
    Ok(())
}

/// All accepted.
fn spaces(session: &mut Session) -> Outcome {
    let lists = whole_sheet(40);
    let bytes = encode(&lists);
    let (written, printed) = (bytes.len(), report(&bytes).len());
    session.make(Step::Sheet(bytes))?;
    for space in [1 << 8, 1 << 10, 1 << 12, 1 << 16, 1 << 17, 1 << 20] {
        for more in [0, 1, printed - 1] {
            session.make(Step::Report(space + more))?;
            told_number(session, 0)?;
        }
        for more in [0, 1, written - 1] {
            session.make(Step::Write(lists.clone(), space + more))?;
            told_number(session, 0)?;
        }
    }
    Ok(())
}

/// Each past the last cue.
fn positions(session: &mut Session) -> Outcome {
    let bytes = encode(&whole_sheet(40));
    for sheet in [&bytes[..], &bytes[..71]] {
        session.make(Step::Sheet(sheet.to_vec()))?;
        for position in CUTS.into_iter().flat_map(|cut| [cut, cut + 1, cut + 2, cut - 1]) {
            session.make(Step::Cue(position as usize))?;
            session.make(Step::Inside(position as usize))?;
        }
    }
    Ok(())
}

/// An open leaf behind so many blank records, alone and behind one that is less wide or as wide.
fn records(session: &mut Session) -> Outcome {
    let leaf = |width: u64| Node { kind: 1, live: 1, low: 7, high: 7 + width, ..Node::default() };
    for blank in LENGTHS.into_iter().flat_map(|more| [more - 1, more, more + 3]) {
        for records in [vec![leaf(1)], vec![leaf(1), leaf(2)], vec![leaf(2), leaf(2)], vec![Node::default()]] {
            session.make(Step::Records(blank, records))?;
        }
    }
    Ok(())
}

/// None of the three: 20 on P7, where independence and a fault are possible, and on P4, where the common part and a fault
/// are, and after all that comes before it.
fn what(session: &mut Session) -> Outcome {
    let others = CUTS.into_iter().flat_map(|cut| [cut, cut + 1, cut + 2]).chain([u64::MAX]);
    let others: Vec<u64> = (3..=255).chain(others).collect();
    for (table, place, number) in [(p7(), vec![], 20), (p4(), vec![], 20), (p7(), vec![0], 17), (p3(), vec![], 18)] {
        session.opened(table)?;
        for &what in &others {
            session.make(Step::Refine(place.clone(), what, 0))?;
            told_number(session, number)?;
        }
    }
    session.opened(ring())?;
    session.run(by_distance(0, 255))?;
    let (place, _) = open_leaf(session);
    for &what in others.iter().step_by(9) {
        session.make(Step::Refine(place.clone(), what, 0))?;
        told_number(session, 19)?;
    }
    Ok(())
}

/// 20 on P7, whose ways name fault 0 and fault 1; independence and the common part look at no fault.
fn faults(session: &mut Session) -> Outcome {
    session.opened(p7())?;
    for fault in CUTS.into_iter().chain([64, 128]).flat_map(|cut| [cut, cut + 1]).chain([u64::MAX]) {
        session.refine(vec![], Act::Fault(fault))?;
        told_number(session, 20)?;
    }
    for fault in CUTS {
        session.opened(p7())?;
        session.make(Step::Refine(vec![], 0, fault + 1))?;
        session.told(0, (840_000_000, 840_000_000), 1)?;
        session.opened(p4())?;
        session.make(Step::Refine(vec![], 2, fault + 1))?;
        session.told(0, (300_000_000, 350_000_000), 1)?;
    }
    Ok(())
}

/// 14 and 15 on P4, whatever else the lower bits would say.
fn limits_of_a_run(session: &mut Session) -> Outcome {
    session.opened(p4())?;
    run_told(session, by_distance(5_000_000_000, 65_576), 14, NONE)?;
    run_told(session, by_distance(0, 65_576), 15, NONE)?;
    for cut in CUTS {
        for lower in [0, 1, 40, 255] {
            let above_s = cut + lower > S;
            run_told(session, by_distance(0, cut + lower), 15, NONE)?;
            run_told(session, by_distance(cut + lower, 256), if above_s { 14 } else { 15 }, NONE)?;
            if above_s {
                run_told(session, by_distance(cut + lower, 40), 14, NONE)?;
            }
        }
    }
    run_told(session, by_distance(u64::MAX, u64::MAX), 14, NONE)?;
    run_told(session, by_distance(S, u64::MAX), 15, NONE)?;
    run_told(session, by_share(u64::MAX, u64::MAX), 14, NONE)?;
    run_told(session, by_share(S, u64::MAX), 15, NONE)
}

/// 3 on P4 and on a table without weights, in a run and in a sheet, though both modes are known that the lower bits give.
fn modes(session: &mut Session) -> Outcome {
    let above = CUTS.into_iter().flat_map(|cut| [cut, cut + 1]).chain([2, 3, 255, 65_535, u64::MAX]);
    for mode in above {
        for table in [p4(), Table::default()] {
            session.opened(table)?;
            for limits in [by_distance(0, 40), by_distance(S + 1, 40), by_distance(0, 256), by_distance(mode, mode)] {
                run_told(session, Limits { mode, ..limits }, 3, NONE)?;
            }
        }
        session.make(Step::Write(Sheet { mode, ..whole_sheet(40) }, 72))?;
        told_number(session, 3)?;
        session.make(Step::Write(Sheet { mode, ..whole_sheet(256) }, 0))?;
        told_number(session, 3)?;
    }
    Ok(())
}

/// The same for the writer.
fn limits_of_a_sheet(session: &mut Session) -> Outcome {
    let mut told = |allowance, budget, number| {
        session.make(Step::Write(Sheet { allowance, budget, ..whole_sheet(40) }, 72))?;
        told_number(session, number)
    };
    told(5_000_000_000, 65_576, 14)?;
    told(0, 65_576, 15)?;
    for cut in CUTS {
        for lower in [0, 1, 40, 255] {
            told(0, cut + lower, 15)?;
            told(cut + lower, 255, if cut + lower > S { 14 } else { 0 })?;
        }
    }
    told(u64::MAX, u64::MAX, 14)?;
    told(S, u64::MAX, 15)
}

/// The number, or mostly one that has upper bits too.
fn with_upper_bits(random: &mut Random, number: u64) -> u64 {
    if random.one_in(3) {
        return number;
    }
    number | random.draw() << random.one_of(&[8, 16, 24, 32, 48])
}

/// Calls whose every number may have upper bits.
fn any_of_them(session: &mut Session, random: &mut Random) -> Outcome {
    let table = mostly_open(random, |random| random.table_within(8, 10));
    session.opened(table)?;
    for _ in 0..4 {
        let (place, act) = random.hand_refinement(session.table(), session.tree());
        let (what, fault) = asked(act);
        session.make(Step::Refine(place, with_upper_bits(random, what), with_upper_bits(random, fault)))?;
        let Limits { allowance, budget, mode } = random.limits();
        let allowance = with_upper_bits(random, allowance);
        let budget = with_upper_bits(random, budget.min(20));
        // Less often, since 3 comes before what the others give.
        let mode = if random.one_in(4) { with_upper_bits(random, mode) } else { mode };
        session.run(Limits { allowance, budget, mode })?;
    }
    let mut lists = random.sheet_within(8, 4, 4);
    session.make(Step::Sheet(encode(&lists)))?;
    for position in 0..4 {
        let position = with_upper_bits(random, position) as usize;
        session.make(Step::Cue(position))?;
        session.make(Step::Inside(position))?;
    }
    (lists.allowance, lists.budget) = (with_upper_bits(random, lists.allowance), with_upper_bits(random, lists.budget));
    if random.one_in(4) {
        lists.mode = with_upper_bits(random, lists.mode);
    }
    let space = length(&lists);
    session.make(Step::Write(lists, space))
}
