//! The allowance is a share: G1 to G19 and the sheets that ask for them; texts, and what is printed for them; the show of small
//! chances; runs with shares about the least that the root meets after some refinements, where met begins; and both modes on one
//! tree, in turn and side by side.

use super::told_number;
use crate::bench::Bench;
use crate::session::{Mismatch, Outcome, Session};
use crate::step::Step;
use reference::csv::{import, joined, table};
use reference::leaf::Interval;
use reference::paper::ring;
use reference::random::Random;
use reference::scripts::mostly_open;
use reference::shares::{cases, least_share, printed, small, Case, SMALL_DISTANCE, SMALL_SHARE};
use reference::sheet::{encode, length, of_one_cue};
use reference::{by_distance, by_share, Answer, Limits, Table, DISTANCE, LONGEST_SHEET, MET, MOST_FAULTS, S, SHARE};

pub fn shares(bench: &mut Bench) -> Outcome {
    for case in cases() {
        bench.case(case.name, |session, _| {
            session.opened(case.table)?;
            session.run(case.limits)?;
            session.make(Step::Told(case.answer.map(Some)))
        })?;
    }
    for (name, sheet, text) in cases().into_iter().map(Case::printed) {
        bench.case(name, |session, _| {
            session.make(Step::Sheet(encode(&sheet)))?;
            session.make(Step::Report(text.len()))?;
            session.make(Step::Printed(text.into_bytes()))
        })?;
    }
    for (text, line) in printed() {
        bench.case("from a text to what is printed", |session, _| from_text(session, text, line))?;
    }
    bench.case("the show of small chances", |session, _| small_chances(session))?;
    bench.cases("tables of up to 10 faults", 250, |session, random| {
        let table = mostly_open(random, |random| random.table_within(10, 14));
        about_least(session, &table, random.below(8) as u64)
    })?;
    bench.cases("small chances", 250, |session, random| {
        let table = mostly_open(random, rare);
        about_least(session, &table, random.below(8) as u64)
    })?;
    bench.cases("ways that say nothing new, and common parts", 100, |session, random| {
        let table = mostly_open(random, |random| match random.below(2) {
            0 => random.redundant_table(9, 14),
            _ => random.common_table(9, 14),
        });
        about_least(session, &table, random.below(8) as u64)
    })?;
    bench.cases("12 faults", 15, |session, random| {
        let table = mostly_open(random, |random| random.table_within(12, 16));
        about_least(session, &table, random.below(6) as u64)
    })?;
    bench.cases("64 faults", 8, |session, random| {
        let table = mostly_open(random, |random| random.table_within(MOST_FAULTS, 20));
        about_least(session, &table, random.below(4) as u64)
    })?;
    bench.case("a full tree", |session, _| about_least(session, &ring(), 255))?;
    bench.cases("sheets of one cue", 200, |session, random| {
        let table = mostly_open(random, rare);
        let share = least_after(session, &table, random.below(6) as u64)?;
        session.make(Step::Sheet(encode(&of_one_cue(table, by_share(share, 30)))))?;
        session.make(Step::Report(100))
    })?;
    bench.cases("both modes in turn", 150, in_turn)?;
    bench.cases("share 0 and distance 0", 150, side_by_side)
}

/// A table whose chances are mostly below a thousandth, many of them a few in a million.
fn rare(random: &mut Random) -> Table {
    let mut table = random.table_within(9, 12);
    let top = random.one_of(&[9, 3000, 100_000, 3_000_000]);
    table.weights.iter_mut().for_each(|weight| *weight = random.between(0, top) as u32);
    table
}

/// The least share that the root meets after so many refinements.
fn least_after(session: &mut Session, table: &Table, budget: u64) -> Result<u64, Mismatch> {
    session.opened(table.clone())?;
    session.run(by_share(0, budget))?;
    let Answer { low, high, .. } = session.answer();
    Ok(least_share(Interval { low, high }))
}

/// Runs from an opening with that share, one less and one more, each followed by a run of budget 10: from that share on the first of
/// them is met. One more than S is refused.
fn about_least(session: &mut Session, table: &Table, budget: u64) -> Outcome {
    let least = least_after(session, table, budget)?;
    for share in [least.saturating_sub(1), least, least + 1] {
        session.opened(table.clone())?;
        session.run(by_share(share, budget))?;
        if (least..=S).contains(&share) {
            session.make(Step::Told([Some(0), None, None, None, Some(MET), Some(0)]))?;
        }
        session.run(by_share(share, 10))?;
    }
    Ok(())
}

/// The sheet that a text says, and its report.
fn from_text(session: &mut Session, text: Vec<u8>, line: String) -> Outcome {
    let mut sheet = vec![0; LONGEST_SHEET];
    let length = import(&text, &mut sheet).count as usize;
    sheet.truncate(length);
    session.make(Step::Text(text))?;
    session.make(Step::Import(length - 1))?;
    told_number(session, 22)?;
    session.make(Step::Import(length))?;
    session.make(Step::Printed(sheet.clone()))?;
    session.make(Step::Sheet(sheet))?;
    session.make(Step::Check)?;
    session.make(Step::Report(line.len()))?;
    session.make(Step::Printed(line.into_bytes()))
}

/// Written, reported and as text: the text of the sheet by share is two bytes longer.
fn small_chances(session: &mut Session) -> Outcome {
    for limits in [SMALL_SHARE, SMALL_DISTANCE] {
        let lists = small(limits);
        let (sheet, text) = (encode(&lists), joined(&table(&lists)));
        let room = length(&lists);
        session.make(Step::Write(lists, room))?;
        session.make(Step::Printed(sheet.clone()))?;
        session.make(Step::Sheet(sheet.clone()))?;
        session.make(Step::Check)?;
        session.make(Step::Report(200))?;
        let length = if limits.mode == SHARE { 151 } else { 149 };
        for space in [length - 1, length] {
            session.make(Step::Export(space))?;
        }
        session.told(0, (0, S), length as u64)?;
        session.make(Step::Printed(text.clone()))?;
        session.make(Step::Text(text))?;
        session.make(Step::Import(room))?;
        session.make(Step::Printed(sheet))?;
    }
    Ok(())
}

/// Runs by distance and by share on one tree, and now and then a refinement by hand between them.
fn in_turn(session: &mut Session, random: &mut Random) -> Outcome {
    let table = if random.one_in(2) { rare(random) } else { random.table_within(10, 14) };
    session.opened(table)?;
    for turn in 0..6 {
        let mode = [DISTANCE, SHARE][turn % 2];
        let aim = random.aim();
        session.run(Limits { mode, budget: random.below(4) as u64, ..aim })?;
        if random.one_in(3) {
            if let Some((place, act)) = random.sound_refinement(session.table(), session.tree()) {
                session.refine(place, act)?;
            }
        }
    }
    Ok(())
}

/// Where equal ends are asked for, the mode makes no difference to the tree.
fn side_by_side(session: &mut Session, random: &mut Random) -> Outcome {
    session.opened(mostly_open(random, |random| random.table_within(9, 12)))?;
    session.make(Step::Copy)?;
    for _ in 0..3 {
        let budget = random.below(5) as u64;
        session.make(Step::Tree(0))?;
        session.run(by_distance(0, budget))?;
        session.make(Step::Tree(1))?;
        session.run(by_share(0, budget))?;
        session.make(Step::Alike)?;
    }
    Ok(())
}
