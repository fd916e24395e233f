//! The figures of the rules, typed from them: P1 to P9, the numbers at the limits, and the whole sheet.

use super::{run_told, told_number};
use crate::bench::Bench;
use crate::session::{Outcome, Session};
use crate::step::Step;
use reference::paper::{cases, limits, p3, p4, whole_sheet, H};
use reference::sheet::{encode, Sheet};
use reference::{by_distance, Act, DISTANCE, DONE, MET, NONE, S, SHARE};

pub fn cases_on_paper(bench: &mut Bench) -> Outcome {
    for case in cases() {
        bench.case(case.name, |session, _| {
            session.opened(case.table)?;
            session.told(0, case.root, 0)?;
            if !case.open {
                session.refine(vec![], Act::Fault(0))?;
                session.told(18, (0, S), 0)?;
            }
            for (place, act, after) in case.hand {
                session.refine(place, act)?;
                session.told(0, after, 1)?;
            }
            Ok(())
        })?;
    }
    Ok(())
}

pub fn run_in_the_tests(bench: &mut Bench) -> Outcome {
    bench.case("the version", |session, _| session.make(Step::Version))?;
    bench.case("P3 with allowance 0 is done, with 1 is met", |session, _| {
        let root = (111_111_110, 111_111_111);
        session.opened(p3())?;
        session.run(by_distance(0, 255))?;
        session.ended(root, 0, DONE, 111_111_110)?;
        session.run(by_distance(1, 255))?;
        session.ended(root, 0, MET, 111_111_110)
    })?;
    bench.case("budget 255 accepted, 256 refused 15", |session, _| {
        session.opened(p4())?;
        run_told(session, by_distance(0, 256), 15, NONE)?;
        session.told(15, (0, S), 0)?;
        run_told(session, by_distance(0, 255), 0, MET)?;
        session.ended((300_000_000, 300_000_000), 2, MET, 300_000_000)
    })?;
    for (number, table) in limits() {
        bench.case("the limits of a table: 9 to 13", |session, _| {
            session.opened(table)?;
            told_number(session, number)
        })?;
    }
    bench.case("the limits of a sheet", |session, _| sheet_limits(session))?;
    bench.case("the whole sheet", |session, _| sheet_of_the_rules(session))
}

/// A sheet with so many faults and one cue of so many empty ways.
fn sized(faults: usize, ways: usize) -> Sheet {
    Sheet {
        weights: vec![H; faults],
        cues: vec![1],
        counts: vec![ways as u16],
        present: vec![0; ways],
        absent: vec![0; ways],
        allowance: 0,
        budget: 0,
        mode: DISTANCE,
    }
}

fn sheet_limits(session: &mut Session) -> Outcome {
    let with_budget = |budget| Sheet { budget, ..sized(1, 1) };
    let with_mode = |mode| Sheet { mode, ..sized(1, 1) };
    let with_weight = |weight| Sheet { weights: vec![weight], ..sized(1, 1) };
    let top = S as u32;
    let sheets = [
        (0, sized(64, 0)),
        (2, sized(65, 0)),
        (0, sized(1, 128)),
        (6, sized(1, 129)),
        (0, with_budget(255)),
        (15, with_budget(256)),
        (0, with_mode(SHARE)),
        (3, with_mode(2)),
        (3, with_mode(256)),
        (3, with_mode(65_535)),
        (0, with_weight(top)),
        (10, with_weight(top + 1)),
    ];
    for (number, sheet) in sheets {
        session.make(Step::Sheet(encode(&sheet)))?;
        session.make(Step::Check)?;
        told_number(session, number)?;
        let room = encode(&sheet).len();
        session.make(Step::Write(sheet, room))?;
        told_number(session, number)?;
    }
    session.make(Step::Sheet(encode(&sized(1, 1))[..11].to_vec()))?;
    session.make(Step::Check)?;
    told_number(session, 1)
}

fn sheet_of_the_rules(session: &mut Session) -> Outcome {
    let lines = [(40, "7 300000000 300000000 2 met"), (1, "7 300000000 350000000 1 spent")];
    for (budget, line) in lines {
        let lists = whole_sheet(budget);
        session.make(Step::Sheet(encode(&lists)))?;
        session.make(Step::Write(lists, 72))?;
        session.told(0, (0, S), 72)?;
        let text = format!("cue low high steps verdict\n{line}\n9 0 0 0 met\n");
        session.make(Step::Report(text.len()))?;
        session.told(0, (0, S), text.len() as u64)?;
        session.make(Step::Printed(text.into_bytes()))?;
        (0..4).try_for_each(|position| session.make(Step::Cue(position)))?;
    }
    session.make(Step::Sheet(encode(&whole_sheet(40))[..71].to_vec()))?;
    session.make(Step::Report(10))?;
    session.make(Step::Printed(b"refused 8\n".to_vec()))
}
