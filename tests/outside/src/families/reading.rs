//! Sheets: sound ones cue by cue, cut at every length, with changed bytes, with two faults at once so that the first
//! listed number must win; the report of each; and the tables of their cues, opened and run.

use super::{room, told_number, with_small_budget, Damage};
use crate::bench::Bench;
use crate::session::{Outcome, Session};
use crate::step::Step;
use reference::paper::{done_and_full, ring, whole_sheet};
use reference::random::Random;
use reference::report::report;
use reference::run::verdict_word;
use reference::sheet::{cue_table, encode, of_one_cue, Sheet};
use reference::{by_distance, by_share, Answer, LONGEST_SHEET, MOST_CUES, S};

/// The longest text of a report.
const TEXT: usize = 939;

/// The runs of a longer sheet may take the reference long.
const SHORT: usize = 600;

/// The sheet read as a whole, at one position of its contents, by a reader, and reported.
fn sheet(session: &mut Session, bytes: Vec<u8>, position: usize) -> Outcome {
    let short = bytes.len() <= SHORT;
    session.make(Step::Sheet(bytes))?;
    session.make(Step::Check)?;
    let refused = session.answer().number != 0;
    session.make(Step::Cue(position))?;
    session.make(Step::Inside(position))?;
    (0..2).try_for_each(|_| session.make(Step::Next))?;
    if refused || short {
        session.make(Step::Report(TEXT))?;
    }
    Ok(())
}

pub fn sheets(bench: &mut Bench) -> Outcome {
    bench.cases("sound", 600, |session, random| {
        let lists = random.sheet();
        sheet(session, encode(&lists), 0)?;
        session.make(Step::Check)?;
        told_number(session, 0)?;
        cues(session, lists.cues.len())
    })?;
    bench.case("the longest, and longer", |session, random| {
        let mut bytes = encode(&random.longest_sheet());
        for more in 0..3 {
            bytes.resize(LONGEST_SHEET + more, 0);
            sheet(session, bytes.clone(), 0)?;
            cues(session, MOST_CUES)?;
        }
        Ok(())
    })?;
    bench.cases("damaged", 5000, |session, random| {
        let position = random.below(4);
        sheet(session, random.damaged_sheet(), position)
    })?;
    bench.case("two faults at once", |session, _| two_faults(session))
}

/// Every position, and some past the last, with cue and table; and a reader's calls, some of them past the last cue.
fn cues(session: &mut Session, cues: usize) -> Outcome {
    for position in (0..=cues + 2).chain([1 << 8, 1 << 16, 1 << 32, usize::MAX]) {
        session.make(Step::Cue(position))?;
        session.make(Step::Inside(position))?;
    }
    (0..=cues + 2).try_for_each(|_| session.make(Step::Next))
}

/// Each cue's table handed over, opened and run by itself: every place of up to 12 faults stands beside the count too,
/// and the report prints what these runs answer.
pub fn inside(bench: &mut Bench) -> Outcome {
    bench.cases("up to 12 faults", 120, |session, random| {
        let sheet = with_small_budget(random.sheet_within(12, 8, 10));
        each_alone(session, &sheet)
    })?;
    bench.cases("of any size", 20, |session, random| {
        let sheet = with_small_budget(random.sheet());
        each_alone(session, &sheet)
    })
}

fn each_alone(session: &mut Session, sheet: &Sheet) -> Outcome {
    session.make(Step::Sheet(encode(sheet)))?;
    let mut text = String::from("cue low high steps verdict\n");
    for (position, cue) in sheet.cues.iter().enumerate() {
        session.make(Step::Inside(position))?;
        session.opened(cue_table(sheet, position).unwrap_or_default())?;
        session.run(sheet.limits())?;
        let Answer { low, high, count, verdict, .. } = session.answer();
        text += &format!("{cue} {low} {high} {count} {}\n", verdict_word(verdict));
    }
    session.make(Step::Report(TEXT))?;
    session.make(Step::Printed(text.into_bytes()))
}

pub fn bytes(bench: &mut Bench) -> Outcome {
    bench.cases("cut at every length", 30, |session, random| {
        let bytes = encode(&random.sheet_within(8, 4, 5));
        for length in 0..=bytes.len() {
            sheet(session, bytes[..length].to_vec(), 0)?;
        }
        sheet(session, [&bytes[..], &[0]].concat(), 0)?;
        session.make(Step::Check)?;
        told_number(session, 8)
    })?;
    bench.cases("every byte changed", 30, |session, random| {
        let lists = random.sheet_within(8, 4, 5);
        let bytes = encode(&lists);
        for at in 0..bytes.len() {
            for change in [1 << random.below(8), 255, random.between(1, 255) as u8] {
                let mut bytes = bytes.clone();
                bytes[at] ^= change;
                sheet(session, bytes, lists.cues.len() - 1)?;
            }
        }
        Ok(())
    })
}

/// What makes the rules' sheet refused, with the number. None undoes another, and those that cut it cut enough.
const FAULTS: [Damage<Vec<u8>>; 17] = [
    (1, |bytes| bytes.truncate(7)),
    (2, |bytes| put(bytes, 0, &[0, 0])),
    (2, |bytes| put(bytes, 2, &[25, 0])),
    (3, |bytes| put(bytes, 10, &[2])),
    (3, |bytes| put(bytes, 11, &[1])),
    (3, |bytes| put(bytes, 10, &[255, 255])),
    (4, |bytes| bytes.truncate(30)),
    (5, |bytes| put(bytes, 12, &[0, 0])),
    (6, |bytes| put(bytes, 22, &[129, 0])),
    (7, |bytes| put(bytes, 16, &[41])),
    (8, |bytes| bytes.push(0)),
    (10, |bytes| put(bytes, 32, &(S as u32 + 1).to_le_bytes())),
    (12, |bytes| put(bytes, 56, &[8])),
    (12, |bytes| put(bytes, 71, &[128])),
    (13, |bytes| put(bytes, 48, &[1])),
    (14, |bytes| put(bytes, 4, &(S as u32 + 1).to_le_bytes())),
    (15, |bytes| put(bytes, 8, &[0, 1])),
];

/// As far as the bytes reach.
fn put(bytes: &mut [u8], at: usize, new: &[u8]) {
    let place = bytes.iter_mut().skip(at);
    place.zip(new).for_each(|(byte, new)| *byte = *new);
}

fn two_faults(session: &mut Session) -> Outcome {
    for (one, first) in FAULTS {
        for (other, second) in FAULTS {
            let mut bytes = encode(&whole_sheet(40));
            first(&mut bytes);
            second(&mut bytes);
            session.make(Step::Sheet(bytes))?;
            session.make(Step::Check)?;
            told_number(session, one.min(other))?;
            cues(session, 2)?;
            let text = format!("refused {}\n", one.min(other));
            session.make(Step::Report(text.len()))?;
            session.make(Step::Printed(text.into_bytes()))?;
        }
    }
    Ok(())
}

pub fn reports(bench: &mut Bench) -> Outcome {
    bench.cases("sound", 400, |session, random| {
        let bytes = encode(&with_small_budget(random.sheet()));
        let length = report(&bytes).len();
        session.make(Step::Sheet(bytes))?;
        session.make(Step::Report(room(random, length)))
    })?;
    bench.cases("spaces of every kind", 10, |session, random| {
        let bytes = encode(&random.sheet_within(6, 3, 4));
        let length = report(&bytes).len();
        session.make(Step::Sheet(bytes))?;
        let mut spaces = [0, 1, length - 1, length, length + 1, length + 100, TEXT].into_iter();
        spaces.try_for_each(|space| session.make(Step::Report(space)))
    })?;
    bench.cases("refused", 1200, |session, random| {
        session.make(Step::Sheet(random.damaged_sheet()))?;
        session.make(Step::Check)?;
        if session.answer().number == 0 {
            return Ok(());
        }
        session.make(Step::Report(random.between(8, 13)))
    })?;
    for (name, table) in [("a run that ends full", ring()), ("a run that is done, the tree full", done_and_full())] {
        bench.case(name, |session, _| {
            for limits in [by_distance(0, 255), by_share(0, 255)] {
                let sheet = Sheet { cues: vec![u16::MAX], ..of_one_cue(table.clone(), limits) };
                session.make(Step::Sheet(encode(&sheet)))?;
                session.make(Step::Report(TEXT))?;
            }
            Ok(())
        })?;
    }
    bench.case("the longest sheet", longest)
}

fn longest(session: &mut Session, random: &mut Random) -> Outcome {
    let lists = with_small_budget(random.longest_sheet());
    session.make(Step::Sheet(encode(&lists)))?;
    session.make(Step::Report(TEXT))
}
