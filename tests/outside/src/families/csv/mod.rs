//! Sheets as comma separated text: figures typed by hand, texts made elsewhere, random and damaged texts and sheets; each
//! accepted one both ways, in spaces exactly as long, shorter and longer.

pub mod long;
mod orders;
mod stored;

use super::{room, told_number};
use crate::bench::Bench;
use crate::session::{Outcome, Session};
use crate::step::Step;
use reference::csv::figures::{figures, taken, typed, Figure, Taken};
use reference::csv::{import, joined, table, MISREAD};
use reference::random::Random;
use reference::sheet::{decode, encode};
use reference::{Answer, LONGEST_SHEET, S};

pub fn csv(bench: &mut Bench) -> Outcome {
    for (name, figures) in figures() {
        for figure in figures {
            bench.case(name, |session, _| judged(session, figure))?;
        }
    }
    for taken in taken() {
        bench.case("typed with its sheet", |session, _| both_ways(session, taken))?;
    }
    bench.case("nothing at all", |session, _| {
        imported(session, vec![], 0)?;
        session.told(MISREAD, (0, S), 1)?;
        exported(session, vec![], 0)?;
        session.told(1, (0, S), 0)
    })?;
    stored::texts(bench)?;
    orders::orders(bench)?;
    bench.case("every byte of a text changed", |session, _| every_byte(session))?;
    bench.cases("sound", 1000, sound)?;
    bench.cases("damaged", 9000, |session, random| damaged(session, random.damaged_text(), random))?;
    bench.cases("damaged sheets", 3000, damaged_sheet)?;
    long::texts(bench)
}

/// The text imported into a space of this length.
fn imported(session: &mut Session, text: Vec<u8>, space: usize) -> Outcome {
    session.make(Step::Text(text))?;
    session.make(Step::Import(space))
}

/// The sheet exported into a space of this length.
fn exported(session: &mut Session, sheet: Vec<u8>, space: usize) -> Outcome {
    session.make(Step::Sheet(sheet))?;
    session.make(Step::Export(space))
}

/// A text that import refuses before it looks at the space.
fn refused(session: &mut Session, text: Vec<u8>, number: u64, count: u64) -> Outcome {
    session.make(Step::Text(text))?;
    for space in [0, 100] {
        session.make(Step::Import(space))?;
        session.told(number, (0, S), count)?;
    }
    Ok(())
}

/// A call into spaces exactly as long as what it writes, longer, one byte shorter, and of none.
fn spaces(session: &mut Session, step: fn(usize) -> Step, length: usize) -> Outcome {
    for space in [length + 1, length + 77, length - 1, 0, length] {
        session.make(step(space))?;
        match space < length {
            true => session.told(22, (0, S), 0)?,
            false => session.told(0, (0, S), length as u64)?,
        }
    }
    Ok(())
}

/// A text with its answer; accepted, also what it is both ways.
fn judged(session: &mut Session, Figure { text, number, count }: Figure) -> Outcome {
    if number != 0 {
        return refused(session, text, number, count);
    }
    session.make(Step::Text(text))?;
    spaces(session, Step::Import, count as usize)?;
    back(session)
}

/// A text imported, its sheet exported, and the plain text that this gives imported again.
fn both_ways(session: &mut Session, Taken { text, sheet, plain }: Taken) -> Outcome {
    session.make(Step::Text(text))?;
    spaces(session, Step::Import, sheet.len())?;
    session.make(Step::Printed(sheet.clone()))?;
    session.make(Step::Sheet(sheet.clone()))?;
    spaces(session, Step::Export, plain.len())?;
    session.make(Step::Printed(plain.clone()))?;
    imported(session, plain, sheet.len())?;
    session.make(Step::Printed(sheet))
}

/// The sheet that was just imported is the same, byte for byte, once it is exported and imported again.
fn back(session: &mut Session) -> Outcome {
    let sheet = session.printed().to_vec();
    session.make(Step::Sheet(sheet.clone()))?;
    session.make(Step::Check)?;
    told_number(session, 0)?;
    session.make(Step::Export(text_length(&sheet)))?;
    told_number(session, 0)?;
    let text = session.printed().to_vec();
    imported(session, text, sheet.len())?;
    session.make(Step::Printed(sheet))
}

/// The length of an accepted sheet's text.
fn text_length(sheet: &[u8]) -> usize {
    decode(sheet).map_or(0, |sheet| joined(&table(&sheet)).len())
}

/// Every byte of a text, and of the first record of texts with a third number.
fn every_byte(session: &mut Session) -> Outcome {
    let of = |run: &str| typed(&format!("{run}⏎weights,\"5\",6⏎7,-2,\"1\"⏎7,0⏎9"));
    let text = of("\"run\",10,4");
    changed(session, &text, text.len())?;
    for run in ["run,10,4,1", "\"run\",10,4,\"1\""] {
        changed(session, &of(run), run.len() + 2)?;
    }
    Ok(())
}

/// A text cut within its first so many bytes, and with each of them left out, changed to every other, and every byte put before it.
fn changed(session: &mut Session, text: &[u8], front: usize) -> Outcome {
    const AMPLE: usize = 120;
    for at in 0..front {
        let (before, after) = (&text[..at], &text[at + 1..]);
        imported(session, before.to_vec(), AMPLE)?;
        imported(session, [before, after].concat(), AMPLE)?;
        for byte in 0..=255 {
            imported(session, [before, &[byte], after].concat(), AMPLE)?;
            imported(session, [before, &[byte], &text[at..]].concat(), AMPLE)?;
        }
    }
    Ok(())
}

/// A random sheet's text as it may be written, and as export writes it.
fn sound(session: &mut Session, random: &mut Random) -> Outcome {
    let (lists, text) = random.text();
    let (sheet, plain) = (encode(&lists), joined(&table(&lists)));
    both_ways(session, Taken { text, sheet, plain })
}

fn damaged(session: &mut Session, text: Vec<u8>, random: &mut Random) -> Outcome {
    let Answer { number, count, .. } = import(&text, &mut vec![0; LONGEST_SHEET]);
    if number != 0 {
        return imported(session, text, random.one_of(&[0, 40, 400]));
    }
    let space = room(random, count as usize);
    imported(session, text, space)?;
    if session.answer().number == 0 {
        back(session)?;
    }
    Ok(())
}

fn damaged_sheet(session: &mut Session, random: &mut Random) -> Outcome {
    let sheet = random.damaged_sheet();
    let space = match text_length(&sheet) {
        0 => random.one_of(&[0, 40, 400]),
        length => room(random, length),
    };
    exported(session, sheet, space)
}
