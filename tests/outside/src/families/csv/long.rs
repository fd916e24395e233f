//! The longest texts, imported and exported, and texts longer than any that is accepted: these are read to their end too.

use super::{exported, imported, refused};
use crate::bench::Bench;
use crate::families::told_number;
use crate::session::{Outcome, Session};
use crate::step::Step;
use reference::csv::figures::{longest, typed};
use reference::csv::{joined, quoted, table, LONGEST_QUOTED, LONGEST_TEXT, MISREAD};
use reference::sheet::encode;
use reference::{LONGEST_SHEET, S};

pub fn texts(bench: &mut Bench) -> Outcome {
    bench.case("the longest", |session, _| the_longest(session))?;
    bench.case("longer by a record, and twice", |session, _| longest_and_more(session))?;
    for text in REPEATED {
        bench.case("longer than any that is accepted", |session, _| repeated(session, text))?;
    }
    bench.case("many far faults", |session, _| far(session))
}

/// The longest sheet as text, quoted and bare, imported, and exported.
pub fn the_longest(session: &mut Session) -> Outcome {
    let records = table(&longest());
    let (plain, sheet) = (joined(&records), encode(&longest()));
    for (text, length) in [(joined(&quoted(&records)), LONGEST_QUOTED), (plain.clone(), LONGEST_TEXT)] {
        assert_eq!(text.len(), length);
        imported(session, text, LONGEST_SHEET - 1)?;
        told_number(session, 22)?;
        session.make(Step::Import(LONGEST_SHEET))?;
        session.make(Step::Printed(sheet.clone()))?;
    }
    exported(session, sheet, LONGEST_TEXT - 1)?;
    told_number(session, 22)?;
    session.make(Step::Export(LONGEST_TEXT))?;
    session.told(0, (0, S), LONGEST_TEXT as u64)?;
    session.make(Step::Printed(plain))
}

/// A way or a cue more than the longest text has, and all but its first record twice.
fn longest_and_more(session: &mut Session) -> Outcome {
    let mut records = quoted(&table(&longest()));
    let text = joined(&records);
    for (last, number, count) in [("10023,1", 6, 0), ("10024,1", 2, 0), ("10023", MISREAD, 3075)] {
        let text = [&text[..], last.as_bytes()].concat();
        refused(session, text, number, count)?;
    }
    records.extend(records.clone().split_off(1));
    refused(session, joined(&records), MISREAD, 3075)
}

/// A text of its first bytes, a part that is repeated, and its last bytes, with what import answers.
struct Repeated {
    first: &'static str,
    part: &'static str,
    last: &'static str,
    number: u64,
    /// The record of 23: so many, and so many for each part.
    record: (usize, usize),
}

type Text = &'static str;

const fn text(first: Text, part: Text, last: Text, number: u64, record: (usize, usize)) -> Repeated {
    Repeated { first, part, last, number, record }
}

/// Each is made as long as it takes. How a narrow word would count records, cues, ways and weights is among the figures.
const REPEATED: [Repeated; 17] = [
    text("run,1,2⏎weights,5⏎", "7,1⏎", "", 6, (0, 0)),
    text("run,1,2⏎weights,5⏎", "7,1⏎", "7", MISREAD, (3, 1)),
    text("run,1,2⏎weights,5⏎", "7⏎8⏎", "", 2, (0, 0)),
    text("run,1,2⏎weights,5⏎", "7⏎8⏎", "7,", MISREAD, (3, 2)),
    text("run,1,2⏎weights", ",5", "⏎7⏎", 2, (0, 0)),
    text("run,1,2⏎weights", ",5", "", 2, (0, 0)),
    text("run,1,2⏎weights", ",5", ",⏎7⏎", MISREAD, (2, 0)),
    text("run", ",1", "⏎weights,5⏎7⏎", MISREAD, (1, 0)),
    text("run,", "1", ",2⏎weights,5⏎7⏎", MISREAD, (1, 0)),
    text("run,1,2,", "1", "⏎weights,5⏎7⏎", MISREAD, (1, 0)),
    text("run,1,2⏎weights,5⏎", "7", "⏎", MISREAD, (3, 0)),
    text("run,1,2⏎weights,5⏎7,", "-", "1⏎", MISREAD, (3, 0)),
    text("run,1,2⏎weights,5⏎7,\"", "7⏎", "\"⏎", MISREAD, (3, 0)),
    text("run,1,2⏎weights,5⏎7⏎", "\"", "⏎8⏎", MISREAD, (4, 0)),
    text("", "⏎", "", MISREAD, (1, 0)),
    text("", "\0", "", MISREAD, (1, 0)),
    text("run,1,2⏎weights,5⏎7⏎", "⏎", "", MISREAD, (4, 0)),
];

fn repeated(session: &mut Session, Repeated { first, part, last, number, record }: Repeated) -> Outcome {
    const LONG: usize = 2 << 20;
    let part = typed(part);
    let times = LONG.div_ceil(part.len());
    session.make(Step::Long(typed(first), part, times, typed(last)))?;
    session.make(Step::Import(100))?;
    session.told(number, (0, S), (record.0 + record.1 * times) as u64)
}

/// One record with many faults, none of which a word has a bit for.
fn far(session: &mut Session) -> Outcome {
    let faults: String = (0..800).map(|fault| format!(",{}", 9_999_999_999u64 - fault)).collect();
    let row = |last: &str| typed(&format!("run,1,2⏎weights,5⏎7{faults}{last}⏎"));
    refused(session, row(""), 12, 0)?;
    refused(session, row(",-9999999999"), 12, 0)?;
    refused(session, row(",9999999500"), MISREAD, 3)
}
