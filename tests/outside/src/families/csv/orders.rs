//! Two refusals of a call at once, for every two that can be: the earlier one is answered.

use super::{exported, imported};
use crate::bench::Bench;
use crate::families::{told_number, Damage};
use crate::session::{Outcome, Session};
use reference::csv::{joined, table, MISREAD};
use reference::paper::whole_sheet;
use reference::sheet::{encode, Sheet};
use reference::{DISTANCE, S, SHARE};

pub fn orders(bench: &mut Bench) -> Outcome {
    bench.case("two refusals of import", |session, _| imports(session))?;
    bench.case("two refusals of export", |session, _| exports(session))
}

/// Room for whatever is refused here.
const AMPLE: usize = 8000;

type Records = Vec<Vec<String>>;

fn record(fields: &str) -> Vec<String> {
    fields.split(',').map(str::to_string).collect()
}

/// What makes the text of the rules' sheet refused, with the number. None undoes another.
const TEXTS: [Damage<Records>; 20] = [
    (MISREAD, |records| records[0].push("0".into())),
    (MISREAD, |records| records[0].push("2".into())),
    (MISREAD, |records| records[0].extend(["1".into(), "1".into()])),
    (MISREAD, |records| records[1].push(String::new())),
    (MISREAD, |records| records.insert(3, record("7"))),
    (MISREAD, |records| records.insert(2, record("7,2,1,2"))),
    (MISREAD, |records| records.push(record("26,x"))),
    (2, |records| records[1].resize(66, "5".into())),
    (2, |records| records.extend((101..126).map(|cue| vec![cue.to_string()]))),
    (5, |records| records.insert(2, record("0,1"))),
    (5, |records| records.push(record("8,1"))),
    (6, |records| drop(records.splice(2..2, vec![record("7,1"); 129]))),
    (10, |records| records[1][1] = "1000000001".into()),
    (10, |records| records[1][2] = "4294967296".into()),
    (12, |records| records.insert(2, record("7,1,100"))),
    (12, |records| records.insert(2, record("7,-4294967297"))),
    (13, |records| records.insert(2, record("7,1,2,-1"))),
    (14, |records| records[0][1] = "1000000001".into()),
    (15, |records| records[0][2] = "256".into()),
    (15, |records| records[0][2] = "65536".into()),
];

/// 23 is tried before all others.
fn earlier(one: u64, other: u64) -> u64 {
    match one == MISREAD || other == MISREAD {
        true => MISREAD,
        false => one.min(other),
    }
}

/// With ample space, and with none, where 22 applies too. All pairs can be, 10 with 2 where there are too many weights. In both
/// modes, and 3 is never answered: no third number but 1 has the shape.
fn imports(session: &mut Session) -> Outcome {
    for mode in [DISTANCE, SHARE] {
        for (one, first) in TEXTS {
            for (other, second) in TEXTS {
                let mut records = table(&Sheet { mode, ..whole_sheet(40) });
                first(&mut records);
                second(&mut records);
                for space in [AMPLE, 0] {
                    imported(session, joined(&records), space)?;
                    told_number(session, earlier(one, other))?;
                }
            }
        }
    }
    Ok(())
}

/// A number, and what brings it about in lists and in bytes.
type Changes = (u64, fn(&mut Sheet), fn(&mut Vec<u8>));

/// What makes the rules' sheet refused, with the number: first in its lists, which keep agreeing, then in its bytes.
///
/// These pairs cannot be: 1 with 5, 6, 7, 10, 12 or 13, whose numbers stand behind the first 11 bytes; 4 with 12 or 13,
/// whose words stand behind the weights. Some can by one form of 2 only: 10 where there is a weight, 12 where there are no
/// more than 64 faults, as no word names a higher one.
const SHEETS: [Changes; 17] = [
    (2, |lists| lists.weights.clear(), |_| {}),
    (2, |lists| lists.weights.resize(65, 5), |_| {}),
    (2, more_cues, |_| {}),
    (5, |lists| lists.cues[0] = 0, |_| {}),
    (5, |lists| lists.cues[1] = lists.cues[0], |_| {}),
    (6, more_ways, |_| {}),
    (10, |lists| lists.weights.iter_mut().for_each(|weight| *weight = S as u32 + 1), |_| {}),
    (12, |lists| lists.present[1] |= 1 << 63, |_| {}),
    (13, |lists| lists.absent[0] |= 1, |_| {}),
    (14, |lists| lists.allowance = S + 1, |_| {}),
    (15, |lists| lists.budget = 256, |_| {}),
    (3, |_| {}, |bytes| bytes[10] = 2),
    (3, |_| {}, |bytes| bytes[11] = 1),
    (7, |_| {}, |bytes| bytes[16] += 1),
    (8, |_| {}, |bytes| bytes.push(0)),
    (4, |_| {}, |bytes| bytes.truncate(bodies(bytes) - 1)),
    (1, |_| {}, |bytes| bytes.truncate(11)),
];

fn more_cues(lists: &mut Sheet) {
    lists.cues.extend(100..123);
    lists.counts.resize(25, 0);
}

fn more_ways(lists: &mut Sheet) {
    lists.counts[0] += 127;
    lists.present.splice(1..1, [1; 127]);
    lists.absent.splice(1..1, [0; 127]);
}

/// Where the weights end.
fn bodies(bytes: &[u8]) -> usize {
    12 + 8 * usize::from(bytes[2]) + 4 * usize::from(bytes[0])
}

fn exports(session: &mut Session) -> Outcome {
    for (at, (one, first_lists, first_bytes)) in SHEETS.into_iter().enumerate() {
        for (other, second_lists, second_bytes) in SHEETS.into_iter().skip(at) {
            let mut lists = whole_sheet(40);
            first_lists(&mut lists);
            second_lists(&mut lists);
            let mut bytes = encode(&lists);
            first_bytes(&mut bytes);
            second_bytes(&mut bytes);
            for space in [AMPLE, 0] {
                exported(session, bytes.clone(), space)?;
                told_number(session, one.min(other))?;
            }
        }
    }
    Ok(())
}
