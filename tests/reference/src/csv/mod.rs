//! Sheets as comma separated text. Import is one machine over the bytes, after the grammar of RFC 4180: quoted fields may
//! hold commas, line ends and doubled quotes, and it is the shapes of the records that refuse such fields. The sheet's own
//! numbers are those of `sheet`. Export makes all fields first and joins them.

pub mod figures;
pub mod random;
pub mod stored;

use crate::sheet::{decode, encode, lay, writing_number, Sheet};
use crate::{Answer, Limits, DISTANCE, MOST_FAULTS, SHARE};
use std::mem::take;

/// The number of a text that is not of the shapes.
pub const MISREAD: u64 = 23;
/// The longest text that export writes, and the longest that import accepts, all fields quoted.
pub const LONGEST_TEXT: usize = 781_023;
pub const LONGEST_QUOTED: usize = 1_180_521;

const HIGHEST_CUE: u64 = 65_535;
const MOST_DIGITS: usize = 10;

/// Where the machine stands.
#[derive(Clone, Copy)]
enum State {
    /// At the start of a field.
    Start,
    Bare,
    Quoted,
    /// Behind a quote in a quoted field: the last of the field, or the first of two.
    Quote,
    /// Behind the CR of a line end.
    Return,
}

/// The fields of a record without their quotes.
type Fields = Vec<Vec<u8>>;

/// The records of a text; the last is none if a byte of it, or its end, has no place in the grammar.
fn records(text: &[u8]) -> Vec<Option<Fields>> {
    let (mut records, mut fields, mut field) = (Vec::new(), Fields::new(), Vec::new());
    let mut state = State::Start;
    for &byte in text {
        state = match (state, byte) {
            (State::Start, b'"') => State::Quoted,
            (State::Quoted, b'"') => State::Quote,
            (State::Quote, b'"') | (State::Quoted, b',' | b'\r' | b'\n' | b' '..=b'~') => {
                field.push(byte);
                State::Quoted
            }
            (State::Start | State::Bare | State::Quote, b',') => {
                fields.push(take(&mut field));
                State::Start
            }
            (State::Start | State::Bare | State::Quote, b'\r') => {
                fields.push(take(&mut field));
                State::Return
            }
            (State::Return, b'\n') => {
                records.push(Some(take(&mut fields)));
                State::Start
            }
            (State::Start | State::Bare, b' ' | b'!' | b'#'..=b'+' | b'-'..=b'~') => {
                field.push(byte);
                State::Bare
            }
            _ => {
                records.push(None);
                return records;
            }
        };
    }
    match state {
        State::Start if fields.is_empty() => {}
        State::Start | State::Bare | State::Quote => {
            fields.push(field);
            records.push(Some(fields));
        }
        State::Quoted | State::Return => records.push(None),
    }
    records
}

/// A record of a cue: its number, and the faults of a way, counted from 1, absent ones below 0; no way if it has the cue
/// alone.
struct Row {
    cue: u64,
    way: Option<Vec<i64>>,
}

/// A text whose records are all of their shapes.
struct Listed {
    limits: Limits,
    weights: Vec<u64>,
    rows: Vec<Row>,
}

fn numeral(field: &[u8]) -> Option<u64> {
    let digits = field.iter().all(u8::is_ascii_digit) && field.len() <= MOST_DIGITS;
    let leading_zero = field.len() > 1 && field[0] == b'0';
    let value = |field| std::str::from_utf8(field).ok()?.parse().ok();
    (digits && !leading_zero).then_some(field).and_then(value)
}

fn fault(field: &[u8]) -> Option<i64> {
    let (sign, field) = match field.strip_prefix(b"-") {
        Some(field) => (-1, field),
        None => (1, field),
    };
    let number = numeral(field).filter(|&number| number > 0)?;
    Some(sign * number as i64)
}

/// Allowance and budget; the mode only where it is 1.
fn run(fields: Fields) -> Option<Limits> {
    let (allowance, budget, mode) = match &fields[..] {
        [word, allowance, budget] if word == b"run" => (allowance, budget, DISTANCE),
        [word, allowance, budget, mode] if word == b"run" && mode == b"1" => {
            (allowance, budget, SHARE)
        }
        _ => return None,
    };
    Some(Limits {
        allowance: numeral(allowance)?,
        budget: numeral(budget)?,
        mode,
    })
}

fn weights(fields: Fields) -> Option<Vec<u64>> {
    match fields.split_first() {
        Some((word, weights)) if word == b"weights" => {
            weights.iter().map(|weight| numeral(weight)).collect()
        }
        _ => None,
    }
}

fn row(fields: Fields) -> Option<Row> {
    let (cue, named) = fields.split_first()?;
    let cue = numeral(cue).filter(|&cue| cue <= HIGHEST_CUE)?;
    let way = match named {
        [] => None,
        [zero] if zero == b"0" => Some(Vec::new()),
        _ => Some(
            named
                .iter()
                .map(|field| fault(field))
                .collect::<Option<Vec<i64>>>()?,
        ),
    };
    // In the same sense twice are equal numbers, side by side once they are sorted.
    let mut sorted = way.clone().unwrap_or_default();
    sorted.sort_unstable();
    let twice = sorted.windows(2).any(|pair| pair[0] == pair[1]);
    (!twice).then_some(Row { cue, way })
}

/// Whether a record may follow another: a cue alone is the only record of its cue.
fn follows(before: Option<&Row>, row: &Row) -> bool {
    before.is_none_or(|before| before.cue != row.cue || (before.way.is_some() && row.way.is_some()))
}

/// What a text lists, or the number of its first record, from 1, that is missing or not of its shape.
fn listed(text: &[u8]) -> Result<Listed, u64> {
    let mut records = records(text).into_iter();
    let limits = records.next().flatten().and_then(run).ok_or(1u64)?;
    let weights = records.next().flatten().and_then(weights).ok_or(2u64)?;
    let mut rows: Vec<Row> = Vec::new();
    for (record, number) in records.zip(3..) {
        let row = record.and_then(row).ok_or(number)?;
        if !follows(rows.last(), &row) {
            return Err(number);
        }
        rows.push(row);
    }
    Ok(Listed {
        limits,
        weights,
        rows,
    })
}

impl Listed {
    /// The lists of the sheet. What a list does not hold is put as the most that it holds, which is above the limit too;
    /// faults that have no bit are left out (`far`).
    fn sheet(&self) -> Sheet {
        let weight = |&weight: &u64| u32::try_from(weight).unwrap_or(u32::MAX);
        let mut sheet = Sheet {
            weights: self.weights.iter().map(weight).collect(),
            allowance: self.limits.allowance,
            budget: self.limits.budget,
            mode: self.limits.mode,
            ..Sheet::default()
        };
        for Row { cue, way } in &self.rows {
            if sheet.cues.last().map(|&last| u64::from(last)) != Some(*cue) {
                sheet.cues.push(*cue as u16);
                sheet.counts.push(0);
            }
            if let (Some(way), Some(count)) = (way, sheet.counts.last_mut()) {
                *count = count.saturating_add(1);
                sheet.present.push(word(way.iter().copied()));
                sheet.absent.push(word(way.iter().map(|fault| -fault)));
            }
        }
        sheet
    }

    /// Whether a way names a fault that has no bit in a word.
    fn far(&self) -> bool {
        let named = self
            .rows
            .iter()
            .filter_map(|row| row.way.as_ref())
            .flatten();
        named
            .into_iter()
            .any(|fault| fault.unsigned_abs() > MOST_FAULTS as u64)
    }
}

/// The bits of those numbers that are from 1 to 64.
fn word(faults: impl Iterator<Item = i64>) -> u64 {
    let near = faults.filter(|fault| (1..=MOST_FAULTS as i64).contains(fault));
    near.fold(0, |word, fault| word | 1 << (fault - 1))
}

/// Import: the sheet of a text at the front of the space. The count of 23 is the number of the record.
pub fn import(text: &[u8], space: &mut [u8]) -> Answer {
    let listed = match listed(text) {
        Ok(listed) => listed,
        Err(record) => {
            return Answer {
                count: record,
                ..Answer::refused(MISREAD)
            }
        }
    };
    let sheet = listed.sheet();
    match writing_number(&sheet, space.len()) {
        number @ (2 | 5 | 6 | 10) => Answer::refused(number),
        _ if listed.far() => Answer::refused(12),
        0 => lay(&encode(&sheet), space),
        number => Answer::refused(number),
    }
}

/// Export: the text of a sheet at the front of the space.
pub fn export(bytes: &[u8], space: &mut [u8]) -> Answer {
    match decode(bytes) {
        Ok(sheet) => lay(&joined(&table(&sheet)), space),
        Err(number) => Answer::refused(number),
    }
}

/// The fields that a sheet's lists are written as, record by record.
pub fn table(sheet: &Sheet) -> Vec<Vec<String>> {
    let word = |word: &str| word.to_string();
    let weights = sheet.weights.iter().map(u32::to_string);
    let mut run = vec![
        word("run"),
        sheet.allowance.to_string(),
        sheet.budget.to_string(),
    ];
    if sheet.mode == SHARE {
        run.push(word("1"));
    }
    let mut records = vec![run, [word("weights")].into_iter().chain(weights).collect()];
    let mut ways = sheet.present.iter().zip(&sheet.absent);
    for (cue, &count) in sheet.cues.iter().zip(&sheet.counts) {
        if count == 0 {
            records.push(vec![cue.to_string()]);
        }
        for (&present, &absent) in ways.by_ref().take(count.into()) {
            let mut record = vec![cue.to_string()];
            record.extend(names(present, absent));
            records.push(record);
        }
    }
    records
}

/// The faults of a way, present and absent, sorted by their numbers.
fn names(present: u64, absent: u64) -> Vec<String> {
    let bits = |word: u64, sign: i64| {
        let named = (0..MOST_FAULTS).filter(move |fault| word >> fault & 1 == 1);
        named.map(move |fault| sign * (fault as i64 + 1))
    };
    let mut faults: Vec<i64> = bits(present, 1).chain(bits(absent, -1)).collect();
    faults.sort_by_key(|fault| fault.abs());
    if faults.is_empty() {
        faults.push(0);
    }
    faults.iter().map(i64::to_string).collect()
}

/// Records as text: commas between fields, CR LF behind every record.
pub fn joined(records: &[Vec<String>]) -> Vec<u8> {
    let lines = records.iter().map(|fields| fields.join(",") + "\r\n");
    lines.collect::<String>().into_bytes()
}

/// The same records with every field quoted.
pub fn quoted(records: &[Vec<String>]) -> Vec<Vec<String>> {
    let quoted = |field: &String| format!("\"{field}\"");
    let record = |fields: &Vec<String>| fields.iter().map(quoted).collect();
    records.iter().map(record).collect()
}
