//! Seeded random texts: sound ones of random sheets, as spreadsheets may write them, and damaged ones.

use super::{joined, table};
use crate::random::Random;
use crate::sheet::Sheet;
use crate::{MOST_CUES, MOST_FAULTS, MOST_WAYS};

/// Numbers at the limits of the rules, and such as are allowed once cut to 8, 16 or 32 bits; the last ones have too many
/// digits.
const NUMBERS: [&str; 23] = [
    "0",
    "1",
    "2",
    "64",
    "65",
    "66",
    "128",
    "255",
    "256",
    "257",
    "512",
    "65535",
    "65536",
    "65537",
    "1000000000",
    "1000000001",
    "2147483648",
    "4294967295",
    "4294967296",
    "4294967297",
    "9999999999",
    "10000000000",
    "18446744073709551617",
];

/// Numbers above every limit but that of their digits.
const LARGE: [&str; 6] = [
    "1000000001",
    "1000000002",
    "4294967296",
    "4294967297",
    "4294967300",
    "9999999999",
];

/// What is no number, or is written as none may be.
const WRONG: [&str; 14] = [
    "", "00", "01", "+1", "-0", "--1", "- 1", " 1", "1 ", "1.0", "x", "1\"", "\"\"", "run",
];

/// Bytes that mean something in a text or may look like it.
const BYTES: [u8; 16] = *b"\"\",,\r\n\r\n 00+-1\x00\xff";

impl Random {
    /// A text that import accepts, and its sheet: fields bare or quoted, the faults of each record in any order, with the
    /// last line end or without.
    pub fn text(&mut self) -> (Sheet, Vec<u8>) {
        let sheet = self.sheet();
        let mut records = table(&sheet);
        for record in records.iter_mut().skip(2) {
            self.shuffle(&mut record[1..]);
        }
        self.quote(&mut records);
        let text = self.ended(joined(&records));
        (sheet, text)
    }

    /// No field quoted, all of them, or one in so many.
    fn quote(&mut self, records: &mut [Vec<String>]) {
        let many = self.one_of(&[0, 0, 1, 2, 5, 20]);
        for field in records.iter_mut().flatten() {
            if many > 0 && self.one_in(many) {
                *field = format!("\"{field}\"");
            }
        }
    }

    /// Now and then without the last line end.
    fn ended(&mut self, mut text: Vec<u8>) -> Vec<u8> {
        if self.one_in(3) {
            text.truncate(text.len().saturating_sub(2));
        }
        text
    }

    pub fn shuffle<T>(&mut self, list: &mut [T]) {
        for last in (1..list.len()).rev() {
            list.swap(last, self.between(0, last));
        }
    }

    /// A text with one damage or a few: to its records and fields, to its bytes, or nothing like a text of a sheet.
    pub fn damaged_text(&mut self) -> Vec<u8> {
        let sheet = self.sheet();
        let mut records = table(&sheet);
        match self.below(20) {
            0 => self.any_bytes(),
            1..=12 => {
                let shapes_stay = self.one_in(2);
                for _ in 0..self.between(1, 3) {
                    if shapes_stay {
                        self.damage_numbers(&mut records);
                    } else {
                        self.damage_records(&mut records);
                    }
                }
                self.quote(&mut records);
                self.ended(joined(&records))
            }
            13 => self.other_ends(&records),
            _ => {
                self.quote(&mut records);
                let mut text = self.ended(joined(&records));
                for _ in 0..self.between(1, 2) {
                    self.damage_bytes(&mut text);
                }
                text
            }
        }
    }

    fn any_bytes(&mut self) -> Vec<u8> {
        let length = self.below(60);
        let any = self.one_in(4);
        let mut byte = || match any {
            true => self.draw() as u8,
            false => self.one_of(b"run,weights\"\"\r\n\r\n0123456789--"),
        };
        (0..length).map(|_| byte()).collect()
    }

    /// Line ends of another kind, or a byte order mark.
    fn other_ends(&mut self, records: &[Vec<String>]) -> Vec<u8> {
        let text = String::from_utf8_lossy(&joined(records)).into_owned();
        let text = match self.below(5) {
            0 => text.replace("\r\n", "\n"),
            1 => text.replace("\r\n", "\r"),
            2 => text.replace("\r\n", "\n\r"),
            3 => format!("\u{feff}{text}"),
            _ => text + "\r\n",
        };
        text.into_bytes()
    }

    fn damage_bytes(&mut self, text: &mut Vec<u8>) {
        if text.is_empty() {
            return;
        }
        let at = self.below(text.len());
        match self.below(8) {
            0 => text.truncate(at),
            1 => text.insert(at, self.draw() as u8),
            2..=4 => text.insert(at, self.one_of(&BYTES)),
            5 => text[at] = self.one_of(&BYTES),
            6 => drop(text.remove(at)),
            _ => text[at] ^= 1 << self.below(8),
        }
    }

    fn damage_records(&mut self, records: &mut Vec<Vec<String>>) {
        match self.below(10) {
            0 | 1 => self.damage_order(records),
            2 | 3 => self.damage_head(records),
            4 => self.crowd(records),
            5 => {
                let wrong = self.one_of(&WRONG);
                self.put(records, wrong);
            }
            _ => self.damage_rows(records),
        }
    }

    /// A record dropped, doubled, or two of them swapped.
    fn damage_order(&mut self, records: &mut Vec<Vec<String>>) {
        let least = if self.one_in(4) { 0 } else { 2 };
        if records.len() <= least {
            return;
        }
        let last = records.len() - 1;
        let at = self.between(least, last);
        match self.below(5) {
            0 => drop(records.remove(at)),
            1 => records.truncate(at),
            2 => records.insert(at, records[at].clone()),
            3 => records.swap(at, self.between(least, last)),
            _ => records.push(records[at].clone()),
        }
    }

    /// Numbers too large, too many of something, or a fault in both senses; the records stay of their shapes.
    fn damage_numbers(&mut self, records: &mut Vec<Vec<String>>) {
        let large = self.one_of(&LARGE).to_string();
        match self.below(8) {
            0 => records[0][1] = large,
            1 => records[0][2] = self.one_of(&["256", &large]).to_string(),
            2 => self.crowd(records),
            3 => {
                let at = self.between(1, records[1].len() - 1);
                if let Some(weight) = records[1].get_mut(at) {
                    *weight = large;
                }
            }
            4 if records.len() > 3 => {
                let last = records.len() - 1;
                records.swap(self.between(2, last), self.between(2, last));
            }
            what => {
                let at = self.between(2, records.len());
                let Some([_, named @ ..]) = records.get(at).map(Vec::as_slice) else {
                    return;
                };
                let more = match named.last().map(|fault| (fault.strip_prefix('-'), fault)) {
                    None => return,
                    Some(_) if what == 5 => format!("{}{large}", self.one_of(&["", "-"])),
                    Some((Some(fault), _)) => fault.to_string(),
                    Some((None, fault)) => format!("-{fault}"),
                };
                records[at].push(more);
            }
        }
    }

    /// The first two records: their numbers, their words, or how many fields they have.
    fn damage_head(&mut self, records: &mut [Vec<String>]) {
        let number = self.one_of(&NUMBERS).to_string();
        let words = ["Run", "run ", "weight", "WEIGHTS", "weights", "run", "0"];
        let at = self.below(2.min(records.len()));
        let Some(record) = records.get_mut(at) else {
            return;
        };
        match self.below(8) {
            0 => record.push(number),
            1 => drop(record.pop()),
            2 if !record.is_empty() => record[0] = self.one_of(&words).to_string(),
            _ => {
                let field = self.between(1, record.len().saturating_sub(1));
                if let Some(field) = record.get_mut(field) {
                    *field = number;
                }
            }
        }
    }

    /// About as many weights, cues or ways as there may be.
    fn crowd(&mut self, records: &mut Vec<Vec<String>>) {
        match self.below(4) {
            0 => {
                let faults = self.one_of(&[0, MOST_FAULTS, MOST_FAULTS + 1, 256 + 1]);
                if let Some(weights) = records.get_mut(1) {
                    weights.resize(1 + faults, "7".to_string());
                }
            }
            1 => {
                records.truncate(2);
                let cues = self.one_of(&[MOST_CUES, MOST_CUES + 1, 256 + 1]);
                records.extend((1..=cues).map(|cue| vec![cue.to_string()]));
            }
            2 => records.truncate(2),
            _ => {
                let at = self.between(2, records.len());
                let Some(row) = records.get(at).filter(|row| row.len() > 1).cloned() else {
                    return;
                };
                let ways = self.one_of(&[MOST_WAYS - 1, MOST_WAYS, 256]);
                records.splice(at..at, vec![row; ways]);
            }
        }
    }

    /// A record of a cue: its number, or what it names.
    fn damage_rows(&mut self, records: &mut [Vec<String>]) {
        let number = self.one_of(&NUMBERS).to_string();
        let near = self.between(1, 12).to_string();
        let wrong = self.one_of(&WRONG).to_string();
        let at = self.between(2, records.len().max(3) - 1);
        let Some(record) = records.get_mut(at) else {
            return;
        };
        if record.is_empty() {
            return;
        }
        let field = self.below(record.len());
        let named = record[field].clone();
        match self.below(14) {
            0 => record[0] = number,
            1 => record[0] = near,
            2 => record.truncate(1),
            3 => record.push(number),
            4 => record.push(format!("-{number}")),
            5 => record.extend([number.clone(), format!("-{number}")]),
            6 => record.extend([number.clone(), number]),
            7 => record.push(named),
            8 => record.push(format!("-{}", named.trim_start_matches('-'))),
            9 => record.push(named.trim_start_matches('-').to_string()),
            10 => record.push("0".to_string()),
            11 => record.insert(field, wrong),
            12 => record[field] = format!("0{named}"),
            _ => record[field] = named + self.one_of(&["0", "000", "00000000"]),
        }
    }

    /// Puts a field somewhere in the records.
    fn put(&mut self, records: &mut [Vec<String>], new: &str) {
        let at = self.below(records.len());
        let Some(record) = records.get_mut(at) else {
            return;
        };
        let field = self.below(record.len());
        if let Some(field) = record.get_mut(field) {
            *field = new.to_string();
        }
    }
}
