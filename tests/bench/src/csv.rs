//! The tuned side of comma separated text (RFC 4180): a text read into a sheet's bytes and a sheet written as text, not in the library's loops.
//! Import walks its text once; both write when nothing is left to refuse. No heap, but for faults that no sheet has.

use std::collections::HashSet;

use crate::formula::{MOST_FAULTS, MOST_WAYS, S};
use crate::run::{refused, Answer, Limits};
use crate::sheet::{self, Sheet, Text, HEAD, MOST_CUES};

pub fn accepted(count: usize) -> Answer {
    Answer {
        count: count as u64,
        ..refused(0)
    }
}

// Import

/// A place in a text. A shape that is not there gives None, which refuses the record.
struct Cursor<'a> {
    text: &'a [u8],
    at: usize,
}

impl Cursor<'_> {
    fn next(&self) -> Option<u8> {
        self.text.get(self.at).copied()
    }

    fn take(&mut self, byte: u8) -> bool {
        if self.next() != Some(byte) {
            return false;
        }
        self.at += 1;
        true
    }

    fn word(&mut self, word: &[u8]) -> Option<()> {
        let found = self.text[self.at..].starts_with(word);
        self.at += word.len();
        found.then_some(())
    }

    fn digit(&self) -> Option<u64> {
        match self.next() {
            Some(byte @ b'0'..=b'9') => Some(u64::from(byte - b'0')),
            _ => None,
        }
    }

    fn number(&mut self) -> Option<u64> {
        let from = self.at;
        let mut value = 0u64;
        while let Some(digit) = self.digit() {
            value = value.wrapping_mul(10).wrapping_add(digit);
            self.at += 1;
        }
        match self.at - from {
            1 => Some(value),
            2..=10 if self.text[from] != b'0' => Some(value),
            _ => None,
        }
    }

    /// Whether a fault is absent, and its number.
    fn fault(&mut self) -> Option<(bool, u64)> {
        let absent = self.take(b'-');
        Some((absent, self.number()?))
    }

    /// What is bare or quoted.
    fn field<T>(&mut self, content: impl Fn(&mut Self) -> Option<T>) -> Option<T> {
        if !self.take(b'"') {
            return content(self);
        }
        let content = content(self)?;
        self.take(b'"').then_some(content)
    }

    /// Whether the record has a further field; if not, steps over its end.
    fn more(&mut self) -> Option<bool> {
        if self.take(b',') {
            return Some(true);
        }
        self.end()?;
        Some(false)
    }

    fn end(&mut self) -> Option<()> {
        match self.text[self.at..] {
            [] => Some(()),
            [b'\r', b'\n', ..] => {
                self.at += 2;
                Some(())
            }
            _ => None,
        }
    }

    fn run(&mut self) -> Option<Limits> {
        self.field(|field| field.word(b"run"))?;
        let mut further = || {
            let more = self.take(b',');
            more.then(|| self.field(Self::number))?
        };
        let (allowance, budget) = (further()?, further()?);
        // A third number is there by share alone, and is 1.
        let mode = u64::from(self.take(b','));
        if mode == 1 && self.field(Self::number)? != 1 {
            return None;
        }
        self.end()?;
        Some(Limits {
            allowance,
            budget,
            mode,
        })
    }

    /// The number of weights; the first of them, cut to what is above S, are put into the list.
    fn weights(&mut self, list: &mut [u32]) -> Option<usize> {
        self.field(|field| field.word(b"weights"))?;
        let mut count = 0;
        while self.more()? {
            let weight = self.field(Self::number)?;
            if let Some(place) = list.get_mut(count) {
                *place = weight.min(S + 1) as u32;
            }
            count += 1;
        }
        Some(count)
    }

    fn cue(&mut self) -> Option<u16> {
        u16::try_from(self.field(Self::number)?).ok()
    }

    /// The rest of a record behind the cue's comma.
    fn way(&mut self) -> Option<Way> {
        let from = self.at;
        let (mut present, mut absent, mut far) = (0u64, 0u64, false);
        loop {
            match self.field(Self::fault)? {
                (false, number @ 1..=64) => add_fault(&mut present, number)?,
                (true, number @ 1..=64) => add_fault(&mut absent, number)?,
                (false, 0) if present | absent == 0 && !far => {
                    self.end()?;
                    break;
                }
                (_, 0) => return None,
                _ => far = true,
            }
            if !self.more()? {
                break;
            }
        }
        let twice = far && names_twice(&self.text[from..self.at]);
        (!twice).then_some(Way {
            present,
            absent,
            far,
        })
    }
}

fn add_fault(word: &mut u64, number: u64) -> Option<()> {
    let bit = 1 << (number - 1);
    let new = *word & bit == 0;
    *word |= bit;
    new.then_some(())
}

/// Whether a field stands twice behind a cue: equal numbers have equal digits.
fn names_twice(fields: &[u8]) -> bool {
    let fields = fields.strip_suffix(b"\r\n").unwrap_or(fields);
    let mut seen = HashSet::new();
    let mut bare = fields.split(|&byte| byte == b',').map(unquoted);
    !bare.all(|field| seen.insert(field))
}

fn unquoted(field: &[u8]) -> &[u8] {
    match field {
        [b'"', content @ .., b'"'] => content,
        _ => field,
    }
}

struct Way {
    present: u64,
    absent: u64,
    /// Names a fault that no sheet has.
    far: bool,
}

/// What a text says. The counts are whole, the lists hold as much as a sheet may have.
struct Lists {
    limits: Limits,
    faults: usize,
    weights: [u32; MOST_FAULTS],
    cues: usize,
    numbers: [u16; MOST_CUES],
    counts: [usize; MOST_CUES],
    ways: usize,
    present: [u64; MOST_CUES * MOST_WAYS],
    absent: [u64; MOST_CUES * MOST_WAYS],
    far: bool,
}

impl Lists {
    fn new() -> Lists {
        Lists {
            limits: Limits::default(),
            faults: 0,
            weights: [0; MOST_FAULTS],
            cues: 0,
            numbers: [0; MOST_CUES],
            counts: [0; MOST_CUES],
            ways: 0,
            present: [0; MOST_CUES * MOST_WAYS],
            absent: [0; MOST_CUES * MOST_WAYS],
            far: false,
        }
    }

    /// Fills the lists; else the number of the first record that is not of its shape.
    fn fill(&mut self, text: &[u8]) -> Result<(), u64> {
        let mut cursor = Cursor { text, at: 0 };
        self.limits = cursor.run().ok_or(1u64)?;
        self.faults = cursor.weights(&mut self.weights).ok_or(2u64)?;
        let mut record = 3u64;
        // The cue of the record before, and whether it had a way.
        let mut last = None;
        while cursor.at < text.len() {
            last = Some(self.row(&mut cursor, last).ok_or(record)?);
            record += 1;
        }
        Ok(())
    }

    fn row(&mut self, cursor: &mut Cursor, last: Option<(u16, bool)>) -> Option<(u16, bool)> {
        let cue = cursor.cue()?;
        let more = cursor.more()?;
        match last {
            Some((number, way)) if number == cue => {
                if !way || !more {
                    return None;
                }
            }
            _ => self.begin(cue),
        }
        if more {
            self.add(cursor.way()?);
        }
        Some((cue, more))
    }

    fn begin(&mut self, cue: u16) {
        if let Some(number) = self.numbers.get_mut(self.cues) {
            *number = cue;
        }
        self.cues += 1;
    }

    fn add(&mut self, way: Way) {
        self.far |= way.far;
        let Some(count) = self.counts.get_mut(self.cues - 1) else {
            return;
        };
        if *count < MOST_WAYS {
            self.present[self.ways] = way.present;
            self.absent[self.ways] = way.absent;
            self.ways += 1;
        }
        *count += 1;
    }

    fn words(&self) -> impl Iterator<Item = (&u64, &u64)> {
        let present = self.present[..self.ways].iter();
        present.zip(&self.absent[..self.ways])
    }

    /// 2 to 15, or 0.
    fn number(&self) -> u64 {
        let outside = |n: usize, most: usize| n == 0 || n > most;
        if outside(self.faults, MOST_FAULTS) || outside(self.cues, MOST_CUES) {
            return 2;
        }
        let numbers = &self.numbers[..self.cues];
        if numbers[0] == 0 || numbers.windows(2).any(|pair| pair[1] <= pair[0]) {
            return 5;
        }
        if self.counts.iter().any(|&count| count > MOST_WAYS) {
            return 6;
        }
        if self.weights.iter().any(|&weight| u64::from(weight) > S) {
            return 10;
        }
        let above = |(p, a): (&u64, &u64)| (p | a) >> self.faults != 0;
        if self.far || self.faults < MOST_FAULTS && self.words().any(above) {
            return 12;
        }
        if self.words().any(|(p, a)| p & a != 0) {
            return 13;
        }
        if self.limits.allowance > S {
            return 14;
        }
        if self.limits.budget > 255 {
            return 15;
        }
        0
    }

    fn bodies(&self) -> usize {
        HEAD + 8 * self.cues + 4 * self.faults
    }

    /// The sheet at the front of the space, which is long enough.
    fn write(&self, space: &mut [u8]) {
        let mut bytes = Text { space, len: 0 };
        bytes.put(&(self.faults as u16).to_le_bytes());
        bytes.put(&(self.cues as u16).to_le_bytes());
        bytes.put(&(self.limits.allowance as u32).to_le_bytes());
        bytes.put(&(self.limits.budget as u16).to_le_bytes());
        bytes.put(&(self.limits.mode as u16).to_le_bytes());
        let mut place = self.bodies();
        for (number, &count) in self.numbers.iter().zip(&self.counts).take(self.cues) {
            bytes.put(&number.to_le_bytes());
            bytes.put(&(count as u16).to_le_bytes());
            bytes.put(&(place as u32).to_le_bytes());
            place += 16 * count;
        }
        for weight in &self.weights[..self.faults] {
            bytes.put(&weight.to_le_bytes());
        }
        for (present, absent) in self.words() {
            bytes.put(&present.to_le_bytes());
            bytes.put(&absent.to_le_bytes());
        }
    }
}

/// The sheet that a text says, at the front of the space.
pub fn import(text: &[u8], space: &mut [u8]) -> Answer {
    let mut lists = Lists::new();
    if let Err(record) = lists.fill(text) {
        return Answer {
            count: record,
            ..refused(23)
        };
    }
    let number = lists.number();
    if number != 0 {
        return refused(number);
    }
    let len = lists.bodies() + 16 * lists.ways;
    if space.len() < len {
        return refused(22);
    }
    lists.write(space);
    accepted(len)
}

// Export

fn digits(n: u64) -> usize {
    1 + n.checked_ilog10().unwrap_or(0) as usize
}

/// The length of the fields of a way: a comma and one digit each, a minus if absent, a second digit from the tenth fault on.
fn way_length(present: u64, absent: u64) -> usize {
    let ones = |word: u64| word.count_ones() as usize;
    let named = present | absent;
    if named == 0 {
        return 2;
    }
    2 * ones(named) + ones(named >> 9) + ones(absent)
}

fn length(sheet: &Sheet) -> usize {
    let limits = sheet.limits();
    let run = 7 + digits(limits.allowance) + digits(limits.budget) + 2 * limits.mode as usize;
    let weight = |fault| 1 + digits(u64::from(sheet.weight(fault)));
    let weights = 9 + (0..sheet.faults).map(weight).sum::<usize>();
    let cue = |i| {
        let own = digits(u64::from(sheet.cue(i))) + 2;
        let way = |(present, absent)| own + way_length(present, absent);
        match sheet.ways(i) {
            0 => own,
            _ => sheet.body(i).map(way).sum(),
        }
    };
    run + weights + (0..sheet.cues).map(cue).sum::<usize>()
}

/// The fields of a way.
fn put_way(text: &mut Text, present: u64, absent: u64) {
    let mut left = present | absent;
    if left == 0 {
        text.put(b",0");
    }
    while left != 0 {
        let fault = left.trailing_zeros();
        left &= left - 1;
        let number = fault as u8 + 1;
        let (tens, ones) = (b'0' + number / 10, b'0' + number % 10);
        match (absent >> fault & 1 != 0, number < 10) {
            (false, true) => text.put(&[b',', ones]),
            (false, false) => text.put(&[b',', tens, ones]),
            (true, true) => text.put(&[b',', b'-', ones]),
            (true, false) => text.put(&[b',', b'-', tens, ones]),
        }
    }
}

/// The records of a cue.
fn put_cue(text: &mut Text, sheet: &Sheet, i: usize) {
    let mut digits = [0; 5];
    let mut cue = Text {
        space: &mut digits,
        len: 0,
    };
    cue.number(u64::from(sheet.cue(i)));
    let cue = &cue.space[..cue.len];
    if sheet.ways(i) == 0 {
        text.put(cue);
        text.put(b"\r\n");
    }
    for (present, absent) in sheet.body(i) {
        text.put(cue);
        put_way(text, present, absent);
        text.put(b"\r\n");
    }
}

/// The text of a sheet, at the front of the space.
pub fn export(bytes: &[u8], space: &mut [u8]) -> Answer {
    let sheet = match sheet::read(bytes) {
        Ok(sheet) => sheet,
        Err(number) => return refused(number),
    };
    if space.len() < length(&sheet) {
        return refused(22);
    }
    let mut text = Text { space, len: 0 };
    let limits = sheet.limits();
    text.put(b"run,");
    text.number(limits.allowance);
    text.put(b",");
    text.number(limits.budget);
    if limits.mode == 1 {
        text.put(b",1");
    }
    text.put(b"\r\nweights");
    for fault in 0..sheet.faults {
        text.put(b",");
        text.number(u64::from(sheet.weight(fault)));
    }
    text.put(b"\r\n");
    for i in 0..sheet.cues {
        put_cue(&mut text, &sheet, i);
    }
    accepted(text.len)
}

#[cfg(test)]
mod tests {
    use super::*;
    use crate::texts;

    type Call = fn(&[u8], &mut [u8]) -> Answer;

    /// What two calls answer and leave in the space, which has to be the same.
    fn both([tuned, same]: [Call; 2], bytes: &[u8], space: &mut [u8]) -> Answer {
        let mut other = space.to_vec();
        let answer = tuned(bytes, space);
        assert_eq!(same(bytes, &mut other), answer);
        assert!(other == space);
        answer
    }

    fn import(text: &[u8], space: &mut [u8]) -> Answer {
        both([super::import, texts::import], text, space)
    }

    fn export(sheet: &[u8], space: &mut [u8]) -> Answer {
        both([super::export, texts::export], sheet, space)
    }

    /// Number and count of the import of a text that has a bar for each end of a record; a refused one leaves the space.
    fn import_of(text: &str) -> (u64, u64) {
        let mut space = [9; 50_000];
        let answer = import(text.replace('|', "\r\n").as_bytes(), &mut space);
        assert!(answer.number == 0 || space == [9; 50_000]);
        assert_eq!((answer.low, answer.high, answer.verdict), (0, S, 0));
        (answer.number, answer.count)
    }

    /// The same of a text that begins with one weight.
    fn rows(rows: &str) -> (u64, u64) {
        import_of(&format!("run,1,2|weights,5|{rows}"))
    }

    /// The sheet of a text, and the text of that sheet.
    fn there_and_back(text: &str) -> (Vec<u8>, String) {
        let text = text.replace('|', "\r\n");
        let (mut sheet, mut back) = (vec![0; 50_000], vec![0; 800_000]);
        let answer = import(text.as_bytes(), &mut sheet);
        sheet.truncate(answer.count as usize);
        let answer = export(&sheet, &mut back);
        back.truncate(answer.count as usize);
        (sheet, String::from_utf8(back).unwrap().replace("\r\n", "|"))
    }

    const TEXT: &str = "run,10000000,40|weights,500000000,500000000,200000000|7,1,2|7,1,3|9|";

    #[test]
    fn a_sheet() {
        let (sheet, back) = there_and_back(TEXT);
        assert_eq!((sheet.len(), back.as_str()), (72, TEXT));
        let text = TEXT.replace('|', "\r\n");
        let mut space = [9; 73];
        assert_eq!(import(text.as_bytes(), &mut space[..71]).number, 22);
        assert_eq!(export(&sheet, &mut space[..72]).number, 22);
        assert_eq!(space, [9; 73]);
        assert_eq!(import(text.as_bytes(), &mut space[..72]).count, 72);
        assert_eq!(space[72], 9);
        assert_eq!(export(&sheet, &mut space).count, 73);
        assert_eq!(export(&sheet[..71], &mut space).number, 8);
    }

    #[test]
    fn a_sheet_by_share() {
        let share = TEXT.replace(",40|", ",40,1|");
        let (sheet, back) = there_and_back(&share);
        assert_eq!(
            (sheet.len(), &sheet[8..12], back),
            (72, &[40, 0, 1, 0][..], share)
        );
        let mut space = [9; 76];
        assert_eq!(export(&sheet, &mut space[..74]).number, 22);
        assert_eq!(export(&sheet, &mut space).count, 75);
        for (low, high) in [(2, 0), (0, 1), (255, 255)] {
            let other = [&sheet[..10], &[low, high], &sheet[12..]].concat();
            assert_eq!(export(&other, &mut space).number, 3);
        }
    }

    #[test]
    fn records() {
        let figures = [
            ("", (2, 0)),
            ("7|", (0, 24)),
            ("7", (0, 24)),
            ("7||", (23, 4)),
            ("7,0|", (0, 40)),
            ("7,-0", (23, 3)),
            ("7,0,1", (23, 3)),
            ("7,0,0", (23, 3)),
            ("7,1,0", (23, 3)),
            ("7|7,1|", (23, 4)),
            ("7,1|7|", (23, 4)),
            ("7|7|", (23, 4)),
            ("7|8|7,1|", (5, 0)),
            ("0,1", (5, 0)),
            ("65535,1", (0, 40)),
            ("65536,1", (23, 3)),
            ("7,", (23, 3)),
            ("7,1,", (23, 3)),
            ("7,+1", (23, 3)),
            ("7,01", (23, 3)),
            ("7, 1", (23, 3)),
            ("7,--1", (23, 3)),
        ];
        for (text, figure) in figures {
            assert_eq!(rows(text), figure, "{text}");
        }
    }

    #[test]
    fn faults() {
        let figures = [
            ("7,1,1", (23, 3)),
            ("7,100,100", (23, 3)),
            ("7,100,\"100\"|", (23, 3)),
            ("7,100,-100", (12, 0)),
            ("7,100,1000|", (12, 0)),
            ("7,1,65", (12, 0)),
            ("7,2", (12, 0)),
            ("7,9999999999", (12, 0)),
            ("7,10000000000", (23, 3)),
            ("7,1,-1", (13, 0)),
            ("7,\"\"1\"\"", (23, 3)),
            ("7,\"1", (23, 3)),
            ("7,1\"", (23, 3)),
            ("\"7|8\"", (23, 3)),
            ("7,1\n8", (23, 3)),
            ("7,1\r8", (23, 3)),
            ("7,1\r", (23, 3)),
        ];
        for (text, figure) in figures {
            assert_eq!(rows(text), figure, "{text}");
        }
    }

    #[test]
    fn first_records() {
        let figures = [
            ("", (23, 1)),
            ("|", (23, 1)),
            ("run,1,2", (23, 2)),
            ("run,1,2|", (23, 2)),
            ("run,1,2|weights|", (2, 0)),
            ("run,1,2|weights|7", (2, 0)),
            ("run,1,2|weights,1000000001|7,2", (10, 0)),
            ("run,9999999999,2|weights,5|7", (14, 0)),
            ("run,10000000000,2|weights,5|7", (23, 1)),
            ("run,1,256|weights,5|7", (15, 0)),
            ("run,01,2|weights,5|7", (23, 1)),
            ("run, 1,2|weights,5|7", (23, 1)),
            ("Run,1,2|weights,5|7", (23, 1)),
            ("run,1,2,0|weights,5|7", (23, 1)),
            ("run,1,2,1|weights,5|7", (0, 24)),
            ("run,1,2,\"1\"|weights,5|7", (0, 24)),
            ("run,1,2,2|weights,5|7", (23, 1)),
            ("run,1,2,01|weights,5|7", (23, 1)),
            ("run,1,2,11|weights,5|7", (23, 1)),
            ("run,1,2,-1|weights,5|7", (23, 1)),
            ("run,1,2,\"1|weights,5|7", (23, 1)),
            ("run,1,2,1,|weights,5|7", (23, 1)),
            ("run,1,2,1,1|weights,5|7", (23, 1)),
            ("run,1,2,|weights,5|7", (23, 1)),
            ("run,1000000001,2,1|weights,5|7", (14, 0)),
            ("run,1|weights,5|7", (23, 1)),
            ("run,1,2\nweights,5\n7", (23, 1)),
            ("\u{feff}run,1,2|weights,5|7", (23, 1)),
            ("run,1,2|weight,5|7", (23, 2)),
            ("run,1,2|weights,|7", (23, 2)),
        ];
        for (text, figure) in figures {
            assert_eq!(import_of(text), figure, "{text}");
        }
    }

    #[test]
    fn limits() {
        let weights = |n| format!("run,1,2|weights{}|7", ",5".repeat(n));
        assert_eq!(import_of(&weights(64)), (0, 276));
        assert_eq!(import_of(&weights(65)), (2, 0));
        let cues = |n| (1..=n).map(|cue| format!("{cue}|")).collect::<String>();
        assert_eq!(rows(&cues(24)), (0, 208));
        assert_eq!(rows(&cues(25)), (2, 0));
        assert_eq!(rows(&(cues(25) + "26,x")), (23, 28));
        assert_eq!(rows(&"7,1|".repeat(128)), (0, 2072));
        assert_eq!(rows(&"7,1|".repeat(129)), (6, 0));
        assert_eq!(rows(&"7,1|".repeat(70_000)), (6, 0));
    }

    #[test]
    fn any_form() {
        let quoted = there_and_back("\"run\",\"1\",\"2\"|\"weights\",\"5\"|\"7\",\"-1\"");
        assert_eq!(quoted, there_and_back("run,1,2|weights,5|7,-1|"));
        assert_eq!((quoted.0.len(), quoted.0[32]), (40, 1));
        let (_, back) = there_and_back("run,0,0|weights,1,2,3|7,3,-1|7,0|9");
        assert_eq!(back, "run,0,0|weights,1,2,3|7,-1,3|7,0|9|");
    }
}
