//! Risk sheets: the refusals of reading and of writing, one cue at a position of the
//! contents, and the bytes themselves, little-endian throughout.

use crate::leaf::Interval;
use crate::table::{any_weight_above_s, words_number};
use crate::{Answer, Limits, Table, MOST_CUES, MOST_FAULTS, MOST_REFINEMENTS, MOST_WAYS, S, SHARE};

const HEAD: usize = 12;
const CONTENTS_LINE: usize = 8;
const WEIGHT: usize = 4;
const WAY: usize = 16;

/// A sheet as lists: what the writer is given and what a decoded sheet holds. The ways
/// of all cues follow one another, `counts` says how many belong to each. The limits are
/// wider than their fields in a sheet, since the writer judges them as they are given.
#[derive(Clone, Debug, Default, PartialEq, Eq)]
pub struct Sheet {
    pub weights: Vec<u32>,
    pub cues: Vec<u16>,
    pub counts: Vec<u16>,
    pub present: Vec<u64>,
    pub absent: Vec<u64>,
    pub allowance: u64,
    pub budget: u64,
    pub mode: u64,
}

impl Sheet {
    /// What the run of each cue is asked for.
    pub fn limits(&self) -> Limits {
        Limits {
            allowance: self.allowance,
            budget: self.budget,
            mode: self.mode,
        }
    }
}

/// What one call of a reader hands over, and its place in the contents afterwards.
#[derive(Clone, Copy, Debug, PartialEq, Eq)]
pub struct Handed {
    pub number: u64,
    pub cue: u64,
    pub ways: u64,
    /// Where the cue's body begins, in bytes from the start of the sheet.
    pub body: u64,
    /// Said past the last cue.
    pub ended: bool,
    pub position: usize,
}

/// An unsigned field of the given width; bytes that the sheet lacks are 0.
fn field(bytes: &[u8], at: usize, width: usize) -> u64 {
    let byte = |i: usize| bytes.get(at + i).copied().map_or(0, u64::from);
    (0..width).rev().fold(0, |value, i| value << 8 | byte(i))
}

/// The fields of a sheet, by the layout alone; none of them is believed yet.
struct Layout<'a> {
    bytes: &'a [u8],
    faults: usize,
    cues: usize,
}

impl Layout<'_> {
    fn new(bytes: &[u8]) -> Layout<'_> {
        Layout {
            bytes,
            faults: field(bytes, 0, 2) as usize,
            cues: field(bytes, 2, 2) as usize,
        }
    }

    fn allowance(&self) -> u64 {
        field(self.bytes, 4, 4)
    }

    fn budget(&self) -> u64 {
        field(self.bytes, 8, 2)
    }

    fn mode(&self) -> u64 {
        field(self.bytes, 10, 2)
    }

    fn cue(&self, position: usize) -> u64 {
        field(self.bytes, HEAD + CONTENTS_LINE * position, 2)
    }

    fn count(&self, position: usize) -> u64 {
        field(self.bytes, HEAD + CONTENTS_LINE * position + 2, 2)
    }

    fn body(&self, position: usize) -> u64 {
        field(self.bytes, HEAD + CONTENTS_LINE * position + 4, 4)
    }

    fn weights(&self) -> Vec<u32> {
        let from = HEAD + CONTENTS_LINE * self.cues;
        (0..self.faults)
            .map(|fault| field(self.bytes, from + WEIGHT * fault, WEIGHT) as u32)
            .collect()
    }

    /// Where the weights end and the bodies begin.
    fn bodies(&self) -> usize {
        HEAD + CONTENTS_LINE * self.cues + WEIGHT * self.faults
    }

    /// Where a cue's body has to begin if all before it stand without gaps.
    fn due(&self, position: usize) -> u64 {
        let before: u64 = (0..position).map(|earlier| self.count(earlier)).sum();
        self.bodies() as u64 + WAY as u64 * before
    }

    /// The present words of all bodies, or with offset 8 the absent words.
    fn words(&self, offset: usize) -> Vec<u64> {
        let ways = (self.due(self.cues) as usize - self.bodies()) / WAY;
        (0..ways)
            .map(|way| field(self.bytes, self.bodies() + WAY * way + offset, 8))
            .collect()
    }
}

/// The first of refusals 1 to 8, 10, 12 to 15 that applies to a sheet, or 0.
pub fn sheet_number(bytes: &[u8]) -> u64 {
    let sheet = Layout::new(bytes);
    if bytes.len() < HEAD {
        return 1;
    }
    if wrong_numbers(sheet.faults, MOST_FAULTS) || wrong_numbers(sheet.cues, MOST_CUES) {
        return 2;
    }
    if sheet.mode() > SHARE {
        return 3;
    }
    if bytes.len() < sheet.bodies() {
        return 4;
    }
    let all = 0..sheet.cues;
    if !rising(all.clone().map(|position| sheet.cue(position))) {
        return 5;
    }
    if all
        .clone()
        .any(|position| sheet.count(position) > MOST_WAYS as u64)
    {
        return 6;
    }
    if all
        .clone()
        .any(|position| sheet.body(position) != sheet.due(position))
    {
        return 7;
    }
    if bytes.len() as u64 != sheet.due(sheet.cues) {
        return 8;
    }
    content_number(
        &sheet.weights(),
        &sheet.words(0),
        &sheet.words(8),
        sheet.allowance(),
        sheet.budget(),
    )
}

/// The first of refusals 2, 3, 5, 6, 10, 12 to 15, 21, 22 that applies to writing, or 0.
pub fn writing_number(sheet: &Sheet, space: usize) -> u64 {
    let wrong_cues =
        wrong_numbers(sheet.cues.len(), MOST_CUES) || wrong_numbers(sheet.counts.len(), MOST_CUES);
    if wrong_numbers(sheet.weights.len(), MOST_FAULTS) || wrong_cues {
        return 2;
    }
    if sheet.mode > SHARE {
        return 3;
    }
    if !rising(sheet.cues.iter().copied().map(u64::from)) {
        return 5;
    }
    if sheet
        .counts
        .iter()
        .any(|&count| usize::from(count) > MOST_WAYS)
    {
        return 6;
    }
    let number = content_number(
        &sheet.weights,
        &sheet.present,
        &sheet.absent,
        sheet.allowance,
        sheet.budget,
    );
    if number != 0 {
        return number;
    }
    let counted: usize = sheet.counts.iter().copied().map(usize::from).sum();
    if sheet.cues.len() != sheet.counts.len()
        || sheet.present.len() != counted
        || sheet.absent.len() != counted
    {
        return 21;
    }
    if space < length(sheet) {
        return 22;
    }
    0
}

/// Refusal 2 for one of its two numbers.
fn wrong_numbers(number: usize, most: usize) -> bool {
    number == 0 || number > most
}

/// Refusal 5: each cue number above the one before it, the first above 0.
fn rising(cues: impl Iterator<Item = u64>) -> bool {
    let mut before = 0;
    for cue in cues {
        if cue <= before {
            return false;
        }
        before = cue;
    }
    true
}

/// Refusals 10 and 12 to 15, which reading and writing have in common.
fn content_number(
    weights: &[u32],
    present: &[u64],
    absent: &[u64],
    allowance: u64,
    budget: u64,
) -> u64 {
    if any_weight_above_s(weights) {
        return 10;
    }
    match words_number(weights.len(), present, absent) {
        0 if allowance > S => 14,
        0 if budget > MOST_REFINEMENTS => 15,
        number => number,
    }
}

/// Reading a whole sheet.
pub fn read(bytes: &[u8]) -> Answer {
    match sheet_number(bytes) {
        0 => Answer::accepted(Interval { low: 0, high: S }, 0),
        number => Answer::refused(number),
    }
}

/// A sheet's lists, or the number that refuses it.
pub fn decode(bytes: &[u8]) -> Result<Sheet, u64> {
    let number = sheet_number(bytes);
    if number != 0 {
        return Err(number);
    }
    let sheet = Layout::new(bytes);
    Ok(Sheet {
        weights: sheet.weights(),
        cues: (0..sheet.cues)
            .map(|position| sheet.cue(position) as u16)
            .collect(),
        counts: (0..sheet.cues)
            .map(|position| sheet.count(position) as u16)
            .collect(),
        present: sheet.words(0),
        absent: sheet.words(8),
        allowance: sheet.allowance(),
        budget: sheet.budget(),
        mode: sheet.mode(),
    })
}

/// One call of a reader at a position of the contents. The whole sheet's refusal comes
/// first, also past the last cue; refused or past the last, the place is kept.
pub fn cue_at(bytes: &[u8], position: usize) -> Handed {
    let number = sheet_number(bytes);
    let sheet = Layout::new(bytes);
    let past = position >= sheet.cues;
    if number != 0 || past {
        return Handed {
            number,
            cue: 0,
            ways: 0,
            body: 0,
            ended: number == 0,
            position,
        };
    }
    Handed {
        number: 0,
        cue: sheet.cue(position),
        ways: sheet.count(position),
        body: sheet.body(position),
        ended: false,
        position: position + 1,
    }
}

/// The table of the cue at a position; none past the last or if the lists do not reach.
pub fn cue_table(sheet: &Sheet, position: usize) -> Option<Table> {
    let count = usize::from(*sheet.counts.get(position)?);
    let from: usize = sheet.counts[..position]
        .iter()
        .copied()
        .map(usize::from)
        .sum();
    Some(Table {
        weights: sheet.weights.clone(),
        present: sheet.present.get(from..from + count)?.to_vec(),
        absent: sheet.absent.get(from..from + count)?.to_vec(),
    })
}

/// A sheet with cue 1 alone, of this table, whose run is asked for this.
pub fn of_one_cue(table: Table, limits: Limits) -> Sheet {
    Sheet {
        cues: vec![1],
        counts: vec![table.present.len() as u16],
        weights: table.weights,
        present: table.present,
        absent: table.absent,
        allowance: limits.allowance,
        budget: limits.budget,
        mode: limits.mode,
    }
}

/// A sheet with cue 1 for the first table, 2 for the next and so on, each with faults of its own, with allowance 0.
pub fn of_tables(tables: impl Iterator<Item = Table>, budget: u64) -> Sheet {
    let mut sheet = Sheet {
        budget,
        ..Sheet::default()
    };
    for (table, cue) in tables.zip(1..) {
        let first = sheet.weights.len();
        let moved = |word: &u64| word << first;
        sheet.cues.push(cue);
        sheet.counts.push(table.present.len() as u16);
        sheet.present.extend(table.present.iter().map(moved));
        sheet.absent.extend(table.absent.iter().map(moved));
        sheet.weights.extend(table.weights);
    }
    sheet
}

/// The length of the sheet that these lists give.
pub fn length(sheet: &Sheet) -> usize {
    let counted: usize = sheet.counts.iter().copied().map(usize::from).sum();
    HEAD + CONTENTS_LINE * sheet.cues.len() + WEIGHT * sheet.weights.len() + WAY * counted
}

/// The bytes that the layout gives, no refusal tried: sound for lists that agree, and
/// useful for bad sheets too. A number that its field does not hold is cut.
pub fn encode(sheet: &Sheet) -> Vec<u8> {
    let mut bytes = Vec::new();
    bytes.extend((sheet.weights.len() as u16).to_le_bytes());
    bytes.extend((sheet.cues.len() as u16).to_le_bytes());
    bytes.extend((sheet.allowance as u32).to_le_bytes());
    bytes.extend((sheet.budget as u16).to_le_bytes());
    bytes.extend((sheet.mode as u16).to_le_bytes());
    let mut body = HEAD + CONTENTS_LINE * sheet.cues.len() + WEIGHT * sheet.weights.len();
    for (cue, count) in sheet.cues.iter().zip(&sheet.counts) {
        bytes.extend(cue.to_le_bytes());
        bytes.extend(count.to_le_bytes());
        bytes.extend((body as u32).to_le_bytes());
        body += WAY * usize::from(*count);
    }
    for weight in &sheet.weights {
        bytes.extend(weight.to_le_bytes());
    }
    for (present, absent) in sheet.present.iter().zip(&sheet.absent) {
        bytes.extend(present.to_le_bytes());
        bytes.extend(absent.to_le_bytes());
    }
    bytes
}

/// Writing a sheet: the front of the space is filled and the rest stays; refused, all stays.
pub fn write(sheet: &Sheet, space: &mut [u8]) -> Answer {
    match writing_number(sheet, space.len()) {
        0 => lay(&encode(sheet), space),
        number => Answer::refused(number),
    }
}

/// An output laid into lent space, with the bytes counted; refused 22 if the space is shorter.
pub fn lay(output: &[u8], space: &mut [u8]) -> Answer {
    match space.get_mut(..output.len()) {
        None => Answer::refused(22),
        Some(front) => {
            front.copy_from_slice(output);
            Answer::accepted(Interval { low: 0, high: S }, output.len() as u64)
        }
    }
}
