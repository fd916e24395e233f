//! A sheet's bytes read, the text that they say measured, then written into lent space. The library's crate `csv_export`.
//! The sheet is read by the reader of `sheet`, as for its report.

use super::decimal::digits_of;
use crate::csv::accepted;
use crate::formula::MOST_FAULTS;
use crate::run::{refused, Answer, Limits};
use crate::sheet::{self, u64_at, Sheet};

/// A cue as the contents state it.
struct Entry {
    cue: u16,
    ways: usize,
    start: usize,
}

fn stated_entry(sheet: &Sheet, i: usize) -> Entry {
    Entry {
        cue: sheet.cue(i),
        ways: sheet.ways(i),
        start: sheet.place(i),
    }
}

/// The weights of the sheet.
fn weights(sheet: &Sheet) -> [u32; MOST_FAULTS] {
    let mut weights = [0; MOST_FAULTS];
    for (fault, weight) in weights[..sheet.faults].iter_mut().enumerate() {
        *weight = sheet.weight(fault);
    }
    weights
}

// The length

/// A comma and a number.
fn field_length(n: u64) -> usize {
    21 - digits_of(n).from
}

/// What stands behind the cue: a comma before each fault, a minus before one that is absent,
/// and one digit for each of the first nine faults, two for any other.
fn faults_length(present: u64, absent: u64) -> usize {
    if present | absent == 0 {
        return 2;
    }
    let p = 2 * present.count_ones() + (present / 512).count_ones();
    let q = 3 * absent.count_ones() + (absent / 512).count_ones();
    (p + q) as usize
}

/// The records of an entry, each word read where it stands.
fn cue_length(sheet: &Sheet, entry: Entry) -> usize {
    let ends = 22 - digits_of(entry.cue.into()).from;
    if entry.ways == 0 {
        return ends;
    }
    let mut sum = 0;
    for i in 0..entry.ways {
        let present = u64_at(sheet.bytes, entry.start + 16 * i);
        let absent = u64_at(sheet.bytes, entry.start + 8 + 16 * i);
        sum += ends + faults_length(present, absent);
    }
    sum
}

/// The records of all cues.
fn cues_length(sheet: &Sheet) -> usize {
    let mut sum = 0;
    for i in 0..sheet.cues {
        sum += cue_length(sheet, stated_entry(sheet, i));
    }
    sum
}

/// The weights, a comma before each.
fn weights_length(weights: &[u32]) -> usize {
    let mut sum = 0;
    for &weight in weights {
        sum += field_length(weight.into());
    }
    sum
}

/// The third number of the first record, which is there by share alone.
fn mode_length(mode: u64) -> usize {
    if mode == 1 {
        2
    } else {
        0
    }
}

/// The two records in front of the cues.
fn front_length(limits: Limits, weights: &[u32]) -> usize {
    let limits_length = field_length(limits.allowance) + field_length(limits.budget);
    14 + limits_length + mode_length(limits.mode) + weights_length(weights)
}

fn text_length(sheet: &Sheet) -> usize {
    let front = front_length(sheet.limits(), &weights(sheet)[..sheet.faults]);
    front + cues_length(sheet)
}

// The pieces: each is written at a position of the space, and the position behind it returned

/// Bytes as they are.
fn put_bytes(space: &mut [u8], at: usize, piece: &[u8]) -> usize {
    let mut next = at;
    for &byte in piece {
        space[next] = byte;
        next += 1;
    }
    next
}

/// The end of a record: CR LF.
fn put_end(space: &mut [u8], at: usize) -> usize {
    space[at] = b'\r';
    space[at + 1] = b'\n';
    at + 2
}

/// A number of one digit or two.
fn put_short(space: &mut [u8], at: usize, n: u64) -> usize {
    if n < 10 {
        space[at] = b'0' + n as u8;
        return at + 1;
    }
    space[at] = b'0' + (n / 10) as u8;
    space[at + 1] = b'0' + (n % 10) as u8;
    at + 2
}

/// A comma and a fault. The minus needs no test: of a fault that is present, the first digit is written over it.
fn put_fault(space: &mut [u8], at: usize, place: u64, absent: bool) -> usize {
    space[at] = b',';
    space[at + 1] = b'-';
    put_short(space, at + 1 + usize::from(absent), place + 1)
}

/// A comma and a fault, if the way names it.
fn put_named(space: &mut [u8], at: usize, yes: bool, place: u64, absent: bool) -> usize {
    if !yes {
        return at;
    }
    put_fault(space, at, place, absent)
}

/// The fault at a place that the two words name. Where they share no fault, it is named in one sense.
fn put_place(space: &mut [u8], at: usize, i: u64, present: u64, absent: u64) -> usize {
    if present & absent == 0 {
        return put_fault(space, at, i, (absent >> i) & 1 == 1);
    }
    let next = put_named(space, at, (present >> i) & 1 == 1, i, false);
    put_named(space, next, (absent >> i) & 1 == 1, i, true)
}

/// What stands behind the cue: the faults that the two words name, rising, or `0` if they name none.
fn put_faults(space: &mut [u8], at: usize, present: u64, absent: u64) -> usize {
    if present | absent == 0 {
        return put_bytes(space, at, b",0");
    }
    let mut next = at;
    let mut left = present | absent;
    while left != 0 {
        let i = u64::from(left.trailing_zeros());
        next = put_place(space, next, i, present, absent);
        left &= left - 1;
    }
    next
}

/// The record of a way behind the digits of its cue.
fn put_way(space: &mut [u8], at: usize, cue: &[u8], present: u64, absent: u64) -> usize {
    let next = put_bytes(space, at, cue);
    let next = put_faults(space, next, present, absent);
    put_end(space, next)
}

/// The records of the ways of an entry behind the digits of its cue, each word read where it stands.
fn put_ways(space: &mut [u8], at: usize, cue: &[u8], sheet: &Sheet, entry: Entry) -> usize {
    let mut next = at;
    for i in 0..entry.ways {
        let present = u64_at(sheet.bytes, entry.start + 16 * i);
        let absent = u64_at(sheet.bytes, entry.start + 8 + 16 * i);
        next = put_way(space, next, cue, present, absent);
    }
    next
}

/// The records of an entry; without ways, the cue's number alone.
fn put_entry(space: &mut [u8], at: usize, sheet: &Sheet, entry: Entry) -> usize {
    let digits = digits_of(entry.cue.into());
    let cue = &digits.bytes[digits.from..];
    if entry.ways == 0 {
        let next = put_bytes(space, at, cue);
        return put_end(space, next);
    }
    put_ways(space, at, cue, sheet, entry)
}

// The whole text

/// A comma and a number.
fn put_field(space: &mut [u8], at: usize, n: u64) -> usize {
    let digits = digits_of(n);
    space[at] = b',';
    put_bytes(space, at + 1, &digits.bytes[digits.from..])
}

/// The weights, a comma before each.
fn put_weights(space: &mut [u8], at: usize, weights: &[u32]) -> usize {
    let mut next = at;
    for &weight in weights {
        next = put_field(space, next, weight.into());
    }
    next
}

/// The third number of the first record, by share alone.
fn put_mode(space: &mut [u8], at: usize, mode: u64) -> usize {
    if mode == 1 {
        return put_bytes(space, at, b",1");
    }
    at
}

/// The two records in front of the cues.
fn put_front(space: &mut [u8], at: usize, limits: Limits, weights: &[u32]) -> usize {
    let next = put_bytes(space, at, b"run");
    let next = put_field(space, next, limits.allowance);
    let next = put_field(space, next, limits.budget);
    let next = put_mode(space, next, limits.mode);
    let next = put_bytes(space, next, b"\r\nweights");
    let next = put_weights(space, next, weights);
    put_end(space, next)
}

/// The records of all cues.
fn put_cues(space: &mut [u8], at: usize, sheet: &Sheet) -> usize {
    let mut next = at;
    for i in 0..sheet.cues {
        next = put_entry(space, next, sheet, stated_entry(sheet, i));
    }
    next
}

fn put_text(space: &mut [u8], sheet: &Sheet) -> usize {
    let weights = weights(sheet);
    let next = put_front(space, 0, sheet.limits(), &weights[..sheet.faults]);
    put_cues(space, next, sheet)
}

/// The text of a sheet, at the front of the space.
pub fn export(bytes: &[u8], space: &mut [u8]) -> Answer {
    let sheet = match sheet::read(bytes) {
        Ok(sheet) => sheet,
        Err(number) => return refused(number),
    };
    if space.len() < text_length(&sheet) {
        return refused(22);
    }
    accepted(put_text(space, &sheet))
}
