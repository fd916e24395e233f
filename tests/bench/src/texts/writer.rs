//! The writer of sheets: lists in, the bytes of the sheet that they give out into lent space, or a refusal. The library's crate `writer`.

use crate::csv::accepted;
use crate::formula::{MOST_FAULTS, MOST_WAYS, S};
use crate::run::{refused, Answer, Limits};
use crate::sheet::{HEAD, MOST_CUES};

// The refusals

fn faults_outside(n: usize) -> bool {
    n == 0 || n > MOST_FAULTS
}

fn cues_outside(n: usize) -> bool {
    n == 0 || n > MOST_CUES
}

/// 2: the weights or one of the two lists of cues are none or too many.
fn outside(faults: usize, cues: usize, counted: usize) -> bool {
    faults_outside(faults) || cues_outside(cues) || cues_outside(counted)
}

/// 5: the first cue number is 0, or some number is not above the one before it.
fn not_rising(numbers: &[u16]) -> bool {
    let mut last = 0;
    for &number in numbers {
        if number <= last {
            return true;
        }
        last = number;
    }
    false
}

/// 6: a way count is above 128.
fn crowded(counts: &[u16]) -> bool {
    counts.iter().any(|&count| usize::from(count) > MOST_WAYS)
}

/// 10: a weight is above S.
fn overweight(weights: &[u32]) -> bool {
    weights.iter().any(|&weight| u64::from(weight) > S)
}

/// 2, 3, 5, 6, 10 or 0.
pub fn front_number(weights: &[u32], numbers: &[u16], counts: &[u16], mode: u64) -> u64 {
    if outside(weights.len(), numbers.len(), counts.len()) {
        return 2;
    }
    if mode > 1 {
        return 3;
    }
    if not_rising(numbers) {
        return 5;
    }
    if crowded(counts) {
        return 6;
    }
    if overweight(weights) {
        return 10;
    }
    0
}

/// The word at i, 0 beyond the end.
fn word_at(words: &[u64], i: usize) -> u64 {
    if i < words.len() {
        words[i]
    } else {
        0
    }
}

/// The length of the longer list: how many rows the two give.
fn row_count(present: &[u64], absent: &[u64]) -> usize {
    present.len().max(absent.len())
}

/// A word names a fault at or above n. Of 64 faults no word names one beyond, and a shift by 64 has no meaning.
fn beyond(n: usize, word: u64) -> bool {
    n != MOST_FAULTS && word >> n != 0
}

/// 12: a way names a fault numbered n or above, where n is how many there are.
fn names_beyond(n: usize, present: &[u64], absent: &[u64]) -> bool {
    let mut rows = 0..row_count(present, absent);
    rows.any(|i| beyond(n, word_at(present, i)) || beyond(n, word_at(absent, i)))
}

/// 13: a way names a fault in both senses.
fn names_both(present: &[u64], absent: &[u64]) -> bool {
    let mut rows = 0..row_count(present, absent);
    rows.any(|i| word_at(present, i) & word_at(absent, i) != 0)
}

/// 12, 13 or 0, each test over all ways before the next.
fn way_number(n: usize, present: &[u64], absent: &[u64]) -> u64 {
    if names_beyond(n, present, absent) {
        return 12;
    }
    if names_both(present, absent) {
        return 13;
    }
    0
}

/// 14, 15 or 0.
fn limit_number(limits: Limits) -> u64 {
    if limits.allowance > S {
        return 14;
    }
    if limits.budget > 255 {
        return 15;
    }
    0
}

/// The ways that the cues count.
fn sum(counts: &[u16]) -> usize {
    counts.iter().map(|&count| usize::from(count)).sum()
}

/// 21: so many cue numbers, present and absent words do not agree with each other or with the counts.
fn disagree(cues: usize, counts: &[u16], present: usize, absent: usize) -> bool {
    cues != counts.len() || present != absent || present != sum(counts)
}

/// 2, 3, 5, 6, 10, 12 to 15, 21 or 0.
fn list_number(
    weights: &[u32],
    numbers: &[u16],
    counts: &[u16],
    present: &[u64],
    absent: &[u64],
    limits: Limits,
) -> u64 {
    let front = front_number(weights, numbers, counts, limits.mode);
    if front != 0 {
        return front;
    }
    let ways = way_number(weights.len(), present, absent);
    if ways != 0 {
        return ways;
    }
    let limit = limit_number(limits);
    if limit != 0 {
        return limit;
    }
    if disagree(numbers.len(), counts, present.len(), absent.len()) {
        return 21;
    }
    0
}

/// The number of the lists, or 22 if the sheet that they give is longer than the space.
fn write_number(
    weights: &[u32],
    numbers: &[u16],
    counts: &[u16],
    present: &[u64],
    absent: &[u64],
    limits: Limits,
    space: usize,
) -> u64 {
    let number = list_number(weights, numbers, counts, present, absent, limits);
    if number != 0 {
        return number;
    }
    let start = bodies_start(numbers.len(), weights.len());
    if space < start + 16 * present.len() {
        return 22;
    }
    0
}

// The pieces: each is written at a position of the space, and the position behind it returned

/// The lowest bytes of a number, so many as its field is wide, the lowest first.
fn put(space: &mut [u8], at: usize, width: usize, x: u64) -> usize {
    let mut next = at;
    let mut rest = x;
    let mut left = width;
    while left > 0 {
        space[next] = (rest % 256) as u8;
        next += 1;
        rest /= 256;
        left -= 1;
    }
    next
}

/// Two numbers of two bytes and one of four: the start of the head, and each entry of the contents.
fn put_row(space: &mut [u8], at: usize, a: u64, b: u64, c: u64) -> usize {
    let next = put(space, at, 2, a);
    let next = put(space, next, 2, b);
    put(space, next, 4, c)
}

/// The head: faults, cues, allowance, budget, mode.
fn put_head(space: &mut [u8], at: usize, faults: usize, cues: usize, limits: Limits) -> usize {
    let next = put_row(space, at, faults as u64, cues as u64, limits.allowance);
    let next = put(space, next, 2, limits.budget);
    put(space, next, 2, limits.mode)
}

/// The contents: an entry for each cue, whose bodies start at `start`.
fn put_contents(
    space: &mut [u8],
    at: usize,
    numbers: &[u16],
    counts: &[u16],
    start: usize,
) -> usize {
    let mut next = at;
    let mut place = start;
    for (&number, &count) in numbers.iter().zip(counts) {
        next = put_row(space, next, number.into(), count.into(), place as u64);
        place += 16 * usize::from(count);
    }
    next
}

/// The weights.
fn put_weights(space: &mut [u8], at: usize, weights: &[u32]) -> usize {
    let mut next = at;
    for &weight in weights {
        next = put(space, next, 4, weight.into());
    }
    next
}

/// One way: its present word, its absent word.
fn put_way(space: &mut [u8], at: usize, present: u64, absent: u64) -> usize {
    let next = put(space, at, 8, present);
    put(space, next, 8, absent)
}

/// The bodies, which without gaps are one body of all the words.
fn put_bodies(space: &mut [u8], at: usize, present: &[u64], absent: &[u64]) -> usize {
    let mut next = at;
    for (&present, &absent) in present.iter().zip(absent) {
        next = put_way(space, next, present, absent);
    }
    next
}

/// Where the bodies start, after the head, the contents and the weights.
fn bodies_start(cues: usize, faults: usize) -> usize {
    HEAD + 8 * cues + 4 * faults
}

/// The whole sheet: head, contents, weights, bodies.
fn put_sheet(
    space: &mut [u8],
    weights: &[u32],
    numbers: &[u16],
    counts: &[u16],
    present: &[u64],
    absent: &[u64],
    limits: Limits,
) -> usize {
    let start = bodies_start(numbers.len(), weights.len());
    let next = put_head(space, 0, weights.len(), numbers.len(), limits);
    let next = put_contents(space, next, numbers, counts, start);
    let next = put_weights(space, next, weights);
    put_bodies(space, next, present, absent)
}

/// The sheet that the lists give, at the front of the space.
pub fn write(
    weights: &[u32],
    numbers: &[u16],
    counts: &[u16],
    present: &[u64],
    absent: &[u64],
    limits: Limits,
    space: &mut [u8],
) -> Answer {
    let number = write_number(
        weights,
        numbers,
        counts,
        present,
        absent,
        limits,
        space.len(),
    );
    if number == 0 {
        let end = put_sheet(space, weights, numbers, counts, present, absent, limits);
        return accepted(end);
    }
    refused(number)
}
