//! A text read in one pass into the lists of the sheet that it says, then the writer's call on those lists. The library's crate `csv_import`.

use super::rows::{row, run, weights as weights_in, RowSaid};
use super::writer::{front_number, write};
use crate::formula::{MOST_FAULTS, MOST_WAYS};
use crate::run::{refused, Answer, Limits};
use crate::sheet::MOST_CUES;

/// The cues and the ways so far, the ways of the last cue, and whether some way names a fault beyond the 64th;
/// of the last record its cue number and whether it has a way.
#[derive(Clone, Copy)]
struct Sums {
    cues: usize,
    ways: usize,
    count: usize,
    far: bool,
    cue: u16,
    way: bool,
}

/// Before the first record.
fn no_sums() -> Sums {
    Sums {
        cues: 0,
        ways: 0,
        count: 0,
        far: false,
        cue: 0,
        way: false,
    }
}

/// A record begins a cue: it is the first, or its number is not that of the record before.
fn begins_cue(s: Sums, r: RowSaid) -> bool {
    s.cues == 0 || s.cue != r.cue
}

/// The record may follow the one before: it begins a cue, or both have a way.
fn may_follow(s: Sums, r: RowSaid) -> bool {
    begins_cue(s, r) || s.way && r.way
}

/// One more if the test says so.
fn more(n: usize, test: bool) -> usize {
    if test {
        return n + 1;
    }
    n
}

/// The sums with one record more.
fn with_row(s: Sums, r: RowSaid) -> Sums {
    let ways = more(s.ways, r.way);
    let far = s.far || r.far;
    if begins_cue(s, r) {
        return Sums {
            cues: s.cues + 1,
            ways,
            count: more(0, r.way),
            far,
            cue: r.cue,
            way: r.way,
        };
    }
    Sums {
        cues: s.cues,
        ways,
        count: more(s.count, r.way),
        far,
        cue: r.cue,
        way: r.way,
    }
}

/// A number at a place, if the list has that place.
fn keep<T>(list: &mut [T], i: usize, v: T) {
    if i < list.len() {
        list[i] = v;
    }
}

/// A count of ways, cut to one above the limit.
fn cut_count(n: usize) -> u16 {
    n.min(MOST_WAYS + 1) as u16
}

/// The last record, which is part of the sums already: its number and the count of its cue at the last cue, its words, if it has a way, at the last way.
fn keep_row(
    r: RowSaid,
    s: Sums,
    numbers: &mut [u16],
    counts: &mut [u16],
    present: &mut [u64],
    absent: &mut [u64],
) {
    keep(numbers, s.cues - 1, r.cue);
    keep(counts, s.cues - 1, cut_count(s.count));
    if r.way {
        keep(present, s.ways - 1, r.present);
        keep(absent, s.ways - 1, r.absent);
    }
}

/// What was read of the records of ways: the number of the first that is misread; where none is, the cues, the ways,
/// and whether some way names a fault beyond the 64th.
struct RowsRead {
    misread: u64,
    cues: usize,
    ways: usize,
    far: bool,
}

/// What was read of a text: likewise, with the limits and how many weights there are.
struct TextRead {
    misread: u64,
    limits: Limits,
    faults: usize,
    cues: usize,
    ways: usize,
    far: bool,
}

/// The records of ways from a position on, of which the first is the third of the text.
fn read_rows(
    text: &[u8],
    start: usize,
    numbers: &mut [u16],
    counts: &mut [u16],
    present: &mut [u64],
    absent: &mut [u64],
) -> RowsRead {
    let mut s = no_sums();
    let mut k = 3;
    let mut at = start;
    while at < text.len() {
        let r = row(text, at);
        if !r.good {
            return misread_row(k);
        }
        if !may_follow(s, r) {
            return misread_row(k);
        }
        s = with_row(s, r);
        keep_row(r, s, numbers, counts, present, absent);
        k += 1;
        at = r.next;
    }
    RowsRead {
        misread: 0,
        cues: s.cues,
        ways: s.ways,
        far: s.far,
    }
}

/// Record k is misread.
fn misread_row(k: u64) -> RowsRead {
    RowsRead {
        misread: k,
        cues: 0,
        ways: 0,
        far: false,
    }
}

/// Record k, the first or the second, is misread.
fn misread_at(k: u64) -> TextRead {
    TextRead {
        misread: k,
        limits: Limits::default(),
        faults: 0,
        cues: 0,
        ways: 0,
        far: false,
    }
}

/// The whole text.
fn read_text(
    text: &[u8],
    weights: &mut [u32],
    numbers: &mut [u16],
    counts: &mut [u16],
    present: &mut [u64],
    absent: &mut [u64],
) -> TextRead {
    if text.is_empty() {
        return misread_at(1);
    }
    let first = run(text, 0);
    if !first.good {
        return misread_at(1);
    }
    let second = first.next;
    if text.len() <= second {
        return misread_at(2);
    }
    let w = weights_in(text, second, weights);
    if !w.good {
        return misread_at(2);
    }
    let rows = read_rows(text, w.next, numbers, counts, present, absent);
    TextRead {
        misread: rows.misread,
        limits: first.limits,
        faults: w.count,
        cues: rows.cues,
        ways: rows.ways,
        far: rows.far,
    }
}

/// 2, 5, 6, 10 or 0 of lists of which so many weights and cues were said; the mode is known. More than a sheet may have were not all kept,
/// and are 2 at once.
fn front(said: &TextRead, weights: &[u32], numbers: &[u16], counts: &[u16]) -> u64 {
    let (faults, cues) = (said.faults, said.cues);
    if faults > MOST_FAULTS {
        return 2;
    }
    if cues > MOST_CUES {
        return 2;
    }
    let mode = said.limits.mode;
    front_number(&weights[..faults], &numbers[..cues], &counts[..cues], mode)
}

/// The sheet that a text says, at the front of the space.
pub fn import(text: &[u8], space: &mut [u8]) -> Answer {
    let mut weights = [0; MOST_FAULTS];
    let mut numbers = [0; MOST_CUES];
    let mut counts = [0; MOST_CUES];
    let mut present = [0; MOST_CUES * MOST_WAYS];
    let mut absent = [0; MOST_CUES * MOST_WAYS];
    let said = read_text(
        text,
        &mut weights,
        &mut numbers,
        &mut counts,
        &mut present,
        &mut absent,
    );
    if said.misread != 0 {
        return Answer {
            count: said.misread,
            ..refused(23)
        };
    }
    let number = front(&said, &weights, &numbers, &counts);
    if number != 0 {
        return refused(number);
    }
    if said.far {
        return refused(12);
    }
    write(
        &weights[..said.faults],
        &numbers[..said.cues],
        &counts[..said.cues],
        &present[..said.ways],
        &absent[..said.ways],
        said.limits,
        space,
    )
}
