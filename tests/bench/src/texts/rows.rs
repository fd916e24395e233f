//! One line of a text read by one cursor, each byte once: its fields, and what it says as the record of the limits, of the weights or of a way.
//! The library's crate `csv_rows`.

use crate::run::Limits;

// The cursor

/// CR LF stands at a position.
fn breaks(text: &[u8], i: usize) -> bool {
    if text[i] != b'\r' {
        return false;
    }
    if text.len() - i == 1 {
        return false;
    }
    text[i + 1] == b'\n'
}

/// The number at a position of a text, and where its digits end.
struct NumberAt {
    value: u64,
    end: usize,
}

/// What was read of a field, and where that ends: a number, perhaps behind a minus, or a word; not good, it is neither. A word has value 0.
struct ReadAt {
    good: bool,
    absent: bool,
    value: u64,
    end: usize,
}

/// A field of a text as a number, perhaps behind a minus, whether a further field follows, and the position behind the byte that ends it:
/// that field starts there, or else the next line one further on.
struct FieldAt {
    good: bool,
    absent: bool,
    value: u64,
    more: bool,
    next: usize,
}

/// A byte stands at a position.
fn stands(text: &[u8], i: usize, byte: u8) -> bool {
    i < text.len() && text[i] == byte
}

/// A record ends at a position.
fn ends(text: &[u8], i: usize) -> bool {
    if i < text.len() {
        return breaks(text, i);
    }
    true
}

/// The number at a position: `0`, or up to ten digits of which the first is another.
fn number_at(text: &[u8], at: usize) -> NumberAt {
    if stands(text, at, b'0') {
        return NumberAt {
            value: 0,
            end: at + 1,
        };
    }
    let mut value = 0;
    let mut i = at;
    while i < text.len() {
        let byte = text[i];
        if !byte.is_ascii_digit() {
            return NumberAt { value, end: i };
        }
        if value > 999_999_999 {
            return NumberAt { value, end: i };
        }
        value = 10 * value + u64::from(byte - b'0');
        i += 1;
    }
    NumberAt { value, end: i }
}

/// The number at a position, perhaps behind a minus.
fn signed_at(text: &[u8], at: usize) -> ReadAt {
    let absent = stands(text, at, b'-');
    let mut from = at;
    if absent {
        from = at + 1;
        if from == text.len() {
            return ReadAt {
                good: false,
                absent,
                value: 0,
                end: from,
            };
        }
    }
    let n = number_at(text, from);
    ReadAt {
        good: from < n.end,
        absent,
        value: n.value,
        end: n.end,
    }
}

/// What was read of a field that must end at a position.
fn ended(text: &[u8], c: ReadAt, end: usize) -> FieldAt {
    if stands(text, end, b',') {
        return FieldAt {
            good: c.good,
            absent: c.absent,
            value: c.value,
            more: true,
            next: end + 1,
        };
    }
    FieldAt {
        good: c.good && ends(text, end),
        absent: c.absent,
        value: c.value,
        more: false,
        next: end + 1,
    }
}

/// The field that a quote at a position opens.
fn quoted_at(text: &[u8], at: usize) -> FieldAt {
    let c = signed_at(text, at + 1);
    let end = c.end;
    if stands(text, end, b'"') {
        return ended(text, c, end + 1);
    }
    FieldAt {
        good: false,
        absent: c.absent,
        value: c.value,
        more: false,
        next: end,
    }
}

/// The field at a position, read as a number, perhaps behind a minus. Quotes are rare: they have a path of their own.
fn field_at(text: &[u8], at: usize) -> FieldAt {
    if stands(text, at, b'"') {
        return quoted_at(text, at);
    }
    let c = signed_at(text, at);
    let end = c.end;
    ended(text, c, end)
}

/// The field at a position, read as a number without a minus.
fn numeral_at(text: &[u8], at: usize) -> FieldAt {
    let mut f = field_at(text, at);
    if f.absent {
        f.good = false;
    }
    f
}

/// The bytes of a word at a position, as far as they stand there.
fn spelled(text: &[u8], at: usize, word: &[u8]) -> ReadAt {
    let mut n = 0;
    let mut end = at;
    while n < word.len() {
        if !stands(text, end, word[n]) {
            return ReadAt {
                good: false,
                absent: false,
                value: 0,
                end,
            };
        }
        n += 1;
        end += 1;
    }
    ReadAt {
        good: true,
        absent: false,
        value: 0,
        end,
    }
}

/// The field at a position, read as a word.
fn word_at(text: &[u8], at: usize, word: &[u8]) -> FieldAt {
    if stands(text, at, b'"') {
        let c = spelled(text, at + 1, word);
        let end = c.end;
        if stands(text, end, b'"') {
            return ended(text, c, end + 1);
        }
        return FieldAt {
            good: false,
            absent: false,
            value: 0,
            more: false,
            next: end,
        };
    }
    let c = spelled(text, at, word);
    let end = c.end;
    ended(text, c, end)
}

// The first two records

/// What a line says as the record of the limits, and where the next line starts; not good, all limits are 0.
pub struct RunSaid {
    pub good: bool,
    pub limits: Limits,
    pub next: usize,
}

/// The record of the limits in the line at a position: `run`, allowance, budget, and `1` by share.
pub fn run(text: &[u8], at: usize) -> RunSaid {
    let none = RunSaid {
        good: false,
        limits: Limits::default(),
        next: at,
    };
    let w = word_at(text, at, b"run");
    if !(w.good && w.more) {
        return none;
    }
    let a = numeral_at(text, w.next);
    if !(a.good && a.more) {
        return none;
    }
    let b = numeral_at(text, a.next);
    if !b.good {
        return none;
    }
    let said = |mode, next| RunSaid {
        good: true,
        limits: Limits {
            allowance: a.value,
            budget: b.value,
            mode,
        },
        next,
    };
    if !b.more {
        return said(0, b.next + 1);
    }
    let m = numeral_at(text, b.next);
    if !m.good || m.more || m.value != 1 {
        return none;
    }
    said(1, m.next + 1)
}

/// What a line says as the record of the weights: how many there are; not good, the count is 0. Then where the next line starts.
pub struct WeightsSaid {
    pub good: bool,
    pub count: usize,
    pub next: usize,
}

/// A weight, cut to one above the limit.
fn cut(weight: u64) -> u32 {
    weight.min(1_000_000_001) as u32
}

/// The record of the weights in the line at a position: `weights`, then each weight. The list takes as many as it has room for; all are counted.
pub fn weights(text: &[u8], start: usize, weights: &mut [u32]) -> WeightsSaid {
    let none = WeightsSaid {
        good: false,
        count: 0,
        next: start,
    };
    let word = word_at(text, start, b"weights");
    if !word.good {
        return none;
    }
    let mut at = word.next;
    let mut more = word.more;
    let mut count = 0;
    while more {
        let w = numeral_at(text, at);
        if !w.good {
            return none;
        }
        if count < weights.len() {
            weights[count] = cut(w.value);
        }
        count += 1;
        at = w.next;
        more = w.more;
    }
    WeightsSaid {
        good: true,
        count,
        next: at + 1,
    }
}

// The records of ways

/// A fault by its place, and in which sense it is named.
#[derive(Clone, Copy, PartialEq, Eq)]
struct Fault {
    place: u64,
    absent: bool,
}

/// A field as a fault, whether a further field follows, and where that or the next line starts, as with `FieldAt`.
struct FaultAt {
    good: bool,
    fault: Fault,
    more: bool,
    next: usize,
}

/// The words of faults, and whether one of them is beyond the 64th.
#[derive(Clone, Copy)]
struct Words {
    far: bool,
    present: u64,
    absent: u64,
}

/// Fields as the faults of a way, and where the next line starts; not good, the words are 0.
struct NamesSaid {
    good: bool,
    words: Words,
    next: usize,
}

/// What a line says as the record of a way: its cue, whether there is a way, whether that names a fault beyond the 64th,
/// and if not, the words of the faults that it names. Then where the next line starts.
#[derive(Clone, Copy)]
pub struct RowSaid {
    pub good: bool,
    pub cue: u16,
    pub way: bool,
    pub far: bool,
    pub present: u64,
    pub absent: u64,
    pub next: usize,
}

/// A field as a fault.
fn fault_of(f: FieldAt) -> FaultAt {
    if f.value == 0 {
        return FaultAt {
            good: false,
            fault: Fault {
                place: 0,
                absent: f.absent,
            },
            more: f.more,
            next: f.next,
        };
    }
    FaultAt {
        good: f.good,
        fault: Fault {
            place: f.value - 1,
            absent: f.absent,
        },
        more: f.more,
        next: f.next,
    }
}

/// The field at a position as a fault. A bare field is read in place, as this is done for every fault of a text.
fn fault_at(text: &[u8], at: usize) -> FaultAt {
    if stands(text, at, b'"') {
        return fault_of(quoted_at(text, at));
    }
    let c = signed_at(text, at);
    let end = c.end;
    fault_of(ended(text, c, end))
}

/// The fault is among those that are left from a position on, in the same sense, if all fields there are faults.
fn among(x: Fault, text: &[u8], more: bool, start: usize) -> bool {
    let mut at = start;
    let mut left = more;
    while left {
        let y = fault_of(field_at(text, at));
        if !y.good {
            return false;
        }
        if x == y.fault {
            return true;
        }
        at = y.next;
        left = y.more;
    }
    false
}

/// A near fault is in the word of its sense.
fn named(w: Words, x: Fault) -> bool {
    if x.absent {
        return (w.absent >> x.place) % 2 == 1;
    }
    (w.present >> x.place) % 2 == 1
}

/// The fault was named before, or, if it is far, is named behind a position.
fn named_twice(w: Words, x: Fault, text: &[u8], more: bool, at: usize) -> bool {
    if x.place < 64 {
        return named(w, x);
    }
    among(x, text, more, at)
}

/// The words with one fault more.
fn with_fault(w: Words, x: Fault) -> Words {
    if x.place >= 64 {
        return Words { far: true, ..w };
    }
    let bit = 1 << x.place;
    if x.absent {
        return Words {
            absent: w.absent | bit,
            ..w
        };
    }
    Words {
        present: w.present | bit,
        ..w
    }
}

/// The fields from a position on as the faults of a way, none of them twice in the same sense.
fn names(text: &[u8], start: usize) -> NamesSaid {
    let mut words = Words {
        far: false,
        present: 0,
        absent: 0,
    };
    let none = NamesSaid {
        good: false,
        words,
        next: start,
    };
    let mut at = start;
    let mut more = true;
    while more {
        let f = fault_at(text, at);
        if !f.good {
            return none;
        }
        at = f.next;
        more = f.more;
        if named_twice(words, f.fault, text, more, at) {
            return none;
        }
        words = with_fault(words, f.fault);
    }
    NamesSaid {
        good: true,
        words,
        next: at + 1,
    }
}

/// The field `0` alone: the empty way.
fn nothing(text: &[u8], at: usize) -> NamesSaid {
    let f = numeral_at(text, at);
    let mut said = NamesSaid {
        good: false,
        words: Words {
            far: false,
            present: 0,
            absent: 0,
        },
        next: f.next,
    };
    if f.more {
        return said;
    }
    if f.value != 0 {
        return said;
    }
    if f.good {
        said.good = true;
        said.next = f.next + 1;
    }
    said
}

/// The fields behind a cue number: faults, or `0` alone for the empty way.
fn way(text: &[u8], at: usize) -> NamesSaid {
    let said = names(text, at);
    if said.good {
        return said;
    }
    nothing(text, at)
}

/// The record of a way in the line at a position: a cue number, then the fields of the way, or none for a cue without ways.
pub fn row(text: &[u8], at: usize) -> RowSaid {
    let c = numeral_at(text, at);
    let mut said = RowSaid {
        good: false,
        cue: 0,
        way: false,
        far: false,
        present: 0,
        absent: 0,
        next: c.next,
    };
    if !c.good {
        return said;
    }
    if c.value > 65535 {
        return said;
    }
    said.cue = c.value as u16;
    if !c.more {
        said.good = true;
        said.next = c.next + 1;
        return said;
    }
    let n = way(text, c.next);
    RowSaid {
        good: n.good,
        cue: c.value as u16,
        way: true,
        far: n.words.far,
        present: n.words.present,
        absent: n.words.absent,
        next: n.next,
    }
}
