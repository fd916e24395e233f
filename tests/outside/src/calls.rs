//! The C interface of the library as include/cue_risk.h has it: its structs, its functions, and a safe wrapper
//! for each. Nothing is judged here.

use reference::captures;
use reference::sheet::Sheet;
use reference::{Limits, Table, MOST_FAULTS, MOST_WAYS};
use std::ptr;

pub const RECORDS: usize = 511;

/// The stack that a call may need.
pub const STACK: usize = 262_144;

/// The version of the header.
pub const VERSION: u64 = 6;

/// A record of a tree; its fields have one width, so that they can be told by number too.
#[repr(C)]
#[derive(Clone, Copy, Debug, Default, PartialEq, Eq)]
pub struct Node {
    pub kind: u64,
    pub fault: u64,
    pub live: u64,
    pub parent: usize,
    pub left: usize,
    pub waysa: u64,
    pub waysb: u64,
    pub present: u64,
    pub absent: u64,
    pub out: u64,
    pub low: u64,
    pub high: u64,
    pub ownlow: u64,
    pub ownhigh: u64,
}

pub const FIELDS: usize = 14;

impl Node {
    pub fn fields(&self) -> [u64; FIELDS] {
        let Node { kind, fault, live, parent, left, waysa, waysb, present, absent, out, low, high, ownlow, ownhigh } =
            *self;
        let (parent, left) = (parent as u64, left as u64);
        [kind, fault, live, parent, left, waysa, waysb, present, absent, out, low, high, ownlow, ownhigh]
    }

    pub fn of_fields(fields: [u64; FIELDS]) -> Node {
        let [kind, fault, live, parent, left, waysa, waysb, present, absent, out, low, high, ownlow, ownhigh] = fields;
        let (parent, left) = (parent as usize, left as usize);
        Node { kind, fault, live, parent, left, waysa, waysb, present, absent, out, low, high, ownlow, ownhigh }
    }
}

/// A tree as the caller holds it; the default is the tree without nodes.
#[repr(C)]
#[derive(Clone, Debug, PartialEq, Eq)]
pub struct Tree {
    pub nodes: [Node; RECORDS],
    pub used: usize,
}

impl Default for Tree {
    fn default() -> Tree {
        Tree { nodes: [Node::default(); RECORDS], used: 0 }
    }
}

#[repr(C)]
#[derive(Clone, Copy, Debug, PartialEq, Eq)]
pub struct Answer {
    number: u64,
    low: u64,
    high: u64,
    count: u64,
    verdict: u64,
    figure: u64,
}

impl From<Answer> for reference::Answer {
    fn from(Answer { number, low, high, count, verdict, figure }: Answer) -> reference::Answer {
        reference::Answer { number, low, high, count, verdict, figure }
    }
}

#[repr(C)]
#[derive(Clone, Copy, Debug, PartialEq, Eq)]
pub struct Spot {
    pub found: u64,
    pub at: usize,
}

#[repr(C)]
#[derive(Clone, Copy, Debug, Default, PartialEq, Eq)]
pub struct Head {
    pub number: u64,
    pub faults: u64,
    pub cues: u64,
    pub allowance: u64,
    pub budget: u64,
    pub mode: u64,
}

#[repr(C)]
#[derive(Clone, Copy, Debug, Default, PartialEq, Eq)]
pub struct Entry {
    pub number: u64,
    pub past: u64,
    pub cue: u64,
    pub ways: u64,
    pub start: u64,
}

/// The table of a cue of a sheet, by value.
#[repr(C)]
#[derive(Clone, Copy, Debug, PartialEq, Eq)]
pub struct Inside {
    pub number: u64,
    pub past: u64,
    pub faults: u64,
    pub ways: u64,
    pub weights: [u32; MOST_FAULTS],
    pub present: [u64; MOST_WAYS],
    pub absent: [u64; MOST_WAYS],
}

#[repr(C)]
#[derive(Clone, Copy, Debug, PartialEq, Eq)]
pub struct Fraction {
    number: u64,
    discarded: u64,
    judged: u64,
}

/// The weight of a fraction, or the order of two.
#[repr(C)]
#[derive(Clone, Copy, Debug, PartialEq, Eq)]
pub struct Figure {
    number: u64,
    value: u64,
}

impl Fraction {
    pub fn fields(self) -> Vec<u64> {
        vec![self.number, self.discarded, self.judged]
    }
}

impl Figure {
    pub fn fields(self) -> Vec<u64> {
        vec![self.number, self.value]
    }
}

// The header asserts the same.
const _: () = {
    assert!(size_of::<Node>() == 112 && size_of::<Tree>() == 57_240);
    assert!(size_of::<Answer>() == 48 && size_of::<Spot>() == 16);
    assert!(size_of::<Head>() == 48 && size_of::<Entry>() == 40 && size_of::<Inside>() == 2_336);
    assert!(size_of::<Fraction>() == 24 && size_of::<Figure>() == 16);
};

#[rustfmt::skip]
extern "C" {
    fn cue_version() -> u64;
    fn cue_open(tree: *mut Tree, weights: *const u32, faults: usize, present: *const u64, presents: usize,
        absent: *const u64, absents: usize) -> Answer;
    fn cue_refine(tree: *mut Tree, weights: *const u32, faults: usize, present: *const u64, presents: usize,
        absent: *const u64, absents: usize, place: *const u8, steps: usize, what: u64, fault: u64) -> Answer;
    fn cue_run(tree: *mut Tree, weights: *const u32, faults: usize, present: *const u64, presents: usize,
        absent: *const u64, absents: usize, allowance: u64, budget: u64, mode: u64) -> Answer;
    fn cue_widest(records: *const Node, count: usize) -> Spot;
    fn cue_sheet_check(sheet: *const u8, length: usize) -> Head;
    fn cue_sheet_cue(sheet: *const u8, length: usize, position: usize) -> Entry;
    fn cue_sheet_table(sheet: *const u8, length: usize, position: usize) -> Inside;
    fn cue_sheet_write(weights: *const u32, faults: usize, numbers: *const u16, cues: usize, counts: *const u16,
        counted: usize, present: *const u64, presents: usize, absent: *const u64, absents: usize, allowance: u64,
        budget: u64, mode: u64, space: *mut u8, length: usize) -> Answer;
    fn cue_sheet_report(sheet: *const u8, length: usize, space: *mut u8, room: usize) -> Answer;
    fn cue_csv_import(text: *const u8, length: usize, space: *mut u8, room: usize) -> Answer;
    fn cue_csv_export(sheet: *const u8, length: usize, space: *mut u8, room: usize) -> Answer;
    fn cue_log(log: *const u8, length: usize) -> Fraction;
    fn cue_logs(bytes: *const u8, count: usize, lengths: *const u64, logs: usize) -> Fraction;
    fn cue_fractions(discarded: *const u64, discardeds: usize, judged: *const u64, judgeds: usize) -> Fraction;
    fn cue_fraction_weight(discarded: u64, judged: u64) -> Figure;
    fn cue_fraction_compare(discarded: u64, judged: u64, other_discarded: u64, other_judged: u64) -> Figure;
}

// Each pointer comes from a slice or a reference that lives through the call, with that slice's own length, or is
// null with length 0: this is all that the header asks of a caller.

fn at<T>(list: &[T]) -> *const T {
    if list.is_empty() {
        ptr::null()
    } else {
        list.as_ptr()
    }
}

fn at_mut(space: &mut [u8]) -> *mut u8 {
    if space.is_empty() {
        ptr::null_mut()
    } else {
        space.as_mut_ptr()
    }
}

pub fn version() -> u64 {
    unsafe { cue_version() }
}

pub fn open(tree: &mut Tree, table: &Table) -> Answer {
    let Table { weights: w, present: p, absent: a } = table;
    unsafe { cue_open(tree, at(w), w.len(), at(p), p.len(), at(a), a.len()) }
}

#[rustfmt::skip]
pub fn refine(tree: &mut Tree, table: &Table, place: &[u8], what: u64, fault: u64) -> Answer {
    let Table { weights: w, present: p, absent: a } = table;
    unsafe {
        cue_refine(tree, at(w), w.len(), at(p), p.len(), at(a), a.len(), at(place), place.len(), what, fault)
    }
}

pub fn run(tree: &mut Tree, table: &Table, limits: Limits) -> Answer {
    let Table { weights: w, present: p, absent: a } = table;
    let Limits { allowance, budget, mode } = limits;
    unsafe { cue_run(tree, at(w), w.len(), at(p), p.len(), at(a), a.len(), allowance, budget, mode) }
}

pub fn widest(records: &[Node]) -> Spot {
    unsafe { cue_widest(at(records), records.len()) }
}

pub fn check(sheet: &[u8]) -> Head {
    unsafe { cue_sheet_check(at(sheet), sheet.len()) }
}

pub fn cue(sheet: &[u8], position: usize) -> Entry {
    unsafe { cue_sheet_cue(at(sheet), sheet.len(), position) }
}

pub fn table(sheet: &[u8], position: usize) -> Inside {
    unsafe { cue_sheet_table(at(sheet), sheet.len(), position) }
}

#[rustfmt::skip]
pub fn write(lists: &Sheet, space: &mut [u8]) -> Answer {
    let Sheet { weights: w, cues: n, counts: c, present: p, absent: a, allowance, budget, mode } = lists;
    let room = space.len();
    unsafe {
        cue_sheet_write(at(w), w.len(), at(n), n.len(), at(c), c.len(), at(p), p.len(), at(a), a.len(),
            *allowance, *budget, *mode, at_mut(space), room)
    }
}

pub fn report(sheet: &[u8], space: &mut [u8]) -> Answer {
    let room = space.len();
    unsafe { cue_sheet_report(at(sheet), sheet.len(), at_mut(space), room) }
}

pub fn import(text: &[u8], space: &mut [u8]) -> Answer {
    let room = space.len();
    unsafe { cue_csv_import(at(text), text.len(), at_mut(space), room) }
}

pub fn export(sheet: &[u8], space: &mut [u8]) -> Answer {
    let room = space.len();
    unsafe { cue_csv_export(at(sheet), sheet.len(), at_mut(space), room) }
}

pub fn log(log: &[u8]) -> Fraction {
    unsafe { cue_log(at(log), log.len()) }
}

pub fn logs(bytes: &[u8], lengths: &[u64]) -> Fraction {
    unsafe { cue_logs(at(bytes), bytes.len(), at(lengths), lengths.len()) }
}

pub fn fractions(discarded: &[u64], judged: &[u64]) -> Fraction {
    unsafe { cue_fractions(at(discarded), discarded.len(), at(judged), judged.len()) }
}

pub fn weight(fraction: captures::Fraction) -> Figure {
    unsafe { cue_fraction_weight(fraction.discarded, fraction.judged) }
}

pub fn compare(one: captures::Fraction, other: captures::Fraction) -> Figure {
    unsafe { cue_fraction_compare(one.discarded, one.judged, other.discarded, other.judged) }
}
