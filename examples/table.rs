// The calls on a tree, and the report on a sheet, from Rust. Built and run, in the folder of this file:
//
//   rustc --edition 2021 table.rs -L ../target/staticlib -l static=cuerisk -o table
//   ./table ../samples/show.sheet
//
// `../build.sh cuerisk` makes the library. The declarations repeat those of ../include/cue_risk.h.
use std::io::Write;

#[repr(C)]
#[derive(Clone, Copy)]
struct Answer {
    number: u64,
    low: u64,
    high: u64,
    count: u64,
    verdict: u64,
    figure: u64,
}

#[repr(C)]
#[derive(Clone, Copy, Default)]
#[allow(dead_code)]
struct Node {
    kind: u64,
    fault: u64,
    live: u64,
    parent: usize,
    left: usize,
    waysa: u64,
    waysb: u64,
    present: u64,
    absent: u64,
    out: u64,
    low: u64,
    high: u64,
    ownlow: u64,
    ownhigh: u64,
}

#[repr(C)]
struct Tree {
    nodes: [Node; 511],
    used: usize,
}

#[repr(C)]
struct Spot {
    found: u64,
    at: usize,
}

/// A table of ways, lent to each call.
struct Table<'a> {
    weights: &'a [u32],
    present: &'a [u64],
    absent: &'a [u64],
}

mod c {
    use super::{Answer, Node, Spot, Tree};

    extern "C" {
        pub fn cue_open(tree: &mut Tree, w: *const u32, nw: usize, p: *const u64, np: usize, q: *const u64, nq: usize) -> Answer;
        pub fn cue_refine(
            tree: &mut Tree,
            w: *const u32,
            nw: usize,
            p: *const u64,
            np: usize,
            q: *const u64,
            nq: usize,
            place: *const u8,
            nplace: usize,
            what: u64,
            fault: u64,
        ) -> Answer;
        pub fn cue_run(
            tree: &mut Tree,
            w: *const u32,
            nw: usize,
            p: *const u64,
            np: usize,
            q: *const u64,
            nq: usize,
            allowance: u64,
            budget: u64,
            mode: u64,
        ) -> Answer;
        pub fn cue_widest(records: *const Node, n: usize) -> Spot;
        pub fn cue_sheet_report(sheet: *const u8, n: usize, space: *mut u8, nspace: usize) -> Answer;
    }
}

// What a run's allowance is.
const DISTANCE: u64 = 0;
const SHARE: u64 = 1;

// Each slice is handed over with its own length, and each `&mut` is the only reference: that is all a caller owes.

fn open(tree: &mut Tree, t: &Table) -> Answer {
    unsafe { c::cue_open(tree, t.weights.as_ptr(), t.weights.len(), t.present.as_ptr(), t.present.len(), t.absent.as_ptr(), t.absent.len()) }
}

fn refine(tree: &mut Tree, t: &Table, place: &[u8], what: u64, fault: u64) -> Answer {
    let (w, p, q) = (t.weights, t.present, t.absent);
    unsafe { c::cue_refine(tree, w.as_ptr(), w.len(), p.as_ptr(), p.len(), q.as_ptr(), q.len(), place.as_ptr(), place.len(), what, fault) }
}

fn run(tree: &mut Tree, t: &Table, allowance: u64, budget: u64, mode: u64) -> Answer {
    let (w, p, q) = (t.weights, t.present, t.absent);
    unsafe { c::cue_run(tree, w.as_ptr(), w.len(), p.as_ptr(), p.len(), q.as_ptr(), q.len(), allowance, budget, mode) }
}

fn widest(records: &[Node]) -> Spot {
    unsafe { c::cue_widest(records.as_ptr(), records.len()) }
}

fn report(sheet: &[u8], space: &mut [u8]) -> Answer {
    unsafe { c::cue_sheet_report(sheet.as_ptr(), sheet.len(), space.as_mut_ptr(), space.len()) }
}

fn print(call: &str, a: Answer) {
    let verdicts = ["", " met", " done", " full", " spent"];
    if a.number != 0 {
        println!("{call} refused {}", a.number);
    } else {
        let figure = if a.verdict == 0 { String::new() } else { format!(" figure {}", a.figure) };
        println!("{call} {} {} {}{}{figure}", a.low, a.high, a.count, verdicts[a.verdict as usize]);
    }
}

fn main() -> std::io::Result<()> {
    // Two ways of three faults: {0, 1} and {0, 2}.
    let table = Table { weights: &[500000000, 500000000, 200000000], present: &[3, 5], absent: &[0, 0] };
    let mut tree = Box::new(Tree { nodes: [Node::default(); 511], used: 0 });
    print("open", open(&mut tree, &table));

    // Within a fifth of the chance it is already; a run by share has no figure.
    print("share", run(&mut tree, &table, 200000000, 255, SHARE));

    // The root by fault 0; its place has no steps.
    print("refine", refine(&mut tree, &table, &[], 1, 0));

    let spot = widest(&tree.nodes[..tree.used]);
    println!("widest {} {}", spot.found, spot.at);

    print("run", run(&mut tree, &table, 0, 255, DISTANCE));

    // The root is no leaf any more.
    print("refine", refine(&mut tree, &table, &[], 1, 0));

    for (i, n) in tree.nodes[..tree.used].iter().enumerate() {
        println!("node {i} kind {} fault {} low {} high {}", n.kind, n.fault, n.low, n.high);
    }

    if let Some(path) = std::env::args().nth(1) {
        let sheet = std::fs::read(path)?;
        let mut text = [0; 939];
        let a = report(&sheet, &mut text);
        std::io::stdout().write_all(&text[..a.count as usize])?;
    }
    Ok(())
}
