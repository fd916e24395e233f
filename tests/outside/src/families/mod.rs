//! The families of cases, in the order in which they are played, and what several of them share.

mod captures;
mod common;
mod csv;
mod cuts;
mod damage;
mod distance;
mod drawn;
mod far;
mod kept;
mod lists;
mod named;
mod paper;
mod reading;
mod redundant;
mod scripts;
mod search;
mod shares;
mod stack;
mod tables;
mod writing;

use crate::bench::Bench;
use crate::calls::Node;
use crate::session::{Outcome, Session};
use crate::step::Step;
use reference::random::Random;
use reference::run::pick;
use reference::scripts::Call;
use reference::sheet::Sheet;
use reference::tree::State;
use reference::{Act, Limits};

/// What brings a refusal about, with its number.
type Damage<T> = (u64, fn(&mut T));

/// A family of cases, and how many comparisons it makes at least, whatever the seed.
pub struct Family {
    pub name: &'static str,
    pub play: fn(&mut Bench) -> Outcome,
    pub least: u64,
}

pub const FAMILIES: [Family; 31] = [
    family("paper", paper::cases_on_paper, 113),
    family("tests", paper::run_in_the_tests, 149),
    family("wrong", named::easy_to_get_wrong, 11_800),
    family("orders", named::orders, 3305),
    family("scripts", scripts::scripts, 164_348),
    family("edges", tables::edges, 1400),
    family("tables", tables::tables, 47_000),
    family("refused", tables::refused, 17_000),
    family("over", tables::over, 6500),
    family("lists", lists::pairs, 110_000),
    family("cuts", cuts::cuts, 34_000),
    family("sixteen", damage::sixteen, 73_000),
    family("foreign", damage::foreign, 10_000),
    family("drawn", drawn::drawn, 29_000),
    family("redundant", redundant::redundant, 20_000),
    family("distance", distance::distance, 30_000),
    family("common", common::common, 34_000),
    family("kept", kept::kept, 11_700),
    family("shares", shares::shares, 70_000),
    family("sheets", reading::sheets, 53_000),
    family("bytes", reading::bytes, 90_000),
    family("reports", reading::reports, 4300),
    family("inside", reading::inside, 5000),
    family("writing", writing::writing, 16_000),
    family("search", search::search, 7200),
    family("far", far::far, 7500),
    family("stack", stack::stack, 2111),
    family("csv", csv::csv, 120_000),
    family("captures", captures::captures, 340_000),
    family("fractions", captures::fractions::fractions, 178_000),
    family("billions", captures::billions::billions, 10),
];

const fn family(name: &'static str, play: fn(&mut Bench) -> Outcome, least: u64) -> Family {
    Family { name, play, least }
}

/// A call of the reference's scripts.
fn make(session: &mut Session, call: Call) -> Outcome {
    match call {
        Call::Hand(place, act) => session.refine(place, act),
        Call::Run(limits) => session.run(limits),
    }
}

/// A run whose number and verdict are told; the figures are left to the reference.
fn run_told(session: &mut Session, limits: Limits, number: u64, verdict: u64) -> Outcome {
    session.run(limits)?;
    session.make(Step::Told([Some(number), None, None, None, Some(verdict), None]))
}

fn told_number(session: &mut Session, number: u64) -> Outcome {
    session.make(Step::Told([Some(number), None, None, None, None, None]))
}

/// A leaf of the tree at hand that is open, there has to be one, and what a run would do there.
fn open_leaf(session: &Session) -> (Vec<u8>, Act) {
    let entries = session.tree().places(session.table());
    let open = entries.into_iter().find(|entry| entry.state == State::Open).expect("an open leaf");
    let act = pick(&open.ways);
    (open.place, act)
}

/// The record at a place, by the links.
fn record_at<'a>(session: &'a Session, place: &[u8]) -> &'a Node {
    let nodes = &session.records().nodes;
    place.iter().fold(&nodes[0], |node, &step| &nodes[node.left + usize::from(step)])
}

/// A length at an output's own, one less, or a little more, or none at all.
fn room(random: &mut Random, length: usize) -> usize {
    match random.below(5) {
        0 => length.saturating_sub(1),
        1 => length + random.between(1, 40),
        2 => random.below(length),
        _ => length,
    }
}

/// Budgets that the reference works off in a moment, however large the tables are.
fn with_small_budget(mut sheet: Sheet) -> Sheet {
    let ways = sheet.present.len() * sheet.weights.len();
    sheet.budget = sheet.budget.min(if ways > 400 { 6 } else { 60 });
    sheet
}
