//! Every function of the library on the largest that it can be handed, in a thread with no more stack than the header
//! says that a call may need. Trees, tables and spaces lie elsewhere.

use super::csv::long::the_longest;
use super::{open_leaf, run_told, told_number};
use crate::bench::Bench;
use crate::calls::{Node, RECORDS};
use crate::session::{Outcome, Session};
use crate::step::Step;
use reference::captures::{Fraction, MOST_JUDGED};
use reference::common::repeater;
use reference::paper::{every_fault_named, largest_ring, stairs, H};
use reference::random::Random;
use reference::sheet::{encode, Sheet};
use reference::{by_distance, by_share, Act, FULL, LONGEST_SHEET, MOST_CUES, MOST_WAYS, S, SHARE};

pub fn stack(bench: &mut Bench) -> Outcome {
    bench.case("the largest tables and a full tree", |session, _| trees(session))?;
    bench.case("the longest sheet", |session, _| longest(session))?;
    bench.case("the longest texts", |session, _| {
        session.make(Step::Stack)?;
        the_longest(session)
    })?;
    bench.case("long logs and lists", logs)
}

fn trees(session: &mut Session) -> Outcome {
    session.make(Step::Stack)?;
    session.make(Step::Version)?;
    session.opened(every_fault_named(H))?;
    session.refine(vec![], Act::Fault(63))?;
    told_number(session, 0)?;
    session.opened(largest_ring())?;
    session.refine(vec![], Act::Fault(63))?;
    run_told(session, by_distance(0, 255), 0, FULL)?;
    run_told(session, by_distance(0, 255), 0, FULL)?;
    let (place, act) = open_leaf(session);
    session.refine(place, act)?;
    told_number(session, 19)?;
    session.opened(repeater())?;
    session.refine(vec![], Act::Common)?;
    run_told(session, by_share(0, 255), 0, FULL)?;
    run_told(session, by_share(0, 255), 0, FULL)?;
    session.make(Step::Widest(RECORDS))?;
    session.make(Step::Records(1 << 16, vec![Node { kind: 1, live: 1, high: 1, ..Node::default() }]))
}

/// All 24 cues have 128 ways. The runs of the first 23 are done at once, the last one ends full.
fn longest(session: &mut Session) -> Outcome {
    let (certain, ring) = (stairs(), largest_ring());
    let words = |first: &[u64], last: &[u64]| [first.repeat(MOST_CUES - 1), last.to_vec()].concat();
    let lists = Sheet {
        weights: ring.weights,
        cues: (1..=MOST_CUES as u16).collect(),
        counts: vec![MOST_WAYS as u16; MOST_CUES],
        present: words(&certain.present, &ring.present),
        absent: words(&certain.absent, &ring.absent),
        allowance: 0,
        budget: 255,
        mode: SHARE,
    };
    session.make(Step::Stack)?;
    session.make(Step::Write(lists.clone(), LONGEST_SHEET))?;
    session.told(0, (0, S), LONGEST_SHEET as u64)?;
    session.make(Step::Sheet(encode(&lists)))?;
    session.make(Step::Check)?;
    told_number(session, 0)?;
    session.make(Step::Cue(MOST_CUES - 1))?;
    session.make(Step::Inside(MOST_CUES - 1))?;
    session.make(Step::Report(1 << 16))
}

/// A log of a million packets, as many logs of one or two, the last of which find no bytes, and as many fractions.
fn logs(session: &mut Session, random: &mut Random) -> Outcome {
    const MANY: usize = 1_000_000;
    session.make(Step::Stack)?;
    session.make(Step::Bytes(random.log(MANY)))?;
    session.make(Step::Log)?;
    session.make(Step::Logs((0..MANY as u64).map(|at| 1 + at % 2).collect()))?;
    session.make(Step::Fractions(vec![1; MANY], vec![4000; MANY]))?;
    session.make(Step::Answered(vec![0, MANY as u64, MOST_JUDGED]))?;
    let near_one = |judged| Fraction::new(judged - 1, judged);
    session.make(Step::Weight(near_one(MOST_JUDGED)))?;
    session.make(Step::Compare(near_one(MOST_JUDGED), near_one(MOST_JUDGED - 1)))
}
