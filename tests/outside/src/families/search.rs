//! The page's search: over the records of trees, and over records that no tree has, in any number.

use super::make;
use crate::bench::Bench;
use crate::calls::{Node, FIELDS, RECORDS};
use crate::session::{Outcome, Session};
use crate::step::Step;
use reference::random::Random;
use reference::scripts::{any_call, mostly_open};
use reference::S;
use std::array;

pub fn search(bench: &mut Bench) -> Outcome {
    bench.cases("any records, up to 12", 8000, |session, random| {
        let count = random.between(0, 12);
        any_records(session, random, count)
    })?;
    bench.cases("any records, up to 600", 400, |session, random| {
        let count = random.between(0, 600);
        any_records(session, random, count)
    })?;
    bench.cases("the records of a tree", 40, |session, random| {
        let table = mostly_open(random, |random| random.table_within(10, 12));
        session.opened(table)?;
        for _ in 0..random.between(1, 4) {
            let call = any_call(random, session.table(), session.tree());
            make(session, call)?;
            let used = session.records().used;
            for count in [0, 1, used / 2, used, used + 1, RECORDS] {
                session.make(Step::Widest(count))?;
            }
        }
        Ok(())
    })
}

fn any_records(session: &mut Session, random: &mut Random, count: usize) -> Outcome {
    let manner = random.below(4);
    let records = (0..count).map(|_| record(random, manner)).collect();
    session.make(Step::Records(0, records))
}

/// Mostly marked as open leaves, with ends that are often equal, crossed, or at the far ends of the numbers.
fn record(random: &mut Random, manner: usize) -> Node {
    let end = |random: &mut Random| match manner {
        0 => random.below(4) as u64,
        1 => random.one_of(&[0, 1, S, u64::MAX - 1, u64::MAX]),
        2 => random.between(0, S as usize) as u64,
        _ => random.draw(),
    };
    let anything: [u64; FIELDS] = array::from_fn(|_| random.draw());
    Node {
        kind: random.one_of(&[1, 1, 1, 1, 0, 2, 3, 4, u64::MAX]),
        live: random.one_of(&[1, 1, 1, 1, 0, 2, u64::MAX]),
        low: end(random),
        high: end(random),
        ..Node::of_fields(anything)
    }
}
