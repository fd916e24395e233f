//! The kept ways: the sheet that has F1 to F4 as cues, whose figures are among those easy to get wrong; and tables whose ways
//! often share faults in different senses, the low end of every leaf beside one that no pass through its ways finds.

use super::{record_at, tables};
use crate::bench::Bench;
use crate::session::{must, Outcome, Session};
use crate::step::Step;
use reference::kept::{first_apart, sheet, PRINTED};
use reference::leaf::leaf_low;
use reference::scripts::mostly_open;
use reference::sheet::encode;
use reference::{by_distance, MOST_FAULTS, MOST_WAYS};

pub fn kept(bench: &mut Bench) -> Outcome {
    bench.case("the sheet that has F1 to F4 as cues", |session, _| {
        session.make(Step::Sheet(encode(&sheet())))?;
        session.make(Step::Report(PRINTED.len()))?;
        session.make(Step::Printed(PRINTED.as_bytes().to_vec()))
    })?;
    bench.cases("any tables", 500, |session, random| {
        session.opened(mostly_open(random, |random| random.opposed_table(9, 10)))?;
        tables::calls(session, random, 4)?;
        own_lows(session)
    })?;
    bench.cases("tables of any size", 40, |session, random| {
        session.opened(random.opposed_table(MOST_FAULTS, MOST_WAYS))?;
        session.run(by_distance(0, 3))
    })
}

/// At every place the low end that it has, or had, as a leaf.
fn own_lows(session: &Session) -> Outcome {
    let table = session.table();
    session.tree().places(table).into_iter().try_for_each(|entry| {
        let due = leaf_low(&table.weights, &first_apart(&entry.ways));
        must("the low end as a leaf", &due, &record_at(session, &entry.place).ownlow)
    })
}
