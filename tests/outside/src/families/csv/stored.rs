//! The texts of tests/texts, which Python's csv module wrote and read: import gives its sheets, export its plain texts.

use super::{both_ways, judged};
use crate::bench::Bench;
use crate::session::Outcome;
use reference::csv::stored::{accepted, refused};

pub fn texts(bench: &mut Bench) -> Outcome {
    for (name, taken) in accepted() {
        bench.case(&name, |session, _| both_ways(session, taken))?;
    }
    for (name, figure) in refused() {
        bench.case(&name, |session, _| judged(session, figure))?;
    }
    Ok(())
}
