//! The least that all families together must have met: every number of every call that it concerns, every verdict, by
//! share too, and every kind of refinement.
//! The least comparisons of a family stand beside its name (`families`).

use crate::tally::{Call, Tally};
use reference::{DONE, FULL, MET, SPENT};

/// For each call the numbers that concern it, 0 for accepted, and how often each must have been given.
const NUMBERS: [(Call, u64, &[u64]); 17] = [
    (Call::Open, 30, &[0, 9, 10, 11, 12, 13]),
    (Call::Refine, 30, &[0, 9, 10, 11, 12, 13, 16, 17, 18, 19, 20]),
    (Call::Run, 30, &[0, 3, 9, 10, 11, 12, 13, 14, 15, 16]),
    (Call::Check, 100, &[0, 1, 2, 3, 4, 5, 6, 7, 8, 10, 12, 13, 14, 15]),
    (Call::Cue, 100, &[0, 1, 2, 3, 4, 5, 6, 7, 8, 10, 12, 13, 14, 15]),
    (Call::Table, 100, &[0, 1, 2, 3, 4, 5, 6, 7, 8, 10, 12, 13, 14, 15]),
    (Call::Write, 100, &[0, 2, 3, 5, 6, 10, 12, 13, 14, 15, 21, 22]),
    (Call::Report, 100, &[0, 22]),
    (Call::Import, 100, &[0, 2, 5, 6, 10, 12, 13, 14, 15, 22, 23]),
    (Call::Export, 30, &[0, 1, 2, 3, 4, 5, 6, 7, 8, 10, 12, 13, 14, 15, 22]),
    (Call::Log, 60_000, &[0]),
    (Call::Logs, 5000, &[0]),
    // No log of fewer than four billion packets is refused.
    (Call::Log, 2, &[25]),
    (Call::Logs, 1, &[25]),
    (Call::Fractions, 1000, &[0, 25]),
    (Call::Weight, 500, &[0, 24, 25]),
    (Call::Compare, 1000, &[0, 24, 25]),
];

/// The verdicts of runs, and how often each must have been given.
const VERDICTS: [(u64, u64); 4] = [(MET, 1000), (DONE, 1000), (FULL, 50), (SPENT, 1000)];

/// The same of runs by share.
const SHARES: [(u64, u64); 4] = [(MET, 1000), (DONE, 300), (FULL, 5), (SPENT, 1000)];

/// The kinds of refinement, and at how many places each must have been compared.
const REFINED: [(&str, u64); 3] = [("independence", 40_000), ("common part", 10_000), ("fault", 40_000)];

/// The numbers of a common part asked for by hand, and how often each must have been given.
const COMMON: [(u64, u64); 6] = [(0, 300), (16, 300), (17, 300), (18, 300), (19, 2), (20, 300)];

/// Whether all of it was met often enough; what was not is printed.
pub fn is_met(tally: &Tally) -> bool {
    let mut enough = true;
    let mut judge = |what: String, times: u64, least: u64| {
        if times < least {
            enough = false;
            println!("{what}: {times} times, and {least} at least are due");
        }
    };
    for (call, least, numbers) in NUMBERS {
        for &number in numbers {
            judge(format!("{} with {number}", call.name()), tally.met(call, number), least);
        }
    }
    for (verdict, least) in VERDICTS {
        judge(format!("verdict {verdict}"), tally.met_verdict(verdict), least);
    }
    for (verdict, least) in SHARES {
        judge(format!("verdict {verdict} by share"), tally.met_share(verdict), least);
    }
    for (number, least) in COMMON {
        judge(format!("a common part by hand with {number}"), tally.met_common(number), least);
    }
    for (kind, least) in REFINED {
        judge(format!("places refined by {kind}"), tally.met_refined(kind), least);
    }
    enough
}
