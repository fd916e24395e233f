//! Logs at the limit of what may be judged, of zeros: each packet but the first is discarded, and the answers are typed.
//! Each takes seconds, and is played once however many times the others are.

use crate::bench::Bench;
use crate::session::Outcome;
use crate::step::Step;
use reference::captures::{AMISS, MOST_JUDGED};

/// A log of so many bytes has one packet less judged.
const LONGEST: u64 = MOST_JUDGED + 1;

pub fn billions(bench: &mut Bench) -> Outcome {
    let (whole, refused) = ([0, MOST_JUDGED, MOST_JUDGED], [AMISS, 0, 0]);
    let half = MOST_JUDGED / 2 + 1;
    let cases = [
        ("the longest log", LONGEST, Step::Log, whole),
        ("a packet more", LONGEST + 1, Step::Log, refused),
        ("6 bytes once cut to 32 bits", (1 << 32) + 6, Step::Log, refused),
        ("two logs, the most together", 2 * half, Step::Logs(vec![half; 2]), whole),
        ("two logs, one above together", LONGEST + 2, Step::Logs(vec![LONGEST, 2]), refused),
    ];
    for (name, count, call, answer) in cases {
        bench.case(name, |session, _| {
            session.make(Step::Zeros(count as usize))?;
            session.make(call)?;
            session.make(Step::Answered(answer.to_vec()))
        })?;
    }
    Ok(())
}
