//! Cue risk, written a second time from the rules alone (docs/RULES.md), plainly and slowly:
//! the other side of randomized comparisons with the verified library.
//! Trees live on the heap and every interval is worked out from scratch.

pub mod captures;
pub mod child;
pub mod common;
pub mod csv;
pub mod damages;
pub mod distances;
pub mod figures;
pub mod files;
pub mod kept;
pub mod leaf;
pub mod natural;
pub mod orders;
pub mod paper;
pub mod random;
pub mod redundant;
pub mod report;
pub mod run;
pub mod scripts;
pub mod shares;
pub mod sheet;
pub mod sheets;
pub mod table;
pub mod tree;
pub mod vectors;
pub mod writes;

pub use table::Table;
pub use tree::{Act, Tree};

/// One billion, the rules' S: the weight of a certain fault.
pub const S: u64 = 1_000_000_000;

pub const MOST_FAULTS: usize = 64;
pub const MOST_WAYS: usize = 128;
pub const MOST_CUES: usize = 24;
pub const MOST_REFINEMENTS: u64 = 255;
pub const LONGEST_PLACE: usize = 64;
pub const LONGEST_SHEET: usize = 49_612;

/// Verdicts as an `Answer` carries them.
pub const NONE: u64 = 0;
pub const MET: u64 = 1;
pub const DONE: u64 = 2;
pub const FULL: u64 = 3;
pub const SPENT: u64 = 4;

/// What a run's allowance is: a distance from the chance, or a share of it. Every other mode is refused 3.
pub const DISTANCE: u64 = 0;
pub const SHARE: u64 = 1;

/// What a run is asked for. All three are judged as they are given, in all their bits.
#[derive(Clone, Copy, Debug, Default, PartialEq, Eq)]
pub struct Limits {
    pub allowance: u64,
    pub budget: u64,
    pub mode: u64,
}

/// A run that aims at a figure no further from the chance than the allowance.
pub const fn by_distance(allowance: u64, budget: u64) -> Limits {
    Limits {
        allowance,
        budget,
        mode: DISTANCE,
    }
}

/// A run that aims at a number no further from the chance than this share of it.
pub const fn by_share(share: u64, budget: u64) -> Limits {
    Limits {
        allowance: share,
        budget,
        mode: SHARE,
    }
}

/// What every call hands back. An accepted run has a verdict and a figure, which by share is 0; in every other answer both
/// are 0.
#[derive(Clone, Copy, Debug, PartialEq, Eq)]
pub struct Answer {
    pub number: u64,
    pub low: u64,
    pub high: u64,
    pub count: u64,
    pub verdict: u64,
    pub figure: u64,
}

impl Answer {
    pub fn refused(number: u64) -> Answer {
        Answer {
            number,
            low: 0,
            high: S,
            count: 0,
            verdict: NONE,
            figure: 0,
        }
    }

    pub fn accepted(interval: leaf::Interval, count: u64) -> Answer {
        Answer {
            number: 0,
            low: interval.low,
            high: interval.high,
            count,
            verdict: NONE,
            figure: 0,
        }
    }
}
