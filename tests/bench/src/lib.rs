//! The rules of cue risk a second time, with the library's own loops, written for speed: the other side of the benchmark.
//! Comma separated text stands here twice: `texts` has the library's loops, `csv` is a tuned side of its own shape.
//! Flat arrays and records in a fixed array, refined in place; no heap in the run.

pub mod clock;
pub mod csv;
pub mod formula;
pub mod library;
pub mod logs;
pub mod run;
pub mod sheet;
pub mod sheets;
pub mod texts;
pub mod tree;
