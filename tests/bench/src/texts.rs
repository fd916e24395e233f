//! Sheets as comma separated text, with the library's own loops: its text code again, function by function, from the bytes taken to those written.
//! `decimal` and `rows` are what both calls rest on; `import` ends in the loops of `writer`, `export` begins with the reader of `sheet`. No heap.

mod decimal;
mod export;
mod import;
mod rows;
mod writer;

pub use export::export;
pub use import::import;
