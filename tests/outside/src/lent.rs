//! What is lent to the library, with a guard on either side: a tree, or space for bytes.
//! A guard that changes shows a write outside of what was lent.

use crate::calls::Tree;
use std::{array, fmt};

const GUARD: usize = 64;

/// Words that no call writes by chance, all different.
fn guard() -> [u64; GUARD] {
    array::from_fn(|i| (i as u64 + 1).wrapping_mul(0x9E37_79B9_7F4A_7C15))
}

#[repr(C)]
#[derive(Clone)]
pub struct LentTree {
    before: [u64; GUARD],
    pub tree: Tree,
    after: [u64; GUARD],
}

impl LentTree {
    pub fn new() -> Box<LentTree> {
        Box::new(LentTree { before: guard(), tree: Tree::default(), after: guard() })
    }

    pub fn guarded(&self) -> bool {
        self.before == guard() && self.after == guard()
    }
}

/// Bytes that differ from place to place, with the space to be lent in their middle.
#[derive(Clone, PartialEq, Eq)]
pub struct LentSpace {
    bytes: Vec<u8>,
}

impl LentSpace {
    pub fn new(length: usize) -> LentSpace {
        let byte = |i: usize| (i.wrapping_mul(151) >> 3) as u8 ^ 0xA5;
        LentSpace { bytes: (0..length + 2 * GUARD).map(byte).collect() }
    }

    pub fn space(&mut self) -> &mut [u8] {
        let end = self.bytes.len() - GUARD;
        &mut self.bytes[GUARD..end]
    }
}

/// The space, and the guards if they changed.
impl fmt::Debug for LentSpace {
    fn fmt(&self, f: &mut fmt::Formatter<'_>) -> fmt::Result {
        let length = self.bytes.len() - 2 * GUARD;
        let fresh = LentSpace::new(length);
        write!(f, "\"{}\"", self.bytes[GUARD..GUARD + length].escape_ascii())?;
        let before = self.bytes[..GUARD] == fresh.bytes[..GUARD];
        let after = self.bytes[GUARD + length..] == fresh.bytes[GUARD + length..];
        f.write_str(if before && after { "" } else { " with bytes around it changed" })
    }
}
