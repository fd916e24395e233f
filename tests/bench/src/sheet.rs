//! A sheet's bytes read, and the text of its report written into lent space. No heap.

use crate::formula::*;
use crate::run::{run_afresh, Answer, Limits, DONE, FULL, MET};

pub const HEAD: usize = 12;
pub const MOST_CUES: usize = 24;

fn u16_at(bytes: &[u8], at: usize) -> u16 {
    u16::from_le_bytes([bytes[at], bytes[at + 1]])
}

fn u32_at(bytes: &[u8], at: usize) -> u32 {
    u32::from_le_bytes(bytes[at..at + 4].try_into().unwrap())
}

pub fn u64_at(bytes: &[u8], at: usize) -> u64 {
    u64::from_le_bytes(bytes[at..at + 8].try_into().unwrap())
}

/// The words of the ways in some bodies.
fn words(bodies: &[u8]) -> impl Iterator<Item = (u64, u64)> + '_ {
    let words = |way: &[u8]| (u64_at(way, 0), u64_at(way, 8));
    bodies.chunks_exact(16).map(words)
}

pub struct Sheet<'a> {
    pub bytes: &'a [u8],
    pub faults: usize,
    pub cues: usize,
}

impl Sheet<'_> {
    pub fn cue(&self, i: usize) -> u16 {
        u16_at(self.bytes, HEAD + 8 * i)
    }

    pub fn ways(&self, i: usize) -> usize {
        usize::from(u16_at(self.bytes, HEAD + 8 * i + 2))
    }

    pub fn place(&self, i: usize) -> usize {
        u32_at(self.bytes, HEAD + 8 * i + 4) as usize
    }

    fn weights(&self) -> usize {
        HEAD + 8 * self.cues
    }

    fn bodies(&self) -> usize {
        self.weights() + 4 * self.faults
    }

    pub fn limits(&self) -> Limits {
        Limits {
            allowance: u64::from(u32_at(self.bytes, 4)),
            budget: u64::from(u16_at(self.bytes, 8)),
            mode: u64::from(u16_at(self.bytes, 10)),
        }
    }

    pub fn weight(&self, fault: usize) -> u32 {
        u32_at(self.bytes, self.weights() + 4 * fault)
    }

    /// The present and the absent word of each way of a cue.
    pub fn body(&self, i: usize) -> impl Iterator<Item = (u64, u64)> + '_ {
        words(&self.bytes[self.place(i)..][..16 * self.ways(i)])
    }

    /// 5 to 8, or 0: the contents.
    fn contents_number(&self) -> u64 {
        let mut last = 0;
        for i in 0..self.cues {
            if self.cue(i) <= last {
                return 5;
            }
            last = self.cue(i);
        }
        if (0..self.cues).any(|i| self.ways(i) > MOST_WAYS) {
            return 6;
        }
        let mut end = self.bodies();
        for i in 0..self.cues {
            if self.place(i) != end {
                return 7;
            }
            end += 16 * self.ways(i);
        }
        if self.bytes.len() != end {
            return 8;
        }
        0
    }

    /// 10 to 15, or 0: the bodies.
    fn bodies_number(&self) -> u64 {
        if (0..self.faults).any(|fault| u64::from(self.weight(fault)) > S) {
            return 10;
        }
        let ways = || words(&self.bytes[self.bodies()..]);
        if self.faults < MOST_FAULTS && ways().any(|(p, a)| (p | a) >> self.faults != 0) {
            return 12;
        }
        if ways().any(|(p, a)| p & a != 0) {
            return 13;
        }
        if self.limits().allowance > S {
            return 14;
        }
        if self.limits().budget > 255 {
            return 15;
        }
        0
    }
}

pub fn read(bytes: &[u8]) -> Result<Sheet<'_>, u64> {
    if bytes.len() < HEAD {
        return Err(1);
    }
    let sheet = Sheet {
        bytes,
        faults: usize::from(u16_at(bytes, 0)),
        cues: usize::from(u16_at(bytes, 2)),
    };
    let outside = |n: usize, most: usize| n == 0 || n > most;
    if outside(sheet.faults, MOST_FAULTS) || outside(sheet.cues, MOST_CUES) {
        return Err(2);
    }
    if sheet.limits().mode > 1 {
        return Err(3);
    }
    if bytes.len() < sheet.bodies() {
        return Err(4);
    }
    match sheet.contents_number() {
        0 => {}
        number => return Err(number),
    }
    match sheet.bodies_number() {
        0 => Ok(sheet),
        number => Err(number),
    }
}

/// Text written from the front of lent space, which is long enough.
pub struct Text<'a> {
    pub space: &'a mut [u8],
    pub len: usize,
}

impl Text<'_> {
    pub fn put(&mut self, bytes: &[u8]) {
        self.space[self.len..self.len + bytes.len()].copy_from_slice(bytes);
        self.len += bytes.len();
    }

    pub fn number(&mut self, mut n: u64) {
        let mut digits = [0u8; 20];
        let mut from = digits.len();
        loop {
            from -= 1;
            digits[from] = b'0' + (n % 10) as u8;
            n /= 10;
            if n == 0 {
                break;
            }
        }
        self.put(&digits[from..]);
    }

    fn line(&mut self, cue: u16, answer: &Answer) {
        for n in [u64::from(cue), answer.low, answer.high, answer.count] {
            self.number(n);
            self.put(b" ");
        }
        self.put(match answer.verdict {
            MET => b"met\n",
            DONE => b"done\n",
            FULL => b"full\n",
            _ => b"spent\n",
        });
    }
}

/// The report of a sheet at the front of the space; its length.
pub fn report(bytes: &[u8], space: &mut [u8]) -> usize {
    let mut text = Text { space, len: 0 };
    let sheet = match read(bytes) {
        Ok(sheet) => sheet,
        Err(number) => {
            text.put(b"refused ");
            text.number(number);
            text.put(b"\n");
            return text.len;
        }
    };
    text.put(b"cue low high steps verdict\n");
    let mut weights = [0u32; MOST_FAULTS];
    for (fault, weight) in weights[..sheet.faults].iter_mut().enumerate() {
        *weight = sheet.weight(fault);
    }
    for i in 0..sheet.cues {
        let ways = sheet.ways(i);
        let mut present = [0u64; MOST_WAYS];
        let mut absent = [0u64; MOST_WAYS];
        for way in 0..ways {
            present[way] = u64_at(bytes, sheet.place(i) + 16 * way);
            absent[way] = u64_at(bytes, sheet.place(i) + 16 * way + 8);
        }
        let table = Table {
            weights: &weights[..sheet.faults],
            present: &present[..ways],
            absent: &absent[..ways],
        };
        let answer = run_afresh(&table, sheet.limits());
        text.line(sheet.cue(i), &answer);
    }
    text.len
}
