//! Seeded random inputs for comparisons: tables, sheets, places and refinements by hand,
//! sound ones with the edges of the rules well covered, and damaged ones.

use crate::run::pick;
use crate::sheet::{encode, length, Sheet};
use crate::tree::{common, split, Act, Entry, State};
use crate::{
    Limits, Table, Tree, DISTANCE, LONGEST_PLACE, LONGEST_SHEET, MOST_CUES, MOST_FAULTS, MOST_WAYS,
    S, SHARE,
};
use std::mem::swap;

/// Splitmix64: the same seed gives the same inputs everywhere.
#[derive(Clone, Debug)]
pub struct Random {
    state: u64,
}

/// The shapes that the ways of a table take together.
#[derive(Clone, Copy)]
enum Shape {
    Sparse,
    Dense,
    PresentOnly,
    Chain,
    Groups,
    Repeats,
    Common,
    Mixed,
}

const SHAPES: [Shape; 8] = [
    Shape::Sparse,
    Shape::Dense,
    Shape::PresentOnly,
    Shape::Chain,
    Shape::Groups,
    Shape::Repeats,
    Shape::Common,
    Shape::Mixed,
];

const TOP: u32 = S as u32;
const EDGES: [u32; 4] = [0, 1, TOP - 1, TOP];
const USUAL: [u32; 6] = [
    TOP / 2,
    TOP / 4,
    TOP / 3,
    TOP / 10,
    200_000_000,
    666_666_667,
];

impl Random {
    pub fn new(seed: u64) -> Random {
        Random { state: seed }
    }

    pub fn draw(&mut self) -> u64 {
        self.state = self.state.wrapping_add(0x9E37_79B9_7F4A_7C15);
        let mut z = self.state;
        z = (z ^ (z >> 30)).wrapping_mul(0xBF58_476D_1CE4_E5B9);
        z = (z ^ (z >> 27)).wrapping_mul(0x94D0_49BB_1331_11EB);
        z ^ (z >> 31)
    }

    /// A number below the bound; 0 if the bound is 0.
    pub fn below(&mut self, bound: usize) -> usize {
        (self.draw() % (bound.max(1) as u64)) as usize
    }

    /// A number from low to high, both included.
    pub fn between(&mut self, low: usize, high: usize) -> usize {
        low + self.below(high.saturating_sub(low) + 1)
    }

    pub fn one_in(&mut self, many: usize) -> bool {
        self.below(many) == 0
    }

    /// One of a list that is not empty.
    pub fn one_of<T: Copy>(&mut self, choices: &[T]) -> T {
        choices[self.below(choices.len())]
    }

    // Tables

    /// Weights in one of four manners: edges, usual figures, anything, or all of these;
    /// or one such weight for all faults.
    pub fn weights(&mut self, faults: usize) -> Vec<u32> {
        let manner = self.one_of(&[0, 1, 1, 2, 2, 3, 3, 3]);
        if self.one_in(5) {
            return vec![self.weight(manner); faults];
        }
        (0..faults).map(|_| self.weight(manner)).collect()
    }

    fn weight(&mut self, manner: usize) -> u32 {
        match manner {
            0 => self.one_of(&EDGES),
            1 => self.one_of(&USUAL),
            2 => self.between(0, S as usize) as u32,
            _ => {
                let manner = self.below(3);
                self.weight(manner)
            }
        }
    }

    /// A way that names up to `most` faults, at least one, of `from` and those after it.
    fn way(&mut self, from: usize, faults: usize, most: usize, absent_too: bool) -> (u64, u64) {
        let (mut present, mut absent) = (0, 0);
        for _ in 0..self.between(1, most) {
            let bit = 1u64 << (from + self.below(faults));
            if (present | absent) & bit != 0 {
                continue; // named already
            }
            if absent_too && self.one_in(3) {
                absent |= bit;
            } else {
                present |= bit;
            }
        }
        (present, absent)
    }

    fn shaped(&mut self, shape: Shape, faults: usize, count: usize) -> Vec<(u64, u64)> {
        let mut ways: Vec<(u64, u64)> = Vec::new();
        let parts = self.between(2, 5).min(faults);
        let common = self.way(0, faults, 2, true);
        for number in 0..count {
            let way = match shape {
                Shape::Sparse => self.way(0, faults, 3, true),
                Shape::Dense => self.way(0, faults, 2 * faults, true),
                Shape::PresentOnly => self.way(0, faults, 4, false),
                Shape::Chain => {
                    let (this, next) = (number % faults, (number + 1) % faults);
                    let bits = 1u64 << this | 1u64 << next;
                    let absent = if self.one_in(4) { 1u64 << next } else { 0 };
                    (bits & !absent, absent)
                }
                Shape::Groups => {
                    let part = self.below(parts);
                    let (from, to) = (part * faults / parts, (part + 1) * faults / parts);
                    self.way(from, to - from, 3, true)
                }
                Shape::Repeats if number > 0 && self.one_in(2) => {
                    let (present, absent) = self.one_of(&ways);
                    // Now and then the opposite of an earlier way.
                    if self.one_in(4) {
                        (absent, present)
                    } else {
                        (present, absent)
                    }
                }
                Shape::Repeats => self.way(0, faults, 3, true),
                Shape::Common => naming_too(self.way(0, faults, 4, true), common),
                Shape::Mixed => {
                    let shape = self.one_of(&[Shape::Sparse, Shape::Dense, Shape::PresentOnly]);
                    self.shaped(shape, faults, 1)[0]
                }
            };
            ways.push(way);
        }
        if count > 0 && self.one_in(15) {
            let number = self.below(count);
            ways[number] = (0, 0);
        }
        ways
    }

    /// Sound ways over so many faults, as present and absent words.
    pub fn words(&mut self, faults: usize, count: usize) -> (Vec<u64>, Vec<u64>) {
        let shape = self.one_of(&SHAPES);
        self.shaped(shape, faults, count).into_iter().unzip()
    }

    /// A sound table of at most so many faults and ways.
    pub fn table_within(&mut self, most_faults: usize, most_ways: usize) -> Table {
        let faults = self.between(1, most_faults.min(MOST_FAULTS));
        let least = if self.one_in(10) { 0 } else { 2 };
        let count = self.between(least, most_ways.min(MOST_WAYS)).min(most_ways);
        let weights = self.weights(faults);
        let (present, absent) = self.words(faults, count);
        Table {
            weights,
            present,
            absent,
        }
    }

    /// A sound table of which about every other way is made from another: the same again, a fault more, or one less.
    pub fn redundant_table(&mut self, most_faults: usize, most_ways: usize) -> Table {
        let mut table = self.table_within(most_faults, most_ways);
        let ways = table.present.len();
        for number in (0..ways).filter(|number| number % 2 == 1) {
            let other = self.below(ways);
            let bit = 1u64 << self.below(table.faults());
            let (present, absent) = (table.present[other], table.absent[other]);
            let more = (present | absent) & bit == 0;
            let (present, absent) = match self.below(4) {
                0 => (present, absent),
                1 => (present & !bit, absent & !bit),
                2 if more => (present | bit, absent),
                _ if more => (present, absent | bit),
                _ => (present, absent),
            };
            table.present[number] = present;
            table.absent[number] = absent;
        }
        table
    }

    /// A sound table whose ways have a common part; in every other one each half of the ways has a further one.
    pub fn common_table(&mut self, most_faults: usize, most_ways: usize) -> Table {
        let mut table = self.table_within(most_faults, most_ways);
        let ways = table.present.len();
        let mut rows = vec![0..ways];
        if self.one_in(2) {
            rows.extend([0..ways / 2, ways / 2..ways]);
        }
        for rows in rows.into_iter().rev() {
            let part = self.way(0, table.faults(), 2, true);
            for row in rows {
                let way = (table.present[row], table.absent[row]);
                (table.present[row], table.absent[row]) = naming_too(way, part);
            }
        }
        table
    }

    /// A sound table of which about every other way has its senses exchanged: ways often share a fault in different senses.
    pub fn opposed_table(&mut self, most_faults: usize, most_ways: usize) -> Table {
        let mut table = self.table_within(most_faults, most_ways);
        for (present, absent) in table.present.iter_mut().zip(&mut table.absent) {
            if self.one_in(2) {
                swap(present, absent);
            }
        }
        table
    }

    /// A sound table of any size, small ones more often.
    pub fn table(&mut self) -> Table {
        let (faults, ways) = match self.below(10) {
            0..=3 => (6, 8),
            4..=6 => (12, 16),
            7..=8 => (MOST_FAULTS, 24),
            _ => (MOST_FAULTS, MOST_WAYS),
        };
        let mut table = self.table_within(faults, ways);
        if self.one_in(20) {
            // All 64 faults, so that the highest bit is in use.
            let ways = table.present.len();
            table.weights = self.weights(MOST_FAULTS);
            (table.present, table.absent) = self.words(MOST_FAULTS, ways);
        }
        table
    }

    /// A table with one damage or two, which refusals 9 to 13 mostly concern.
    pub fn damaged_table(&mut self) -> Table {
        let mut table = self.table();
        for _ in 0..self.between(1, 2) {
            self.damage_table(&mut table);
        }
        table
    }

    fn damage_table(&mut self, table: &mut Table) {
        match self.below(9) {
            0 => table.weights.clear(),
            1 => table.weights = self.weights(MOST_FAULTS + 1),
            2 => self.damage_weight(&mut table.weights),
            3 => {
                table.present.resize(MOST_WAYS + 1, 0);
                table.absent.resize(MOST_WAYS + 1, 0);
            }
            4 => drop(table.present.pop()),
            5 => drop(table.absent.pop()),
            6 => table.present.push(0),
            _ => {
                let faults = table.weights.len();
                self.damage_words(faults, &mut table.present, &mut table.absent);
            }
        }
    }

    fn damage_weight(&mut self, weights: &mut [u32]) {
        if !weights.is_empty() {
            let fault = self.below(weights.len());
            weights[fault] = self.one_of(&[TOP + 1, u32::MAX, TOP + TOP]);
        }
    }

    /// Names a fault at or above the number of faults, or one both present and absent.
    fn damage_words(&mut self, faults: usize, present: &mut [u64], absent: &mut [u64]) {
        let row = self.below(present.len().min(absent.len()));
        let (Some(present), Some(absent)) = (present.get_mut(row), absent.get_mut(row)) else {
            return;
        };
        let beyond = self.one_of(&[faults, faults + 1, 63]);
        let within = 1u64 << self.below(faults.min(64));
        match self.below(4) {
            0 | 1 if beyond >= faults && beyond < 64 => {
                let word = if self.one_in(2) { present } else { absent };
                *word |= 1 << beyond;
            }
            2 if faults < 64 => {
                *present |= 1 << 63;
                *absent |= 1 << 63;
            }
            _ => {
                *present |= within;
                *absent |= within;
            }
        }
    }

    // Runs and refinements by hand

    /// An allowance: mostly in bounds, one in ten above S.
    pub fn allowance(&mut self) -> u64 {
        match self.below(10) {
            0 => self.one_of(&[S + 1, S + 2, u64::from(u32::MAX)]),
            1..=3 => 0,
            4 => self.one_of(&[1, 2, S - 1, S]),
            5 => self.between(0, S as usize) as u64,
            _ => self.between(0, S as usize / 10) as u64,
        }
    }

    /// A budget: mostly in bounds, one in ten above 255.
    pub fn budget(&mut self) -> u64 {
        match self.below(10) {
            0 => self.one_of(&[256, 257, u64::from(u16::MAX)]),
            1 => self.one_of(&[0, 254, 255]),
            2..=3 => self.between(0, 255) as u64,
            _ => self.between(0, 12) as u64,
        }
    }

    /// A mode: mostly one of the two, one in ten above. Some of those above are 0 or 1 once cut to a byte.
    pub fn mode(&mut self) -> u64 {
        match self.below(10) {
            0 => self.one_of(&[2, 3, 256, 257, u64::from(u16::MAX)]),
            1..=5 => SHARE,
            _ => DISTANCE,
        }
    }

    /// What a run is asked for: mostly such as the rules accept.
    pub fn limits(&mut self) -> Limits {
        Limits {
            allowance: self.allowance(),
            budget: self.budget(),
            mode: self.mode(),
        }
    }

    /// An allowance that is accepted, in either mode, and no budget.
    pub fn aim(&mut self) -> Limits {
        Limits {
            allowance: self.allowance().min(S),
            budget: 0,
            mode: self.one_of(&[DISTANCE, SHARE]),
        }
    }

    /// Equal ends asked for, by distance or by share, with a budget from `least` to `most`.
    pub fn narrowest(&mut self, least: usize, most: usize) -> Limits {
        Limits {
            allowance: 0,
            budget: self.between(least, most) as u64,
            mode: self.one_of(&[DISTANCE, SHARE]),
        }
    }

    /// A refinement by hand, about half of them such as the rules accept.
    pub fn hand_refinement(&mut self, table: &Table, tree: &Tree) -> (Vec<u8>, Act) {
        if self.one_in(2) {
            if let Some(sound) = self.sound_refinement(table, tree) {
                return sound;
            }
        }
        self.bad_refinement(table, tree)
    }

    /// A refinement that the rules accept while fewer than 255 are made; none without an open leaf.
    pub fn sound_refinement(&mut self, table: &Table, tree: &Tree) -> Option<(Vec<u8>, Act)> {
        let mut open = tree.places(table);
        open.retain(|entry| entry.state == State::Open);
        if open.is_empty() {
            return None;
        }
        let leaf = open.swap_remove(self.below(open.len()));
        let act = self.sound_act(&leaf);
        Some((leaf.place, act))
    }

    fn sound_act(&mut self, leaf: &Entry) -> Act {
        if self.one_in(2) && split(&leaf.ways).is_some() {
            return Act::Independence;
        }
        if self.one_in(2) && !common(&leaf.ways).is_empty() {
            return Act::Common;
        }
        let occurring: Vec<u64> = (0..64)
            .filter(|&f| leaf.ways.iter().any(|way| way.names(f as usize)))
            .collect();
        if occurring.is_empty() || self.one_in(4) {
            pick(&leaf.ways)
        } else {
            Act::Fault(self.one_of(&occurring))
        }
    }

    /// A refinement chosen blindly: any act at an open leaf, at any node, or at any place.
    pub fn bad_refinement(&mut self, table: &Table, tree: &Tree) -> (Vec<u8>, Act) {
        let entries = tree.places(table);
        let act = self.any_act(table);
        let place = match self.below(4) {
            0 => self.place(&entries),
            1 => self.node_place(&entries),
            _ => match self.sound_refinement(table, tree) {
                Some((leaf, _)) => leaf,
                None => self.node_place(&entries),
            },
        };
        (place, act)
    }

    fn node_place(&mut self, entries: &[Entry]) -> Vec<u8> {
        let number = self.below(entries.len());
        entries
            .get(number)
            .map_or(Vec::new(), |entry| entry.place.clone())
    }

    /// A place: of any node, or next to one, or of any length up to a few above 64, or
    /// with a step that is neither left nor right.
    pub fn place(&mut self, entries: &[Entry]) -> Vec<u8> {
        let mut place = self.node_place(entries);
        match self.below(6) {
            0 => place.push(self.below(2) as u8),
            1 => {
                let step = self.one_of(&[2, 3, 128, 255]);
                let at = self.between(0, place.len());
                place.insert(at, step);
            }
            2 => {
                let at = self.below(place.len());
                if let Some(step) = place.get_mut(at) {
                    *step = self.one_of(&[2, 255, 254]);
                }
            }
            3 => {
                let length = self.one_of(&[
                    LONGEST_PLACE - 1,
                    LONGEST_PLACE,
                    LONGEST_PLACE + 1,
                    LONGEST_PLACE + 6,
                ]);
                let step = self.below(2) as u8;
                place.resize(length, step);
            }
            _ => {}
        }
        place
    }

    fn any_act(&mut self, table: &Table) -> Act {
        let faults = table.faults() as u64;
        match self.below(5) {
            0 => Act::Independence,
            1 => Act::Common,
            2 => Act::Fault(self.one_of(&[
                faults,
                faults + 1,
                63,
                64,
                65,
                255,
                256,
                u64::from(u32::MAX),
            ])),
            _ => Act::Fault(self.below(table.faults()) as u64),
        }
    }

    // Sheets

    /// A sheet that reading and writing accept, of at most so many faults, cues and ways a cue.
    pub fn sheet_within(
        &mut self,
        most_faults: usize,
        most_cues: usize,
        most_ways: usize,
    ) -> Sheet {
        let faults = self.between(1, most_faults.min(MOST_FAULTS));
        let cues = self.between(1, most_cues.min(MOST_CUES));
        let mut sheet = Sheet {
            weights: self.weights(faults),
            allowance: self.allowance().min(S),
            budget: self.budget().min(255),
            mode: self.mode().min(SHARE),
            ..Sheet::default()
        };
        // Room for all cue numbers to rise, and now and then up to the highest.
        let stride = if self.one_in(4) {
            usize::from(u16::MAX) / cues
        } else {
            5
        };
        let mut cue = 0;
        for _ in 0..cues {
            cue += self.between(1, stride);
            let count = self.between(0, most_ways.min(MOST_WAYS));
            let (present, absent) = self.words(faults, count);
            sheet.cues.push(cue as u16);
            sheet.counts.push(count as u16);
            sheet.present.extend(present);
            sheet.absent.extend(absent);
        }
        sheet
    }

    /// A sheet that reading and writing accept, small ones more often.
    pub fn sheet(&mut self) -> Sheet {
        match self.below(10) {
            0 => self.sheet_within(MOST_FAULTS, MOST_CUES, 10),
            1 => self.sheet_within(MOST_FAULTS, 3, MOST_WAYS),
            2..=4 => self.sheet_within(12, MOST_CUES, 4),
            _ => self.sheet_within(8, 4, 6),
        }
    }

    /// A sheet of the longest kind: 64 faults and 24 cues with 128 ways each.
    pub fn longest_sheet(&mut self) -> Sheet {
        let ways = MOST_CUES * MOST_WAYS;
        let (present, absent) = self.words(MOST_FAULTS, ways);
        Sheet {
            weights: self.weights(MOST_FAULTS),
            cues: (1..=MOST_CUES as u16).collect(),
            counts: vec![MOST_WAYS as u16; MOST_CUES],
            present,
            absent,
            allowance: self.allowance().min(S),
            budget: self.budget().min(255),
            mode: self.mode().min(SHARE),
        }
    }

    /// The bytes of a sheet with one damage or two, or cut short, or nothing like a sheet.
    pub fn damaged_sheet(&mut self) -> Vec<u8> {
        let mut bytes = encode(&self.sheet());
        match self.below(12) {
            0 => {
                let length = self.below(bytes.len());
                bytes.truncate(length);
            }
            1 => bytes = (0..self.below(200)).map(|_| self.draw() as u8).collect(),
            2 => {
                let length = self.one_of(&[LONGEST_SHEET, LONGEST_SHEET + 1, LONGEST_SHEET + 2]);
                bytes.resize(length, 0);
            }
            _ => {
                for _ in 0..self.between(1, 2) {
                    self.damage_sheet(&mut bytes);
                }
            }
        }
        bytes
    }

    fn damage_sheet(&mut self, bytes: &mut Vec<u8>) {
        let get = |bytes: &[u8], at: usize| bytes.get(at).copied().map_or(0, usize::from);
        let faults = get(bytes, 0).min(64);
        let cues = get(bytes, 2).min(24);
        let line = 12 + 8 * self.below(cues);
        let weight = 12 + 8 * cues + 4 * self.below(faults);
        let bodies = 12 + 8 * cues + 4 * faults;
        let ways = bytes.len().saturating_sub(bodies) / 16;
        match self.below(14) {
            0 => put(
                bytes,
                0,
                self.one_of(&[0, 65, 64, faults as u64 + 1, 65_535]),
                2,
            ),
            1 => put(
                bytes,
                2,
                self.one_of(&[0, 25, 24, cues as u64 + 1, 65_535]),
                2,
            ),
            2 => put(bytes, 4, self.one_of(&[S + 1, u64::from(u32::MAX)]), 4),
            3 => put(bytes, 8, self.one_of(&[256, 511, 65_535]), 2),
            4 => put(bytes, 10, self.one_of(&[0, 1, 2, 256, 257, 65_535]), 2),
            5 => put(bytes, line, self.one_of(&[0, 1, 2, 65_535]), 2),
            6 => {
                let count = get(bytes, line + 2) as u64;
                put(
                    bytes,
                    line + 2,
                    self.one_of(&[129, 128, count + 1, count.saturating_sub(1), 65_535]),
                    2,
                );
            }
            7 => {
                // From its lowest byte alone, so that a far place is off by a multiple of 256.
                let place = get(bytes, line + 4);
                put(
                    bytes,
                    line + 4,
                    self.one_of(&[0, place as u64 + 1, place as u64 + 16, 1 << 31]),
                    4,
                );
            }
            8 => put(
                bytes,
                weight,
                self.one_of(&[S + 1, u64::from(u32::MAX), S]),
                4,
            ),
            9 | 10 if ways > 0 => {
                let at = bodies + 16 * self.below(ways);
                let beyond = self.between(faults.min(63), 63);
                let bit = 1
                    << if self.one_in(2) {
                        beyond
                    } else {
                        self.below(faults)
                    };
                match self.below(3) {
                    0 => put(bytes, at, bit, 8),
                    1 => put(bytes, at + 8, bit, 8),
                    _ => {
                        put(bytes, at, bit, 8);
                        put(bytes, at + 8, bit, 8);
                    }
                }
            }
            11 => bytes.extend(vec![0; self.between(1, 17)]),
            12 => {
                let cut = self.between(1, 17);
                bytes.truncate(bytes.len().saturating_sub(cut));
            }
            _ => {
                let at = self.below(bytes.len());
                let bit = self.below(8);
                if let Some(byte) = bytes.get_mut(at) {
                    *byte ^= 1 << bit;
                }
            }
        }
    }

    /// Lists for the writer with one damage or two.
    pub fn damaged_lists(&mut self) -> Sheet {
        let mut sheet = self.sheet();
        for _ in 0..self.between(1, 2) {
            self.damage_lists(&mut sheet);
        }
        sheet
    }

    fn damage_lists(&mut self, sheet: &mut Sheet) {
        match self.below(15) {
            0 => match self.below(6) {
                0 => sheet.weights.clear(),
                1 => sheet.weights = self.weights(MOST_FAULTS + 1),
                2 => sheet.cues.clear(),
                3 => sheet.counts.clear(),
                4 => sheet.cues = (1..=MOST_CUES as u16 + 1).collect(),
                _ => sheet.counts.resize(MOST_CUES + 1, 0),
            },
            1 => {
                let wrong = self.one_of(&[0, 1, u16::MAX]);
                self.replace(&mut sheet.cues, wrong);
            }
            2 => {
                let wrong = self.one_of(&[0, 1, 128]);
                self.replace(&mut sheet.counts, wrong);
            }
            3 => {
                let wrong = self.one_of(&[129, 130, u16::MAX]);
                self.replace(&mut sheet.counts, wrong);
            }
            4 => self.damage_weight(&mut sheet.weights),
            5 | 6 => self.damage_words(sheet.weights.len(), &mut sheet.present, &mut sheet.absent),
            7 => sheet.allowance = self.one_of(&[S + 1, u64::from(u32::MAX)]),
            8 => sheet.budget = self.one_of(&[256, u64::from(u16::MAX)]),
            9 => sheet.mode = self.one_of(&[2, 256, 257, u64::from(u16::MAX)]),
            10 => drop(sheet.present.pop()),
            11 => drop(sheet.absent.pop()),
            12 => {
                // A row beyond what the cues count, now and then a bad one.
                let row = self.one_of(&[0, 1, 1 << 63]);
                let list = if self.one_in(2) {
                    &mut sheet.present
                } else {
                    &mut sheet.absent
                };
                list.push(row);
            }
            13 => {
                let row = self.one_of(&[0, 1]);
                sheet.present.push(row);
                sheet.absent.push(row);
            }
            _ => drop(sheet.counts.pop()),
        }
    }

    /// Puts a value somewhere in a list, if it has any place.
    fn replace(&mut self, list: &mut [u16], value: u16) {
        let at = self.below(list.len());
        if let Some(place) = list.get_mut(at) {
            *place = value;
        }
    }

    /// Space for the writer: as long as the output or a little shorter or longer.
    pub fn space(&mut self, sheet: &Sheet) -> usize {
        let length = length(sheet);
        match self.below(6) {
            0 => length.saturating_sub(1),
            1 => self.below(length),
            2 => length + self.between(1, 40),
            3 => 0,
            _ => length,
        }
    }
}

/// A way that names what it did and all of a part, where they disagree as the part does.
fn naming_too((present, absent): (u64, u64), part: (u64, u64)) -> (u64, u64) {
    let others = !(part.0 | part.1);
    (present & others | part.0, absent & others | part.1)
}

/// Puts a little-endian field, as far as the bytes reach.
fn put(bytes: &mut [u8], at: usize, value: u64, width: usize) {
    for (i, byte) in value.to_le_bytes().iter().take(width).enumerate() {
        if let Some(place) = bytes.get_mut(at + i) {
            *place = *byte;
        }
    }
}
