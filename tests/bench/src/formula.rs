//! The ways of a leaf and what follows from them: what stays of them, chances, both ends, groups and the fault named most.
//! The same loops as the library's `chances`, `clauses` and `formula`: no list of ways is written down.

pub const S: u64 = 1_000_000_000;
pub const MOST_WAYS: usize = 128;
pub const MOST_FAULTS: usize = 64;

#[derive(Clone, Copy, Default)]
pub struct Way {
    pub number: usize,
    pub present: u64,
    pub absent: u64,
}

impl Way {
    pub fn faults(&self) -> u64 {
        self.present | self.absent
    }

    /// One of these fixed faults is named in the other sense.
    fn contradicted(&self, present: u64, absent: u64) -> bool {
        (self.present & absent) | (self.absent & present) != 0
    }

    /// It says no more than the other, which names every fault of it in the same sense.
    fn subsumes(&self, other: &Way) -> bool {
        self.present & !other.present == 0 && self.absent & !other.absent == 0
    }

    /// Beside it the other says nothing new. Of equal ways the lowest number stays.
    fn outdoes(&self, other: &Way) -> bool {
        self.subsumes(other) && (!other.subsumes(self) || self.number < other.number)
    }
}

/// A table as a call gets it.
#[derive(Clone, Copy)]
pub struct Table<'a> {
    pub weights: &'a [u32],
    pub present: &'a [u64],
    pub absent: &'a [u64],
}

impl Table<'_> {
    /// All its ways, in number order.
    fn rows(&self) -> impl Iterator<Item = Way> + '_ {
        let words = self.present.iter().zip(self.absent);
        words.enumerate().map(|(number, (&present, &absent))| Way {
            number,
            present,
            absent,
        })
    }

    /// What stays of its ways, each tested against each: those that say nothing new are left out.
    pub fn staying(&self) -> Clauses {
        let mut kept = Clauses::of_set([0; 2]);
        for way in self.rows() {
            if !self.rows().any(|other| other.outdoes(&way)) {
                kept.add(way.number);
            }
        }
        kept
    }
}

/// The ways of a leaf: those of a table with these numbers, less the faults fixed present, fixed absent and left out.
#[derive(Clone, Copy)]
pub struct Clauses {
    pub set: [u64; 2],
    pub present: u64,
    pub absent: u64,
    pub out: u64,
}

impl Clauses {
    /// The ways of these numbers as the table has them.
    pub fn of_set(set: [u64; 2]) -> Clauses {
        Clauses {
            set,
            present: 0,
            absent: 0,
            out: 0,
        }
    }

    /// The ways in number order, each read off the table when its turn comes.
    pub fn ways<'a>(&self, table: &'a Table) -> impl Iterator<Item = Way> + 'a {
        let dropped = self.present | self.absent | self.out;
        let [mut low, mut high] = self.set;
        std::iter::from_fn(move || {
            let number = if low != 0 {
                let number = low.trailing_zeros() as usize;
                low &= low - 1;
                number
            } else if high != 0 {
                let number = 64 + high.trailing_zeros() as usize;
                high &= high - 1;
                number
            } else {
                return None;
            };
            Some(Way {
                number,
                present: table.present[number] & !dropped,
                absent: table.absent[number] & !dropped,
            })
        })
    }

    fn add(&mut self, number: usize) {
        self.set[number / 64] |= 1 << (number % 64);
    }

    /// Those that pass a test.
    fn keep(&self, table: &Table, mut test: impl FnMut(&Way) -> bool) -> Clauses {
        let mut kept = Clauses {
            set: [0; 2],
            ..*self
        };
        for way in self.ways(table) {
            if test(&way) {
                kept.add(way.number);
            }
        }
        kept
    }

    /// The same numbers with more faults fixed.
    fn fixing(self, present: u64, absent: u64) -> Clauses {
        Clauses {
            present: self.present | present,
            absent: self.absent | absent,
            ..self
        }
    }

    /// The same numbers with more faults left out.
    pub fn without(self, faults: u64) -> Clauses {
        Clauses {
            out: self.out | faults,
            ..self
        }
    }

    /// The first way alone, less all that it names besides these faults.
    pub fn first_within(self, table: &Table, faults: u64) -> Clauses {
        let way = self.ways(table).next().unwrap_or_default();
        let mut first = Clauses {
            set: [0; 2],
            ..self
        };
        first.add(way.number);
        first.without(way.faults() & !faults)
    }

    /// What remains with more faults fixed.
    pub fn restrict(&self, table: &Table, present: u64, absent: u64) -> Clauses {
        self.keep(table, |way| !way.contradicted(present, absent))
            .fixing(present, absent)
    }

    pub fn is_none(&self) -> bool {
        self.set == [0; 2]
    }

    /// Those numbers that the other has not.
    pub fn minus(&self, other: &Clauses) -> Clauses {
        let set = [0, 1].map(|word| self.set[word] & !other.set[word]);
        Clauses { set, ..*self }
    }

    /// A way that each of these subsumes.
    fn cover(&self, table: &Table) -> Way {
        self.ways(table).fold(Way::default(), |cover, way| Way {
            number: 0,
            present: cover.present | way.present,
            absent: cover.absent | way.absent,
        })
    }

    /// The ways by a fault, whose word is given.
    pub fn by_fault(&self, table: &Table, word: u64) -> ByFault {
        let named = self.part(table, word, true);
        let others = self.minus(&named);
        ByFault {
            named,
            others,
            cover: others.cover(table),
        }
    }

    /// The ways that the word of faults touches, or those that it does not.
    fn part(&self, table: &Table, word: u64, touched: bool) -> Clauses {
        self.keep(table, |way| (word & way.faults() != 0) == touched)
    }
}

/// The ways of a leaf by a fault: those that name it, the others, and a way that each of the others subsumes.
pub struct ByFault {
    named: Clauses,
    others: Clauses,
    cover: Way,
}

impl ByFault {
    /// What stays with the fault fixed, where before each way said something new: a way that lost the fault stays, and leaves
    /// out what it subsumes of the others, which is nothing if it does not even subsume their cover.
    pub fn staying(&self, table: &Table, present: u64, absent: u64) -> Clauses {
        let shorter = self.named.restrict(table, present, absent);
        let mut kept = self.others;
        for way in shorter.ways(table) {
            if way.subsumes(&self.cover) {
                let subsumed = kept.keep(table, |other| way.subsumes(other));
                kept = kept.minus(&subsumed);
            }
        }
        let set = [0, 1].map(|word| shorter.set[word] | kept.set[word]);
        Clauses { set, ..shorter }
    }
}

pub fn down(x: u64) -> u64 {
    x / S
}

pub fn up(x: u64) -> u64 {
    (x + (S - 1)) / S
}

fn over<const UP: bool>(x: u64) -> u64 {
    if UP {
        up(x)
    } else {
        down(x)
    }
}

/// The low or the high chance of a way: its faults are visited by their set bits, the lowest first.
fn chance<const UP: bool>(weights: &[u32], way: &Way) -> u64 {
    let mut chance = S;
    let mut left = way.faults();
    while left != 0 {
        let fault = left.trailing_zeros() as usize;
        let weight = u64::from(weights[fault]);
        let factor = if way.present >> fault & 1 == 1 {
            weight
        } else {
            S - weight
        };
        chance = over::<UP>(chance * factor);
        left &= left - 1;
    }
    chance
}

/// Both ends of a leaf in one pass: a way is kept for the low end if it names none of the faults already taken, which one word
/// holds, and once the high end is S no further chance is worked out for it.
pub fn ends(table: &Table, ways: &Clauses) -> (u64, u64) {
    let (mut held, mut low, mut high) = (0, 0, 0);
    for way in ways.ways(table) {
        if high != S {
            high = S.min(high + chance::<true>(table.weights, &way));
        }
        if held & way.faults() == 0 {
            held |= way.faults();
            low = S - up((S - low) * (S - chance::<false>(table.weights, &way)));
        }
    }
    (low, high)
}

/// Open: low below high, and two ways or more. With a way that names no fault low is S.
pub fn is_open(ways: &Clauses, low: u64, high: u64) -> bool {
    low < high && ways.set.iter().map(|word| word.count_ones()).sum::<u32>() >= 2
}

/// The ways outside the group of the first way: sweeps over those that are not yet in it, until one changes nothing.
pub fn other_ways(table: &Table, ways: &Clauses) -> Clauses {
    let mut word = ways.ways(table).next().map_or(0, |way| way.faults());
    let mut outside = *ways;
    loop {
        let before = word;
        outside = outside.keep(table, |way| {
            let touched = word & way.faults() != 0;
            if touched {
                word |= way.faults();
            }
            !touched
        });
        if word == before {
            return outside;
        }
    }
}

/// The common part, as a word of faults: those that all ways name in the same sense. It is left as soon as it is empty.
pub fn common_faults(table: &Table, ways: &Clauses) -> u64 {
    let mut ways = ways.ways(table);
    let Some(first) = ways.next() else { return 0 };
    let (mut present, mut absent) = (first.present, first.absent);
    for way in ways {
        present &= way.present;
        absent &= way.absent;
        if present | absent == 0 {
            return 0;
        }
    }
    present | absent
}

/// The fault that most ways name, the lowest number if several are.
pub fn most_named(table: &Table, ways: &Clauses) -> usize {
    let mut counts = [0u8; MOST_FAULTS];
    for way in ways.ways(table) {
        let mut left = way.faults();
        while left != 0 {
            counts[left.trailing_zeros() as usize] += 1;
            left &= left - 1;
        }
    }
    let mut best = 0;
    for fault in 1..table.weights.len() {
        if counts[fault] > counts[best] {
            best = fault;
        }
    }
    best
}
