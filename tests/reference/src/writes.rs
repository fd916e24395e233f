//! Named lists for the writer, with the lines that its test program must print: the number, the count and a hash of the
//! whole space; then what reading finds in an accepted sheet, from the lists given, and the same once written again.

use crate::paper::whole_sheet;
use crate::random::Random;
use crate::sheet::{decode, write, Sheet};
use crate::{Limits, MOST_CUES, MOST_FAULTS, MOST_WAYS, S, SHARE};

/// The test program's space, and what it holds before.
const SPACE: usize = 49_620;
const GUARD: u8 = 170;

/// The longest lists that the test program has room for.
const ROOM: [usize; 3] = [MOST_FAULTS + 1, MOST_CUES + 1, MOST_CUES * MOST_WAYS + 1];

const ABOVE: u32 = S as u32 + 1;

/// Lists and how much of the space is lent.
struct Case {
    name: String,
    lists: Sheet,
    lent: usize,
}

/// The test program's input and expected output. The input: how many cases, then for each its name and a colon, the
/// lengths of the five lists, the lists, allowance, budget, mode and how many bytes are lent.
pub struct Writes {
    pub input: String,
    pub expected: String,
}

pub fn writes() -> Writes {
    let mut cases = named();
    cases.extend(orders());
    cases.extend(random());
    let mut writes = Writes {
        input: format!("{}\n", cases.len()),
        expected: String::new(),
    };
    for case in &cases {
        writes.add(case);
    }
    writes
}

impl Writes {
    fn add(&mut self, case: &Case) {
        let Case { name, lists, lent } = case;
        self.input += &format!("{name}:{}\n", joined(&numbers(lists, *lent)));
        let mut space = vec![GUARD; SPACE];
        let answer = write(lists, &mut space[..*lent]);
        self.expected += &format!(
            "{name}: {} {} {}\n",
            answer.number,
            answer.count,
            hash(&space)
        );
        if let Some(number) = numbered(name) {
            assert_eq!(answer.number, number, "{name}");
        }
        if answer.number == 0 {
            let sheet = decode(&space[..answer.count as usize]);
            assert_eq!(sheet.as_ref(), Ok(lists), "{name}");
            self.expected += &read_back(lists);
            // Written again into as large a space, all of it lent.
            let mut second = vec![GUARD; SPACE];
            let again = write(lists, &mut second);
            self.expected += &format!(
                "again: {} {} {}\n",
                again.number,
                again.count,
                hash(&second)
            );
        }
    }
}

/// The number that a name begins with, as "12, .." and "12 before .." do.
fn numbered(name: &str) -> Option<u64> {
    let (number, _) = name
        .split_once(", ")
        .or_else(|| name.split_once(" before "))?;
    number.parse().ok()
}

/// A case's numbers as the test program reads them. Panics at a list that it has no room for.
fn numbers(lists: &Sheet, lent: usize) -> Vec<u64> {
    let lengths = [
        lists.weights.len(),
        lists.cues.len(),
        lists.counts.len(),
        lists.present.len(),
        lists.absent.len(),
    ];
    let room = [ROOM[0], ROOM[1], ROOM[1], ROOM[2], ROOM[2]];
    assert!(
        lengths
            .iter()
            .zip(room)
            .all(|(&length, room)| length <= room)
            && lent <= SPACE
    );
    let mut numbers: Vec<u64> = lengths.iter().map(|&length| length as u64).collect();
    numbers.extend(lists.weights.iter().map(|&weight| u64::from(weight)));
    numbers.extend(lists.cues.iter().map(|&cue| u64::from(cue)));
    numbers.extend(lists.counts.iter().map(|&count| u64::from(count)));
    numbers.extend(lists.present.iter().chain(&lists.absent));
    let Limits {
        allowance,
        budget,
        mode,
    } = lists.limits();
    numbers.extend([allowance, budget, mode, lent as u64]);
    numbers
}

fn joined(numbers: &[u64]) -> String {
    let words: Vec<String> = numbers.iter().map(u64::to_string).collect();
    words.join(" ")
}

/// A polynomial in 257 modulo a prime: the test program's hash.
fn word_hash(words: impl Iterator<Item = u64>) -> u64 {
    const PRIME: u64 = 1_000_000_007;
    words.fold(0, |hash, word| (257 * hash + word % PRIME + 1) % PRIME)
}

fn hash(bytes: &[u8]) -> u64 {
    word_hash(bytes.iter().map(|&byte| u64::from(byte)))
}

/// What reading must find in the sheet of these lists: the head, and each cue's number, ways, start and words. Weights
/// and words have zeros behind them, up to the most there may be.
fn read_back(lists: &Sheet) -> String {
    let filled = |words: &[u64], most: usize| {
        let zeros = std::iter::repeat(0).take(most - words.len());
        word_hash(words.iter().copied().chain(zeros))
    };
    let weights: Vec<u64> = lists
        .weights
        .iter()
        .map(|&weight| u64::from(weight))
        .collect();
    let mut text = format!(
        "head {} {} {} {} {} {}\n",
        weights.len(),
        lists.cues.len(),
        lists.allowance,
        lists.budget,
        lists.mode,
        filled(&weights, MOST_FAULTS)
    );
    let mut way = 0;
    let bodies = 12 + 8 * lists.cues.len() + 4 * weights.len();
    for (cue, &count) in lists.cues.iter().zip(&lists.counts) {
        let rows = way..way + usize::from(count);
        let (present, absent) = (&lists.present[rows.clone()], &lists.absent[rows.clone()]);
        text += &format!(
            "cue {cue} {count} {} {} {}\n",
            bodies + 16 * way,
            filled(present, MOST_WAYS),
            filled(absent, MOST_WAYS)
        );
        way = rows.end;
    }
    text
}

/// The rules' lists with something changed, in ample space.
fn changed(name: &str, change: impl Fn(&mut Sheet)) -> Case {
    let mut lists = whole_sheet(40);
    change(&mut lists);
    Case {
        name: name.to_string(),
        lists,
        lent: 100,
    }
}

/// Lists with so much space lent.
fn lent(name: &str, lists: &Sheet, lent: usize) -> Case {
    Case {
        name: name.to_string(),
        lists: lists.clone(),
        lent,
    }
}

/// A sheet of the longest kind, no two ways equal, with fault 63 absent from the first way of each cue.
fn longest() -> Sheet {
    let ways = (MOST_CUES * MOST_WAYS) as u64;
    Sheet {
        weights: (1..=MOST_FAULTS as u32).collect(),
        cues: (1..=MOST_CUES as u16).collect(),
        counts: vec![MOST_WAYS as u16; MOST_CUES],
        present: (0..ways).collect(),
        absent: (0..ways)
            .map(|way| u64::from(way % 128 == 0) << 63)
            .collect(),
        allowance: S,
        budget: 255,
        mode: SHARE,
    }
}

/// What is accepted up to its limits, and every refusal of the writer.
fn named() -> Vec<Case> {
    let paper = whole_sheet(40);
    let longest = longest();
    vec![
        lent("space as long as the sheet", &paper, 72),
        lent("space one byte longer", &paper, 73),
        lent("whole space", &paper, SPACE),
        lent("longest, space as long", &longest, 49_612),
        lent("longest, space one byte longer", &longest, 49_613),
        changed("allowance 0, budget 0", |l| {
            (l.allowance, l.budget) = (0, 0)
        }),
        changed("allowance S, budget 255", |l| {
            (l.allowance, l.budget) = (S, 255)
        }),
        changed("mode 1", |l| l.mode = 1),
        changed("mode 1, share 0, budget 0", |l| {
            (l.allowance, l.budget, l.mode) = (0, 0, 1)
        }),
        changed("mode 1, share S, budget 255", |l| {
            (l.allowance, l.budget, l.mode) = (S, 255, 1)
        }),
        changed("weights 0, 1 and S", |l| l.weights = vec![0, 1, S as u32]),
        changed("64 weights", |l| l.weights = (0..64).collect()),
        changed("cue numbers 1 and 65535", |l| l.cues = vec![1, 65_535]),
        changed("24 cues", |l| {
            l.cues = (1..25).collect();
            l.counts = [&[0; 22][..], &[1, 1]].concat();
            l.weights = vec![5; 3];
        }),
        changed("128 ways", |l| {
            l.counts = vec![128, 0];
            l.present = (0..128).map(|way| way % 8).collect();
            l.absent = (0..128).map(|way| 7 - way % 8).collect();
        }),
        changed("no ways", |l| {
            l.counts = vec![0, 0];
            (l.present, l.absent) = (vec![], vec![]);
        }),
        changed("empty ways", |l| l.present = vec![0, 0]),
        changed("absent words", |l| {
            (l.present, l.absent) = (vec![0, 5], vec![7, 2])
        }),
        changed("2, no weight", |l| l.weights.clear()),
        changed("2, 65 weights", |l| l.weights = vec![0; 65]),
        changed("2, no cue number", |l| l.cues.clear()),
        changed("2, no count", |l| l.counts.clear()),
        changed("2, 25 cue numbers", |l| l.cues = (1..26).collect()),
        changed("2, 25 counts", |l| l.counts = vec![0; 25]),
        changed("3, mode 2", |l| l.mode = 2),
        changed("3, mode 256", |l| l.mode = 256),
        changed("3, mode 65535", |l| l.mode = 65_535),
        changed("3, mode 65536", |l| l.mode = 65_536),
        changed("3, mode 2^32 + 1", |l| l.mode = (1 << 32) + 1),
        changed("3, largest mode", |l| l.mode = u64::MAX),
        changed("5, cue number 0", |l| l.cues = vec![0, 9]),
        changed("5, equal cue numbers", |l| l.cues = vec![7, 7]),
        changed("5, falling cue numbers", |l| l.cues = vec![9, 7]),
        changed("6, 129 ways", |l| l.counts = vec![129, 0]),
        changed("6, 65535 ways of the last cue", |l| {
            l.counts = vec![2, 65_535]
        }),
        changed("10, weight S + 1", |l| l.weights[2] = ABOVE),
        changed("10, largest weight", |l| l.weights[0] = u32::MAX),
        changed("12, present fault 3", |l| l.present[1] = 8),
        changed("12, absent fault 63", |l| l.absent[0] = 1 << 63),
        changed("12, present row beyond the counts", |l| l.present.push(8)),
        changed("12, absent row beyond the counts", |l| l.absent.push(8)),
        changed("13, fault 2 both ways", |l| l.absent[1] = 4),
        changed("13, row beyond the counts", |l| {
            l.present.push(1);
            l.absent.push(1);
        }),
        changed("14, allowance S + 1", |l| l.allowance = S + 1),
        changed("14, largest allowance", |l| l.allowance = u32::MAX.into()),
        changed("15, budget 256", |l| l.budget = 256),
        changed("15, largest budget", |l| l.budget = u16::MAX.into()),
        changed("21, a cue number more", |l| l.cues.push(11)),
        changed("21, a count more", |l| l.counts.push(0)),
        changed("21, a way counted too many", |l| l.counts = vec![2, 1]),
        changed("21, a way counted too few", |l| l.counts = vec![1, 0]),
        changed("21, a present word more", |l| l.present.push(4)),
        changed("21, an absent word fewer", |l| l.absent.truncate(1)),
        changed("21, no words", |l| (l.present, l.absent) = (vec![], vec![])),
        lent("22, space one byte shorter", &paper, 71),
        lent("22, no space", &paper, 0),
        lent("22, longest, space one byte shorter", &longest, 49_611),
    ]
}

/// Lists that two numbers concern, neighbours in the order: each looked for everywhere before the next.
fn orders() -> Vec<Case> {
    vec![
        changed("2 before 3", |l| (l.weights, l.mode) = (vec![], 2)),
        changed("2 before 5", |l| (l.weights, l.cues) = (vec![], vec![0, 9])),
        changed("3 before 5", |l| (l.mode, l.cues) = (2, vec![0, 9])),
        changed("5 before 6", |l| {
            (l.cues, l.counts) = (vec![7, 7], vec![129, 0])
        }),
        changed("6 before 10", |l| {
            (l.counts[1], l.weights[0]) = (129, ABOVE)
        }),
        changed("10 before 12", |l| {
            (l.weights[2], l.present[0]) = (ABOVE, 8)
        }),
        changed("12 before 13", |l| (l.present[1], l.absent[0]) = (8, 3)),
        changed("13 before 14", |l| (l.absent[0], l.allowance) = (1, S + 1)),
        changed("14 before 15", |l| (l.allowance, l.budget) = (S + 1, 256)),
        changed("15 before 21", |l| (l.budget, l.counts[1]) = (256, 1)),
        Case {
            lent: 0,
            ..changed("21 before 22", |l| l.counts[1] = 1)
        },
    ]
}

/// Lists at random, sound and damaged, in spaces about as long as their sheet.
fn random() -> Vec<Case> {
    let mut random = Random::new(21);
    let cases = (0..120).map(|i| {
        let lists = if i % 2 == 0 {
            random.sheet_within(12, 6, 8)
        } else {
            random.damaged_lists()
        };
        let lent = random.space(&lists).min(SPACE);
        Case {
            name: format!("random {i}"),
            lists,
            lent,
        }
    });
    cases.collect()
}
