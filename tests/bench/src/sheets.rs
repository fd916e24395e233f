//! The measured sheets: seeded, so that every run measures the same ones.

/// What the sheets of a family have in common.
#[derive(Clone, Copy)]
pub struct Shape {
    pub cues: usize,
    pub faults: usize,
    pub ways: usize,
    /// The fewest and the most faults that a way names.
    pub named: (usize, usize),
    /// The faults lie in so many groups, and a way names faults of one group alone.
    pub groups: usize,
    /// The first so many faults are present in every way, besides what it names by itself.
    pub common: usize,
    pub heaviest: u32,
    pub allowance: u64,
    pub budget: u64,
    /// 0, the allowance is a distance; 1, it is a share.
    pub mode: u64,
}

/// Splitmix64.
struct Random(u64);

impl Random {
    fn below(&mut self, bound: u64) -> u64 {
        self.0 = self.0.wrapping_add(0x9E37_79B9_7F4A_7C15);
        let mut z = self.0;
        z = (z ^ (z >> 30)).wrapping_mul(0xBF58_476D_1CE4_E5B9);
        z = (z ^ (z >> 27)).wrapping_mul(0x94D0_49BB_1331_11EB);
        (z ^ (z >> 31)) % bound
    }

    /// The present and the absent word of a way; a third of its faults are absent.
    fn way(&mut self, shape: &Shape) -> (u64, u64) {
        let width = shape.faults / shape.groups;
        let from = width * self.below(shape.groups as u64) as usize;
        let (least, most) = shape.named;
        let named = least + self.below((most - least + 1) as u64) as usize;
        let (mut present, mut absent) = ((1u64 << shape.common) - 1, 0u64);
        while ((present | absent).count_ones() as usize) < (shape.common + named).min(width) {
            let bit = 1 << (from + self.below(width as u64) as usize);
            if (present | absent) & bit == 0 {
                if self.below(3) == 0 {
                    absent |= bit;
                } else {
                    present |= bit;
                }
            }
        }
        (present, absent)
    }
}

/// The sheet of a shape and a seed.
pub fn sheet(shape: &Shape, seed: u64) -> Vec<u8> {
    let mut random = Random(seed);
    let mut bytes = Vec::new();
    bytes.extend((shape.faults as u16).to_le_bytes());
    bytes.extend((shape.cues as u16).to_le_bytes());
    bytes.extend((shape.allowance as u32).to_le_bytes());
    bytes.extend((shape.budget as u16).to_le_bytes());
    bytes.extend((shape.mode as u16).to_le_bytes());
    let mut place = 12 + 8 * shape.cues + 4 * shape.faults;
    for cue in 0..shape.cues {
        bytes.extend((cue as u16 + 1).to_le_bytes());
        bytes.extend((shape.ways as u16).to_le_bytes());
        bytes.extend((place as u32).to_le_bytes());
        place += 16 * shape.ways;
    }
    for _ in 0..shape.faults {
        let weight = 1 + random.below(u64::from(shape.heaviest)) as u32;
        bytes.extend(weight.to_le_bytes());
    }
    for _ in 0..shape.cues * shape.ways {
        let (present, absent) = random.way(shape);
        bytes.extend(present.to_le_bytes());
        bytes.extend(absent.to_le_bytes());
    }
    bytes
}

/// The weights and the words of the first cue of a sheet.
pub fn first_table(shape: &Shape, seed: u64) -> (Vec<u32>, Vec<u64>, Vec<u64>) {
    let bytes = sheet(shape, seed);
    let from = 12 + 8 * shape.cues;
    let bodies = from + 4 * shape.faults;
    let weight = |i: usize| u32::from_le_bytes(bytes[from + 4 * i..][..4].try_into().unwrap());
    let word = |i: usize| u64::from_le_bytes(bytes[bodies + 8 * i..][..8].try_into().unwrap());
    (
        (0..shape.faults).map(weight).collect(),
        (0..shape.ways).map(|i| word(2 * i)).collect(),
        (0..shape.ways).map(|i| word(2 * i + 1)).collect(),
    )
}

/// The families, by name.
pub fn families() -> Vec<(&'static str, Shape)> {
    let largest = Shape {
        cues: 24,
        faults: 64,
        ways: 128,
        named: (2, 4),
        groups: 1,
        common: 0,
        heaviest: 100_000_000,
        allowance: 0,
        budget: 255,
        mode: 0,
    };
    let small = Shape {
        cues: 2,
        faults: 4,
        ways: 3,
        named: (1, 2),
        heaviest: 500_000_000,
        allowance: 10_000_000,
        budget: 40,
        ..largest
    };
    let typical = Shape {
        cues: 8,
        faults: 16,
        ways: 20,
        named: (2, 3),
        heaviest: 300_000_000,
        allowance: 1_000_000,
        budget: 100,
        ..largest
    };
    vec![
        ("small", small),
        (
            "no ways",
            Shape {
                cues: 24,
                ways: 0,
                ..largest
            },
        ),
        ("typical", typical),
        (
            "typical, in groups",
            Shape {
                groups: 4,
                ..typical
            },
        ),
        ("largest", largest),
        (
            "largest, in groups",
            Shape {
                groups: 8,
                ..largest
            },
        ),
        (
            "largest, long ways",
            Shape {
                named: (20, 40),
                heaviest: 900_000_000,
                ..largest
            },
        ),
        (
            "common",
            Shape {
                ways: 12,
                named: (1, 2),
                common: 4,
                allowance: 0,
                budget: 255,
                ..typical
            },
        ),
        (
            "largest, common",
            Shape {
                common: 1,
                ..largest
            },
        ),
        ("typical, by share", Shape { mode: 1, ..typical }),
    ]
}

/// The largest sheet of one cue, with one measure varied: its name and value, and the shape.
pub fn growth() -> Vec<(&'static str, usize, Shape)> {
    let largest = families()[4].1;
    let one = Shape { cues: 1, ..largest };
    let ways = [8, 16, 32, 64, 128].map(|n| ("ways", n, Shape { ways: n, ..one }));
    let faults = [8, 16, 32, 64].map(|n| ("faults", n, Shape { faults: n, ..one }));
    let budgets = [0, 15, 63, 127, 255].map(|n| {
        (
            "budget",
            n,
            Shape {
                budget: n as u64,
                ..one
            },
        )
    });
    ways.into_iter().chain(faults).chain(budgets).collect()
}

/// The sheet with the longest text: every way names all faults absent, no number could have more digits, and the mode is written.
pub fn longest() -> Vec<u8> {
    let (cues, ways) = (24u32, 128u32);
    let mut bytes = Vec::new();
    bytes.extend([64, 0, cues as u8, 0]);
    bytes.extend(1_000_000_000u32.to_le_bytes());
    bytes.extend([255, 0, 1, 0]);
    for cue in 0..cues {
        bytes.extend((10_000 + cue as u16).to_le_bytes());
        bytes.extend((ways as u16).to_le_bytes());
        bytes.extend((12 + 8 * cues + 4 * 64 + 16 * ways * cue).to_le_bytes());
    }
    bytes.extend(1_000_000_000u32.to_le_bytes().repeat(64));
    for _ in 0..cues * ways {
        bytes.extend(0u64.to_le_bytes());
        bytes.extend(u64::MAX.to_le_bytes());
    }
    bytes
}

fn number(bytes: &[u8]) -> u64 {
    let add = |n, &byte| n << 8 | u64::from(byte);
    bytes.iter().rev().fold(0, add)
}

/// The fields that a way's words name, rising; `0` if none.
fn fields(way: &[u8]) -> Vec<String> {
    let (present, absent) = (number(&way[..8]), number(&way[8..]));
    let mut fields = Vec::new();
    for fault in 0..64 {
        if present >> fault & 1 == 1 {
            fields.push(format!("{}", fault + 1));
        }
        if absent >> fault & 1 == 1 {
            fields.push(format!("-{}", fault + 1));
        }
    }
    if fields.is_empty() {
        fields.push("0".to_string());
    }
    fields
}

/// The comma separated text of a sheet, each of its fields in such quotes.
pub fn text(sheet: &[u8], quote: &str) -> Vec<u8> {
    let decimal = |at: usize, len: usize| number(&sheet[at..at + len]).to_string();
    let (faults, cues) = (number(&sheet[..2]) as usize, number(&sheet[2..4]) as usize);
    let bodies = 12 + 8 * cues + 4 * faults;
    let mut weights = vec!["weights".to_string()];
    weights.extend((0..faults).map(|fault| decimal(12 + 8 * cues + 4 * fault, 4)));
    let mut run = vec!["run".to_string(), decimal(4, 4), decimal(8, 2)];
    if number(&sheet[10..12]) == 1 {
        run.push("1".to_string());
    }
    let mut records = vec![run, weights];
    let mut ways = sheet[bodies..].chunks(16);
    for entry in sheet[12..].chunks(8).take(cues) {
        let cue = vec![number(&entry[..2]).to_string()];
        let count = number(&entry[2..4]) as usize;
        if count == 0 {
            records.push(cue.clone());
        }
        for way in ways.by_ref().take(count) {
            records.push([cue.clone(), fields(way)].concat());
        }
    }
    let quoted = |field: &String| format!("{quote}{field}{quote}");
    let line = |record: &Vec<String>| record.iter().map(quoted).collect::<Vec<_>>().join(",");
    let lines = records.iter().map(|record| line(record) + "\r\n");
    lines.collect::<String>().into_bytes()
}
