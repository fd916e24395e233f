//! Named sheets, sound and refused, with what the program prints for each: the expected output of the test program that
//! has them built in. They are made here from lists, and damaged by this module's own list of fields.

use crate::paper::whole_sheet;
use crate::report::{enclosing_lines, report};
use crate::sheet::{encode, sheet_number, Sheet};
use crate::{LONGEST_SHEET, MOST_CUES, MOST_FAULTS, MOST_WAYS, S};

/// A field of the rules' sheet: where it stands and how wide it is.
type Field = (usize, usize);

const FAULTS: Field = (0, 2);
const CUES: Field = (2, 2);
const ALLOWANCE: Field = (4, 4);
const BUDGET: Field = (8, 2);
const MODE: Field = (10, 2);
const FIRST_NUMBER: Field = (12, 2);
const FIRST_WAYS: Field = (14, 2);
const FIRST_PLACE: Field = (16, 4);
const LAST_NUMBER: Field = (20, 2);
const LAST_WAYS: Field = (22, 2);
const LAST_PLACE: Field = (24, 4);
const FIRST_WEIGHT: Field = (28, 4);
const LAST_WEIGHT: Field = (36, 4);
const FIRST_PRESENT: Field = (40, 8);
const FIRST_ABSENT: Field = (48, 8);
const LAST_PRESENT: Field = (56, 8);
const LAST_ABSENT: Field = (64, 8);

const WHOLE: usize = 72;

/// A name, how many bytes of the rules' sheet there are, and what is changed in it.
type Case = (&'static str, usize, &'static [(Field, u64)]);

/// Accepted, at the ends of what is allowed.
const ACCEPTED: [Case; 22] = [
    ("paper", WHOLE, &[]),
    ("budget 1", WHOLE, &[(BUDGET, 1)]),
    ("budget 0", WHOLE, &[(BUDGET, 0)]),
    ("budget 255", WHOLE, &[(BUDGET, 255)]),
    ("allowance 0", WHOLE, &[(ALLOWANCE, 0)]),
    ("allowance S", WHOLE, &[(ALLOWANCE, S)]),
    ("twice is less", WHOLE, &[(ALLOWANCE, 24_999_999)]),
    ("twice after 1", WHOLE, &[(ALLOWANCE, 25_000_000)]),
    ("twice at once", WHOLE, &[(ALLOWANCE, 50_000_000)]),
    ("mode 1", WHOLE, &[(MODE, 1)]),
    ("share 0", WHOLE, &[(ALLOWANCE, 0), (MODE, 1)]),
    ("share S", WHOLE, &[(ALLOWANCE, S), (MODE, 1)]),
    (
        "share after 2",
        WHOLE,
        &[(ALLOWANCE, 76_923_076), (MODE, 1)],
    ),
    (
        "share after 1",
        WHOLE,
        &[(ALLOWANCE, 76_923_077), (MODE, 1)],
    ),
    (
        "share not doubled",
        WHOLE,
        &[(ALLOWANCE, 166_666_666), (MODE, 1)],
    ),
    (
        "share at once",
        WHOLE,
        &[(ALLOWANCE, 166_666_667), (MODE, 1)],
    ),
    ("share spent", WHOLE, &[(BUDGET, 1), (MODE, 1)]),
    ("weight 0", WHOLE, &[(FIRST_WEIGHT, 0)]),
    ("weight S", WHOLE, &[(FIRST_WEIGHT, S)]),
    ("an empty way", WHOLE, &[(FIRST_PRESENT, 0)]),
    ("fault 2 absent", WHOLE, &[(FIRST_ABSENT, 4)]),
    ("cue number 65535", WHOLE, &[(LAST_NUMBER, 65_535)]),
];

/// Every refusal that reading knows, each with its number.
const REFUSED: [(u64, Case); 36] = [
    (1, ("no bytes", 0, &[])),
    (1, ("11 bytes", 11, &[])),
    (2, ("no faults", WHOLE, &[(FAULTS, 0)])),
    (2, ("65 faults", WHOLE, &[(FAULTS, 65)])),
    (2, ("256 faults", WHOLE, &[(FAULTS, 256)])),
    (2, ("no cues", WHOLE, &[(CUES, 0)])),
    (2, ("25 cues", WHOLE, &[(CUES, 25)])),
    (3, ("mode 2", WHOLE, &[(MODE, 2)])),
    (3, ("mode 256", WHOLE, &[(MODE, 256)])),
    (3, ("mode 257", WHOLE, &[(MODE, 257)])),
    (3, ("mode 65535", WHOLE, &[(MODE, 65_535)])),
    (4, ("12 bytes", 12, &[])),
    (4, ("39 bytes", 39, &[])),
    (4, ("64 faults", WHOLE, &[(FAULTS, 64)])),
    (4, ("24 cues", WHOLE, &[(CUES, 24)])),
    (5, ("cue number 0", WHOLE, &[(FIRST_NUMBER, 0)])),
    (5, ("equal cue numbers", WHOLE, &[(LAST_NUMBER, 7)])),
    (5, ("falling cue numbers", WHOLE, &[(LAST_NUMBER, 6)])),
    (6, ("129 ways", WHOLE, &[(FIRST_WAYS, 129)])),
    (
        6,
        ("65535 ways of the last cue", WHOLE, &[(LAST_WAYS, 65_535)]),
    ),
    (7, ("first body off by one", WHOLE, &[(FIRST_PLACE, 41)])),
    (
        7,
        ("body of a cue without ways", WHOLE, &[(LAST_PLACE, 40)]),
    ),
    (7, ("body far away", WHOLE, &[(FIRST_PLACE, 0xFFFF_FFFF)])),
    (7, ("128 ways", WHOLE, &[(FIRST_WAYS, 128)])),
    (8, ("40 bytes", 40, &[])),
    (8, ("71 bytes", 71, &[])),
    (8, ("73 bytes", 73, &[])),
    (8, ("a way too many", WHOLE, &[(LAST_WAYS, 1)])),
    (10, ("weight S + 1", WHOLE, &[(FIRST_WEIGHT, S + 1)])),
    (10, ("largest weight", WHOLE, &[(LAST_WEIGHT, 0xFFFF_FFFF)])),
    (12, ("present fault 3", WHOLE, &[(FIRST_PRESENT, 8)])),
    (12, ("absent fault 63", WHOLE, &[(LAST_ABSENT, 1 << 63)])),
    (
        13,
        ("fault 0 present and absent", WHOLE, &[(FIRST_ABSENT, 1)]),
    ),
    (14, ("allowance S + 1", WHOLE, &[(ALLOWANCE, S + 1)])),
    (14, ("share S + 1", WHOLE, &[(ALLOWANCE, S + 1), (MODE, 1)])),
    (15, ("budget 256", WHOLE, &[(BUDGET, 256)])),
];

/// Two at once, neighbours in the order: the first of them counts.
const ORDERS: [(u64, Case); 12] = [
    (1, ("1 before 2", 11, &[(FAULTS, 0)])),
    (2, ("2 before 3", WHOLE, &[(CUES, 25), (MODE, 2)])),
    (3, ("3 before 4", WHOLE, &[(MODE, 2), (FAULTS, 64)])),
    (4, ("4 before 5", 39, &[(FIRST_NUMBER, 0)])),
    (
        5,
        ("5 before 6", WHOLE, &[(FIRST_WAYS, 129), (LAST_NUMBER, 7)]),
    ),
    (
        6,
        ("6 before 7", WHOLE, &[(FIRST_PLACE, 0), (LAST_WAYS, 129)]),
    ),
    (7, ("7 before 8", 71, &[(LAST_PLACE, 73)])),
    (8, ("8 before 10", 73, &[(FIRST_WEIGHT, S + 1)])),
    (
        10,
        (
            "10 before 12",
            WHOLE,
            &[(LAST_WEIGHT, S + 1), (FIRST_PRESENT, 8)],
        ),
    ),
    (
        12,
        (
            "12 before 13",
            WHOLE,
            &[(FIRST_ABSENT, 1), (LAST_PRESENT, 8)],
        ),
    ),
    (
        13,
        (
            "13 before 14",
            WHOLE,
            &[(FIRST_ABSENT, 1), (ALLOWANCE, S + 1)],
        ),
    ),
    (
        14,
        ("14 before 15", WHOLE, &[(BUDGET, 256), (ALLOWANCE, S + 1)]),
    ),
];

/// The rules' sheet cut or with zeros behind, and changed.
fn damaged((_, length, changes): &Case) -> Vec<u8> {
    let mut bytes = encode(&whole_sheet(40));
    for &((at, width), value) in *changes {
        bytes[at..at + width].copy_from_slice(&value.to_le_bytes()[..width]);
    }
    bytes.resize(*length, 0);
    bytes
}

/// A sheet of the longest kind: a way names up to three faults present and mostly one absent, by a xorshift generator.
pub fn longest() -> Sheet {
    let mut sheet = Sheet {
        weights: (1..=MOST_FAULTS as u32).map(|n| n * 3_000_000).collect(),
        cues: (1..=MOST_CUES as u16).collect(),
        counts: vec![MOST_WAYS as u16; MOST_CUES],
        allowance: 62_500_000,
        budget: 4,
        ..Sheet::default()
    };
    let mut state: u64 = 1;
    for _ in 0..MOST_CUES * MOST_WAYS {
        state ^= state << 13;
        state ^= state >> 7;
        state ^= state << 17;
        let bit = |digit: u32| 1u64 << (state >> (6 * digit) & 63);
        let present = bit(0) | bit(1) | bit(2);
        sheet.present.push(present);
        sheet.absent.push(bit(3) & !present);
    }
    sheet
}

/// Every sheet by name; the refused ones meet every refusal that reading knows.
pub fn named() -> Vec<(&'static str, Vec<u8>)> {
    let accepted = ACCEPTED.iter().map(|case| (case.0, damaged(case)));
    let refused = REFUSED.iter().chain(&ORDERS).map(|(number, case)| {
        let bytes = damaged(case);
        assert_eq!(sheet_number(&bytes), *number, "{}", case.0);
        (case.0, bytes)
    });
    let longest = encode(&longest());
    assert_eq!(longest.len(), LONGEST_SHEET);
    let longer = [&longest[..], &[0]].concat();
    let shorter = longest[..LONGEST_SHEET - 1].to_vec();
    let long = [
        ("49612 bytes", longest),
        ("49613 bytes", longer),
        ("49611 bytes", shorter),
    ];
    accepted.chain(refused).chain(long).collect()
}

/// The expected output: for each sheet its name and a colon on a line, then its report.
pub fn sheets() -> String {
    let mut text = String::new();
    for (name, bytes) in named() {
        let printed = report(&bytes);
        assert!(enclosing_lines(&bytes, &printed).is_ok(), "{name}");
        text += &format!("{name}:\n{printed}");
    }
    text
}
