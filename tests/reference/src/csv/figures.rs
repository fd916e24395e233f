//! Texts that are easy to get wrong, each typed by hand with what import answers; of those that are accepted also the
//! sheet's bytes and the text that export writes.

use super::{joined, MISREAD};
use crate::leaf::Interval;
use crate::sheet::Sheet;
use crate::{Answer, MOST_CUES, MOST_FAULTS, MOST_WAYS, S, SHARE};

/// A text, with ⏎ for CR LF where it is typed as a string.
pub struct Figure {
    pub text: Vec<u8>,
    pub number: u64,
    /// Accepted the length of the sheet, with 23 the record, else 0.
    pub count: u64,
}

/// An accepted text, its sheet, and the text that export writes for it.
pub struct Taken {
    pub text: Vec<u8>,
    pub sheet: Vec<u8>,
    pub plain: Vec<u8>,
}

impl Figure {
    pub fn answer(&self) -> Answer {
        match self.number {
            0 => Answer::accepted(Interval { low: 0, high: S }, self.count),
            number => Answer {
                count: self.count,
                ..Answer::refused(number)
            },
        }
    }
}

/// The bytes of a typed text.
pub fn typed(text: &str) -> Vec<u8> {
    text.replace('⏎', "\r\n").into_bytes()
}

fn figure(text: &str, number: u64, count: u64) -> Figure {
    let text = typed(text);
    Figure {
        text,
        number,
        count,
    }
}

/// The rules' worked sheet as text.
pub const PAPER: &str = "run,10000000,40⏎weights,500000000,500000000,200000000⏎7,1,2⏎7,1,3⏎9⏎";

/// Its cue 7 by a share.
const SHARED: &str = "run,76923077,255,1⏎weights,500000000,500000000,200000000⏎7,1,2⏎7,1,3⏎";

/// Records of cues behind the first two records.
fn cues(text: &str, number: u64, count: u64) -> Figure {
    figure(&format!("run,1,2⏎weights,5⏎{text}"), number, count)
}

/// All of them, by name.
pub fn figures() -> Vec<(&'static str, Vec<Figure>)> {
    vec![
        ("the worked sheet", vec![figure(PAPER, 0, 72)]),
        ("the first two records", first_records()),
        ("line ends", ends()),
        ("cues", rows()),
        ("faults", faults()),
        ("quotes and other bytes", fields()),
        ("sizes", sizes()),
        ("the third number", modes()),
        ("how many", many()),
    ]
}

/// The first two records: words, numbers, how many fields.
fn first_records() -> Vec<Figure> {
    let run = |text: &str| figure(&format!("{text}⏎weights,5⏎7⏎"), MISREAD, 1);
    let weights = |text: &str| figure(&format!("run,1,2⏎{text}⏎7⏎"), MISREAD, 2);
    let mut all = vec![
        figure("", MISREAD, 1),
        figure("⏎", MISREAD, 1),
        figure("⏎run,1,2⏎weights,5⏎7⏎", MISREAD, 1),
        figure("run,1,2", MISREAD, 2),
        figure("run,1,2⏎", MISREAD, 2),
        figure("run,1,2⏎⏎", MISREAD, 2),
        figure("weights,5⏎run,1,2⏎7⏎", MISREAD, 1),
        figure("run,1,2⏎run,1,2⏎weights,5⏎7⏎", MISREAD, 2),
        figure("run,1,2⏎weights,5⏎weights,5⏎7⏎", MISREAD, 3),
        figure("run,1,2⏎weights⏎", 2, 0),
        figure("run,1,2⏎weights", 2, 0),
        figure("run,1,2⏎weights⏎7,1⏎", 2, 0),
        figure("\u{feff}run,1,2⏎weights,5⏎7⏎", MISREAD, 1),
        figure("run,1,2\nweights,5\n7\n", MISREAD, 1),
        figure("run,1,2\rweights,5\r7\r", MISREAD, 1),
        figure("run;1;2⏎weights;5⏎7⏎", MISREAD, 1),
    ];
    all.extend(
        [
            "run,01,2",
            "run,1,02",
            "run, 1,2",
            "run,1 ,2",
            " run,1,2",
            "run ,1,2",
            "Run,1,2",
            "RUN,1,2",
            "ru,1,2",
            "runs,1,2",
            "run,+1,2",
            "run,-1,2",
            "run,-0,2",
            "run,1,2,",
            "run,1",
            "run",
            "run,,2",
            "run,1,",
            "run,1.0,2",
            "run,1e3,2",
            "run,0x1,2",
            "run,00,2",
            "run,10000000000,2",
            "run,1,99999999999",
            "run,00000000001,2",
            "\"run\" ,1,2",
            "\"run,1,2\"",
            "run,\"1\"\"\",2",
        ]
        .map(run),
    );
    all.extend(
        [
            "weight,5",
            "Weights,5",
            "weights,",
            "weights,05",
            "weights,+5",
            "weights,-5",
            "weights,5,",
            "weights,,5",
            "weights,5 ",
            "weights 5",
            "weights,10000000000",
            "weights,x",
            "",
            "5",
        ]
        .map(weights),
    );
    all
}

/// Line ends, and texts that stop.
fn ends() -> Vec<Figure> {
    vec![
        cues("", 2, 0),
        figure("run,1,2⏎weights,5", 2, 0),
        cues("7⏎", 0, 24),
        cues("7", 0, 24),
        cues("7⏎⏎", MISREAD, 4),
        cues("⏎7⏎", MISREAD, 3),
        cues("7⏎\r", MISREAD, 4),
        cues("7⏎\n", MISREAD, 4),
        cues("7\r", MISREAD, 3),
        cues("7\n", MISREAD, 3),
        cues("7\n8⏎", MISREAD, 3),
        cues("7\r8⏎", MISREAD, 3),
        cues("7\r\r\n", MISREAD, 3),
        cues("7\n\r\n", MISREAD, 3),
        cues("7⏎8", 0, 32),
        cues("7⏎8\n", MISREAD, 4),
        cues("7⏎\u{1a}", MISREAD, 4),
        cues("7⏎\0", MISREAD, 4),
    ]
}

/// Cues: their numbers, the cue alone, and where a cue begins.
fn rows() -> Vec<Figure> {
    vec![
        cues("7,0⏎", 0, 40),
        cues("7,0⏎7,0⏎", 0, 56),
        cues("7,1⏎7,0⏎8⏎", 0, 64),
        cues("7,-0⏎", MISREAD, 3),
        cues("7,0,0⏎", MISREAD, 3),
        cues("7,0,1⏎", MISREAD, 3),
        cues("7,1,0⏎", MISREAD, 3),
        cues("7,00⏎", MISREAD, 3),
        cues("7⏎7⏎", MISREAD, 4),
        cues("7⏎7,1⏎", MISREAD, 4),
        cues("7⏎7,0⏎", MISREAD, 4),
        cues("7,1⏎7⏎", MISREAD, 4),
        cues("7,0⏎7⏎", MISREAD, 4),
        cues("7,1⏎7,1⏎7⏎", MISREAD, 5),
        cues("7⏎8⏎7,1⏎", 5, 0),
        cues("7⏎8⏎7⏎", 5, 0),
        cues("7,1⏎8⏎7,1⏎", 5, 0),
        cues("7⏎6⏎", 5, 0),
        cues("0,1⏎", 5, 0),
        cues("0⏎", 5, 0),
        cues("0⏎0,1⏎", MISREAD, 4),
        cues("7,1⏎0,1⏎", 5, 0),
        cues("65535,1⏎", 0, 40),
        cues("65536,1⏎", MISREAD, 3),
        cues("65543,1⏎", MISREAD, 3),
        cues("131079⏎", MISREAD, 3),
        cues("9999999999⏎", MISREAD, 3),
        cues("-7,1⏎", MISREAD, 3),
        cues("+7,1⏎", MISREAD, 3),
        cues("07,1⏎", MISREAD, 3),
        cues(",1⏎", MISREAD, 3),
        cues("7,⏎", MISREAD, 3),
        cues("7,1,⏎", MISREAD, 3),
        cues("7,,1⏎", MISREAD, 3),
        cues(" 7⏎", MISREAD, 3),
        cues("7 ⏎", MISREAD, 3),
        cues("x⏎", MISREAD, 3),
        cues("7,x⏎", MISREAD, 3),
        cues("7,1⏎8,x⏎9,y⏎", MISREAD, 4),
        cues("run,1,2⏎", MISREAD, 3),
    ]
}

/// Faults: how they are written, twice in a record, and beyond the weights.
fn faults() -> Vec<Figure> {
    vec![
        cues("7,1⏎", 0, 40),
        cues("7,-1⏎", 0, 40),
        cues("7,--1⏎", MISREAD, 3),
        cues("7,-⏎", MISREAD, 3),
        cues("7,+1⏎", MISREAD, 3),
        cues("7,1-⏎", MISREAD, 3),
        cues("7,- 1⏎", MISREAD, 3),
        cues("7,01⏎", MISREAD, 3),
        cues("7,-01⏎", MISREAD, 3),
        cues("7,\u{2212}1⏎", MISREAD, 3),
        cues("7,1,1⏎", MISREAD, 3),
        cues("7,-1,-1⏎", MISREAD, 3),
        cues("7,1,-1,1⏎", MISREAD, 3),
        cues("7,1,-1⏎", 13, 0),
        cues("7,-1,1⏎", 13, 0),
        cues("7,2⏎", 12, 0),
        cues("7,-2⏎", 12, 0),
        cues("7,1,65⏎", 12, 0),
        cues("7,100,100⏎", MISREAD, 3),
        cues("7,-100,-100⏎", MISREAD, 3),
        cues("7,1,100,-1,100⏎", MISREAD, 3),
        cues("7,100,-100⏎", 12, 0),
        cues("7,1,-1,100⏎", 12, 0),
        cues("7,65,129⏎", 12, 0),
        cues("7,1,257⏎", 12, 0),
        cues("7,1,65537⏎", 12, 0),
        cues("7,1,4294967297⏎", 12, 0),
        cues("7,-4294967297,-1⏎", 12, 0),
        cues("7,9999999999⏎", 12, 0),
        cues("7,9999999999,9999999998⏎", 12, 0),
        cues("7,9999999999,-9999999999⏎", 12, 0),
        cues("7,9999999999,1,9999999999⏎", MISREAD, 3),
        cues("7,10000000000⏎", MISREAD, 3),
        cues("7,-9999999999⏎", 12, 0),
        cues("7,-10000000000⏎", MISREAD, 3),
        cues("7,18446744073709551617⏎", MISREAD, 3),
        cues("7,100⏎8,1,1⏎", MISREAD, 4),
    ]
}

/// Quotes, and bytes that no field has.
fn fields() -> Vec<Figure> {
    let quoted = "\"run\",\"1\",\"2\"⏎\"weights\",\"5\"⏎\"7\",\"-1\"";
    let mut all = vec![
        figure(quoted, 0, 40),
        figure(&format!("{quoted}⏎"), 0, 40),
        cues("\"7\"⏎", 0, 24),
        cues("\"7\",\"0\"⏎", 0, 40),
        cues("\"7\",1⏎7,\"-1\"⏎", 0, 56),
        cues("7,\"1\",1⏎", MISREAD, 3),
        cues("\"7⏎8\"⏎", MISREAD, 3),
        cues("7⏎\"8⏎9\"⏎", MISREAD, 4),
        cues("7⏎\"8⏎9⏎", MISREAD, 4),
    ];
    all.extend(
        [
            "7,\"\"1\"\"",
            "7,\"1",
            "7,1\"",
            "7,\"1\"2\"",
            "7,\"1\"2",
            "7,1\"\"",
            "7,\"\"",
            "\"\"",
            "\"",
            "7,\"",
            "7,\"\"\"\"",
            "7,\"\"\"1\"\"\"",
            "7,\"1\"\"\"",
            "7,\"1,2\"",
            "7,\" 1\"",
            "7, \"1\"",
            "7,\"1\" ",
            "\"7,1\"",
            "7,-\"1\"",
            "7,\"-\"1",
            "7,\"1\",",
            "7,'1'",
            "7,\t1",
            "7\t1",
            "7,1\u{7f}",
            "7,\u{7f}",
            "7,\"1\u{0}\"",
            "7,\u{a0}1",
            "7,\u{661}",
            "\u{feff}7",
        ]
        .map(|row| cues(&format!("{row}⏎8⏎"), MISREAD, 3)),
    );
    // Every byte but a digit in and behind a cue number; a comma in it ends the cue and makes a fault of the rest.
    for byte in (0..=255u8).filter(|byte| !byte.is_ascii_digit()) {
        let row = |cue: &[u8]| [&typed("run,1,2⏎weights,5⏎")[..], cue, b",1\r\n"].concat();
        let misread = |text| Figure {
            text,
            number: MISREAD,
            count: 3,
        };
        if byte != b',' {
            all.push(misread(row(&[b'1', byte, b'2'])));
        }
        all.push(misread(row(&[b'1', b'2', byte])));
    }
    all.push(cues("1,2,1⏎", 12, 0));
    all
}

/// Weights, allowance and budget: their sizes are judged by the sheet's own numbers.
fn sizes() -> Vec<Figure> {
    let run = |run: &str, number, count| figure(&format!("{run}⏎weights,5⏎7⏎"), number, count);
    let weights = |weights: &str, row: &str, number, count| {
        figure(&format!("run,1,2⏎weights,{weights}⏎{row}⏎"), number, count)
    };
    vec![
        run("run,0,0", 0, 24),
        run("run,1000000000,255", 0, 24),
        run("run,1000000001,255", 14, 0),
        run("run,4294967296,2", 14, 0),
        run("run,4294967297,2", 14, 0),
        run("run,9999999999,2", 14, 0),
        run("run,9999999999,9999999999", 14, 0),
        run("run,1,256", 15, 0),
        run("run,1,65536", 15, 0),
        run("run,1,65538", 15, 0),
        run("run,1,4294967298", 15, 0),
        run("run,1,9999999999", 15, 0),
        weights("0", "7", 0, 24),
        weights("1000000000", "7", 0, 24),
        weights("1000000001", "7", 10, 0),
        weights("1000000001", "7,2", 10, 0),
        weights("4294967296", "7", 10, 0),
        weights("4294967301", "7", 10, 0),
        weights("9999999999", "7", 10, 0),
        weights("5,6", "7,-2,1", 0, 44),
        weights("5,1000000001", "7,1,1", MISREAD, 3),
    ]
}

/// The third number of the first record: 1, bare or quoted, and nothing else.
fn modes() -> Vec<Figure> {
    let run = |run: &str, number, count| figure(&format!("{run}⏎weights,5⏎7⏎"), number, count);
    let accepted = [
        "run,0,0,1",
        "run,1,2,1",
        "run,1,2,\"1\"",
        "run,1000000000,255,1",
        "\"run\",\"1\",\"2\",\"1\"",
    ];
    let misread = [
        "run,1,2,0",
        "run,1,2,2",
        "run,1,2,3",
        "run,1,2,10",
        "run,1,2,11",
        "run,1,2,01",
        "run,1,2,256",
        "run,1,2,257",
        "run,1,2,65535",
        "run,1,2,65537",
        "run,1,2,4294967297",
        "run,1,2,9999999999",
        "run,1,2,+1",
        "run,1,2,-1",
        "run,1,2, 1",
        "run,1,2,1 ",
        "run,1,2,1.0",
        "run,1,2,\"\"",
        "run,1,2,\"0\"",
        "run,1,2,\"2\"",
        "run,1,2,\"1",
        "run,1,2,1\"",
        "run,1,2,\"1\"1",
        "run,1,2,\"1\"\"\"",
        "run,1,2,share",
        "run,1,2,1,",
        "run,1,2,1,0",
        "run,1,2,1,1",
        "run,1,2,,1",
        "run,1,,1",
        "run,,2,1",
        "run,1,1.0,1",
        "1,2,1",
    ];
    let mut all: Vec<Figure> = accepted.iter().map(|text| run(text, 0, 24)).collect();
    all.extend(misread.iter().map(|text| run(text, MISREAD, 1)));
    all.extend([
        run("run,1000000001,255,1", 14, 0),
        run("run,1000000001,256,1", 14, 0),
        run("run,1,256,1", 15, 0),
        figure("run,1,2,1", MISREAD, 2),
        figure("run,1,2,1⏎", MISREAD, 2),
        figure("run,1,2,1⏎weights,5⏎", 2, 0),
        figure("run,1,2,1⏎weights,5,1⏎7,3⏎", 12, 0),
    ]);
    all
}

/// How many weights, cues and ways there may be.
fn many() -> Vec<Figure> {
    let record = |fields: &[&str]| fields.iter().map(|field| field.to_string()).collect();
    let start = |weights: usize| {
        let weights = [vec!["weights"], vec!["5"; weights]].concat();
        vec![record(&["run", "1", "2"]), record(&weights)]
    };
    let rising = |cues: usize| (1..=cues).map(|cue| vec![cue.to_string()]).collect();
    let alternating = |cues: usize| {
        (0..cues)
            .map(|cue| vec![(cue % 2 + 1).to_string()])
            .collect()
    };
    let ways = |ways: usize| vec![record(&["7", "1"]); ways];
    let whole = |weights: usize, rows: Vec<Vec<String>>, number: u64, count: u64| Figure {
        text: joined(&[start(weights), rows].concat()),
        number,
        count,
    };
    let with = |mut rows: Vec<Vec<String>>, last: &[&str]| {
        rows.push(record(last));
        rows
    };
    let second = |rows: Vec<Vec<String>>| [vec![record(&["6"])], rows].concat();
    let (faults, cues) = (MOST_FAULTS, MOST_CUES);
    vec![
        whole(faults, with(vec![], &["7", "64"]), 0, 292),
        whole(faults, with(vec![], &["7", "-64"]), 0, 292),
        whole(faults, with(vec![], &["7", "65"]), 12, 0),
        whole(63, with(vec![], &["7", "64"]), 12, 0),
        whole(faults + 1, with(vec![], &["7", "65"]), 2, 0),
        whole(256, ways(1), 2, 0),
        whole(257, ways(1), 2, 0),
        whole(65_537, ways(1), 2, 0),
        whole(1, rising(cues), 0, 208),
        whole(1, rising(cues + 1), 2, 0),
        whole(1, with(rising(cues + 1), &["26", "x"]), MISREAD, 28),
        whole(1, with(rising(cues), &["1"]), 2, 0),
        whole(1, rising(257), 2, 0),
        whole(1, alternating(65_537), 2, 0),
        whole(1, alternating(cues), 5, 0),
        whole(1, ways(MOST_WAYS), 0, 2072),
        whole(1, ways(MOST_WAYS + 1), 6, 0),
        whole(1, second(ways(MOST_WAYS)), 0, 2080),
        whole(1, second(ways(MOST_WAYS + 1)), 6, 0),
        whole(1, ways(256), 6, 0),
        whole(1, ways(257), 6, 0),
        whole(1, ways(65_536), 6, 0),
        whole(1, ways(65_537), 6, 0),
        whole(1, with(ways(65_536), &["7"]), MISREAD, 65_539),
        whole(1, with(ways(300), &["7", "1", "1"]), MISREAD, 303),
    ]
}

/// Accepted texts with their sheets.
pub fn taken() -> Vec<Taken> {
    let paper = typed(PAPER);
    let head = [1, 0, 1, 0, 1, 0, 0, 0, 2, 0, 0, 0];
    let one = |cue: u8, ways: u8, place: u8, rest: &[u8]| {
        [
            &head[..],
            &[cue, 0, ways, 0, place, 0, 0, 0, 5, 0, 0, 0],
            rest,
        ]
        .concat()
    };
    let words =
        |present: u8, absent: u8| [present, 0, 0, 0, 0, 0, 0, 0, absent, 0, 0, 0, 0, 0, 0, 0];
    let taken = |text: &str, sheet: Vec<u8>, plain: &str| Taken {
        text: typed(text),
        sheet,
        plain: typed(plain),
    };
    let start = |rows: &str| format!("run,1,2⏎weights,5⏎{rows}");
    let wide = [
        &[
            4, 0, 1, 0, 0, 0, 0, 0, 0, 0, 0, 0, 255, 255, 1, 0, 36, 0, 0, 0,
        ][..],
        &[0, 0, 0, 0, 1, 0, 0, 0, 0, 202, 154, 59, 44, 1, 0, 0],
        &words(12, 3),
    ];
    vec![
        Taken {
            text: paper.clone(),
            sheet: paper_sheet(),
            plain: paper,
        },
        taken(&start("7"), one(7, 0, 24, &[]), &start("7⏎")),
        taken(&start("7,0⏎"), one(7, 1, 24, &words(0, 0)), &start("7,0⏎")),
        taken(
            &start("\"7\",\"0\""),
            one(7, 1, 24, &words(0, 0)),
            &start("7,0⏎"),
        ),
        taken(
            "\"run\",\"1\",\"2\"⏎\"weights\",\"5\"⏎\"7\",\"-1\"",
            one(7, 1, 24, &words(0, 1)),
            &start("7,-1⏎"),
        ),
        taken(
            "run,0,0⏎weights,0,1,1000000000,300⏎65535,4,-2,3,-1⏎",
            wide.concat(),
            "run,0,0⏎weights,0,1,1000000000,300⏎65535,-1,-2,3,4⏎",
        ),
        taken(
            "\"run\",1,2,\"1\"⏎weights,5⏎7",
            [
                &[1, 0, 1, 0, 1, 0, 0, 0, 2, 0, 1, 0],
                &[7, 0, 0, 0, 24, 0, 0, 0, 5, 0, 0, 0][..],
            ]
            .concat(),
            "run,1,2,1⏎weights,5⏎7⏎",
        ),
        taken(SHARED, share_sheet(), SHARED),
        taken(
            "run,1,2⏎weights,5,5,5⏎7,3,-1⏎",
            [
                &[3, 0, 1, 0, 1, 0, 0, 0, 2, 0, 0, 0, 7, 0, 1, 0, 32, 0, 0, 0][..],
                &[5, 0, 0, 0, 5, 0, 0, 0, 5, 0, 0, 0],
                &words(4, 1),
            ]
            .concat(),
            "run,1,2⏎weights,5,5,5⏎7,-1,3⏎",
        ),
    ]
}

/// The rules' worked sheet, byte for byte.
fn paper_sheet() -> Vec<u8> {
    let head = [3, 0, 2, 0, 0x80, 0x96, 0x98, 0, 40, 0, 0, 0];
    let contents = [7, 0, 2, 0, 40, 0, 0, 0, 9, 0, 0, 0, 72, 0, 0, 0];
    [&head[..], &contents, &weights_and_body()].concat()
}

/// The sheet of `SHARED`, byte for byte.
fn share_sheet() -> Vec<u8> {
    let head = [3, 0, 1, 0, 0xc5, 0xc0, 0x95, 0x04, 0xff, 0, 1, 0];
    let contents = [7, 0, 2, 0, 32, 0, 0, 0];
    [&head[..], &contents, &weights_and_body()].concat()
}

/// The weights of both, and the ways of cue 7.
fn weights_and_body() -> Vec<u8> {
    let mut sheet = Vec::new();
    sheet.extend([
        0, 0x65, 0xcd, 0x1d, 0, 0x65, 0xcd, 0x1d, 0, 0xc2, 0xeb, 0x0b,
    ]);
    for present in [3u64, 5] {
        sheet.extend(present.to_le_bytes());
        sheet.extend([0; 8]);
    }
    sheet
}

/// The sheet with the longest text: every number has as many digits as it may, the mode is written, and every way names all
/// faults absent.
pub fn longest() -> Sheet {
    let ways = MOST_CUES * MOST_WAYS;
    Sheet {
        weights: vec![S as u32; MOST_FAULTS],
        cues: (0..MOST_CUES as u16).map(|cue| 10_000 + cue).collect(),
        counts: vec![MOST_WAYS as u16; MOST_CUES],
        present: vec![0; ways],
        absent: vec![u64::MAX; ways],
        allowance: S,
        budget: 255,
        mode: SHARE,
    }
}
