//! Sheets as comma separated text: the typed figures, both ways over random sheets, and texts that differ only in what
//! import does not look at.

use reference::csv::figures::{figures, longest, taken, typed, PAPER};
use reference::csv::stored::{accepted, refused};
use reference::csv::{
    export, import, joined, quoted, table, LONGEST_QUOTED, LONGEST_TEXT, MISREAD,
};
use reference::paper::whole_sheet;
use reference::random::Random;
use reference::sheet::{encode, length, Sheet};
use reference::{Answer, LONGEST_SHEET, S, SHARE};

const GUARD: u8 = 0xA5;

/// What a call answers and writes in a space of this length, which it leaves as it was beyond that.
fn made(call: fn(&[u8], &mut [u8]) -> Answer, input: &[u8], length: usize) -> (Answer, Vec<u8>) {
    let mut space = vec![GUARD; length];
    let answer = call(input, &mut space);
    let written = match answer.number {
        0 => answer.count as usize,
        _ => 0,
    };
    assert!(space[written..].iter().all(|&byte| byte == GUARD));
    space.truncate(written);
    (answer, space)
}

fn imported(text: &[u8]) -> (Answer, Vec<u8>) {
    made(import, text, LONGEST_SHEET)
}

fn exported(sheet: &[u8]) -> (Answer, Vec<u8>) {
    made(export, sheet, LONGEST_TEXT)
}

/// Number and count of a typed text.
fn told(text: &str) -> (u64, u64) {
    let (answer, _) = imported(&typed(text));
    assert_eq!((answer.low, answer.high, answer.verdict), (0, S, 0));
    (answer.number, answer.count)
}

#[test]
fn every_figure() {
    for (name, figures) in figures() {
        for figure in figures {
            let start = figure.text[..figure.text.len().min(300)].escape_ascii();
            assert_eq!(imported(&figure.text).0, figure.answer(), "{name}: {start}");
        }
    }
}

#[test]
fn refused_texts_made_elsewhere() {
    let refused = refused();
    assert_eq!(refused.len(), 35);
    for (name, figure) in refused {
        assert_eq!(imported(&figure.text).0, figure.answer(), "{name}");
    }
}

#[test]
fn accepted_texts_and_their_sheets() {
    let typed = taken().into_iter();
    let typed = typed.map(|taken| (taken.text.escape_ascii().to_string(), taken));
    let stored = accepted();
    assert_eq!(stored.len(), 44);
    for (name, taken) in typed.chain(stored) {
        assert_eq!(imported(&taken.text).1, taken.sheet, "{name}");
        assert_eq!(exported(&taken.sheet).1, taken.plain, "{name}");
    }
}

#[test]
fn the_worked_sheet_both_ways() {
    let text = typed(PAPER);
    let sheet = encode(&whole_sheet(40));
    assert_eq!((text.len(), sheet.len()), (73, 72));
    assert_eq!(made(import, &text, 72).1, sheet);
    assert_eq!(made(import, &text, 71).0, Answer::refused(22));
    assert_eq!(made(export, &sheet, 73).1, text);
    assert_eq!(made(export, &sheet, 72).0, Answer::refused(22));
}

/// Two bytes more, for a sheet by share alone; imported, it is that sheet again.
#[test]
fn the_mode_is_a_third_number() {
    let text = typed(&PAPER.replace("run,10000000,40", "run,10000000,40,1"));
    let sheet = encode(&Sheet {
        mode: SHARE,
        ..whole_sheet(40)
    });
    assert_eq!((text.len(), sheet.len()), (75, 72));
    assert_eq!(made(import, &text, 72).1, sheet);
    assert_eq!(made(import, &text, 71).0, Answer::refused(22));
    assert_eq!(made(export, &sheet, 75).1, text);
    assert_eq!(made(export, &sheet, 74).0, Answer::refused(22));
    let other = [&sheet[..10], &[2], &sheet[11..]].concat();
    assert_eq!(made(export, &other, 0).0, Answer::refused(3));
}

#[test]
fn twenty_three_comes_first_and_22_last() {
    let refused = |text: &str| made(import, &typed(text), 0).0;
    let misread = |record| Answer {
        count: record,
        ..Answer::refused(MISREAD)
    };
    assert_eq!(refused("run,9999999999,256⏎weights⏎0,1⏎x⏎"), misread(4));
    assert_eq!(
        refused("run,1000000001,256⏎weights⏎0,1⏎"),
        Answer::refused(2)
    );
    assert_eq!(
        refused("run,1000000001,256⏎weights,5⏎7⏎"),
        Answer::refused(14)
    );
    assert_eq!(refused("run,1,2⏎weights,5⏎7⏎"), Answer::refused(22));
    // No third number but 1 has the shape, so that no text is refused 3.
    assert_eq!(refused("run,1000000001,256,2⏎weights⏎"), misread(1));
    assert_eq!(made(export, &[], 0).0, Answer::refused(1));
}

#[test]
fn the_longest_texts() {
    let sheet = longest();
    assert_eq!(length(&sheet), LONGEST_SHEET);
    let bytes = encode(&sheet);
    let (answer, text) = exported(&bytes);
    assert_eq!((answer.number, answer.count), (0, 781_023));
    assert_eq!(imported(&text).1, bytes);
    assert_eq!(
        made(export, &bytes, LONGEST_TEXT - 1).0,
        Answer::refused(22)
    );
    let quoted = joined(&quoted(&table(&sheet)));
    assert_eq!((quoted.len(), LONGEST_QUOTED), (1_180_521, 1_180_521));
    assert_eq!(imported(&quoted).1, bytes);
}

#[test]
fn a_text_of_any_length_is_read_to_its_end() {
    let rows = "7,1⏎".repeat(400_000);
    let text = format!("run,1,2⏎weights,5⏎{rows}");
    assert_eq!(told(&text), (6, 0));
    assert_eq!(told(&(text + "7,1,1")), (MISREAD, 400_003));
}

#[test]
fn random_sheets_both_ways() {
    let mut random = Random::new(23);
    for _ in 0..2000 {
        let (sheet, text) = random.text();
        let bytes = encode(&sheet);
        assert_eq!(imported(&text).1, bytes, "{}", text.escape_ascii());
        let (_, plain) = exported(&bytes);
        assert_eq!(plain, joined(&table(&sheet)));
        assert_eq!(imported(&plain).1, bytes, "{}", plain.escape_ascii());
    }
}

#[test]
fn damaged_texts_meet_every_number() {
    let mut random = Random::new(24);
    let (mut met, mut modes) = ([0; 24], [0; 2]);
    for _ in 0..6000 {
        let text = random.damaged_text();
        let (answer, sheet) = imported(&text);
        met[answer.number as usize] += 1;
        match answer.number {
            0 => {
                modes[usize::from(sheet[10])] += 1;
                assert_eq!(imported(&exported(&sheet).1).1, sheet);
            }
            MISREAD => assert!(answer.count > 0),
            number => assert_eq!(answer, Answer::refused(number)),
        }
    }
    for number in [0, 2, 5, 6, 10, 12, 13, 14, 15, 23] {
        assert!(met[number] >= 60, "{number}: {met:?}");
    }
    assert!(met[3] == 0 && modes.iter().all(|&met| met >= 60));
}
