//! The program's stored sheet is the rules' whole sheet, byte by byte, the sample of that name is
//! the same, and this implementation's text for it is the program's stored output; and the text in lent space.

use reference::files::stored;
use reference::paper::whole_sheet;
use reference::report::{enclosing_lines, report, report_into};
use reference::sheet::encode;
use reference::Answer;

#[test]
fn the_stored_sheet_is_that_of_the_rules() {
    let bytes = stored("crates/cue_risk/stdin");
    assert_eq!(bytes.len(), 72);
    assert_eq!(bytes, encode(&whole_sheet(40)));
    assert_eq!(bytes, stored("samples/paper.sheet"));
}

#[test]
fn the_stored_output_is_this_implementations_own() {
    let text = report(&stored("samples/paper.sheet"));
    assert_eq!(text.as_bytes(), stored("crates/cue_risk/stdout"));
}

#[test]
fn a_line_that_does_not_enclose_is_found() {
    let bytes = encode(&whole_sheet(40));
    let text = report(&bytes);
    assert_eq!(enclosing_lines(&bytes, &text), Ok(2));
    for (right, wrong) in [
        ("300000000 300000000 2", "300000001 300000001 2"),
        ("300000000 300000000 2", "299999999 299999999 2"),
        ("9 0 0 0 met", "9 1 1 0 met"),
        ("9 0 0 0 met\n", ""),
    ] {
        let wrong = text.replace(right, wrong);
        assert!(enclosing_lines(&bytes, &wrong).is_err(), "{wrong}");
    }
    assert_eq!(enclosing_lines(&bytes[..71], "refused 8\n"), Ok(0));
}

#[test]
fn the_text_fills_the_front_of_a_space() {
    let bytes = encode(&whole_sheet(40));
    let text = report(&bytes);
    for more in [0, 1, 9] {
        let mut space = vec![0xAA; text.len() + more];
        let answer = report_into(&bytes, &mut space);
        assert_eq!((answer.number, answer.count), (0, text.len() as u64));
        assert_eq!(space[..text.len()], *text.as_bytes());
        assert!(space[text.len()..].iter().all(|&byte| byte == 0xAA));
    }
    let mut short = vec![0xAA; text.len() - 1];
    assert_eq!(report_into(&bytes, &mut short), Answer::refused(22));
    assert!(short.iter().all(|&byte| byte == 0xAA));
    let mut refused = [0; 10];
    assert_eq!(report_into(&bytes[..71], &mut refused).number, 0);
    assert_eq!(&refused, b"refused 8\n");
}
