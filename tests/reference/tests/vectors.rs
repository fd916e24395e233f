//! The stored input and expected output of the test programs are just what this implementation writes, and
//! between them every number and every verdict occurs.

use reference::files::{stored, stored_text};
use reference::sheets::sheets;
use reference::vectors::vectors;
use reference::writes::writes;

#[test]
fn the_stored_trees_are_this_implementations_own() {
    let vectors = vectors();
    assert!(stored("crates/tree_vectors/stdin") == vectors.input.as_bytes());
    assert!(stored("crates/tree_vectors/stdout") == vectors.expected.as_bytes());
}

#[test]
fn the_stored_sheets_are_this_implementations_own() {
    assert!(stored("crates/sheet_vectors/stdout") == sheets().as_bytes());
}

#[test]
fn the_stored_writes_are_this_implementations_own() {
    let writes = writes();
    assert!(stored("crates/writer_vectors/stdin") == writes.input.as_bytes());
    assert!(stored("crates/writer_vectors/stdout") == writes.expected.as_bytes());
}

/// Number 3, every number from 9 to 20, every verdict and every kind of node is among the lines of the trees. The line of a
/// place has five figures, that of an opening or a hand refinement four, that of a run six.
#[test]
fn every_number_and_verdict_of_trees_occurs() {
    let expected = stored_text("crates/tree_vectors/stdout");
    let lines = expected.lines().map(|line| line.split(' ').collect());
    let of_place = |line: &Vec<&str>| line.len() == 5;
    let (places, lines): (Vec<Vec<&str>>, Vec<Vec<&str>>) = lines.partition(of_place);
    for kind in ["1", "2", "3", "4"] {
        let met = places.iter().filter(|line| line[0] == kind).count();
        assert!(met >= 100, "kind {kind}: {met}");
    }
    for number in (9..=20).chain([0, 3]) {
        let number = number.to_string();
        assert!(lines.iter().any(|line| line[0] == number), "{number}");
    }
    for verdict in 0..=4 {
        let verdict = verdict.to_string();
        let told = |line: &Vec<&str>| line.get(4) == Some(&&verdict[..]);
        assert!(lines.iter().any(told), "verdict {verdict}");
    }
}

/// Every number that reading knows is among the reports, and the rules' lines with budget 40 and with budget 1, by share too.
#[test]
fn every_number_of_reading_occurs() {
    let expected = stored_text("crates/sheet_vectors/stdout");
    let told = |wanted: &str| expected.lines().any(|line| line == wanted);
    for number in (1..=8).chain([10]).chain(12..=15) {
        assert!(told(&format!("refused {number}")), "{number}");
    }
    for line in [
        "7 300000000 300000000 2 met",
        "7 300000000 350000000 1 spent",
    ] {
        assert!(told(line), "{line}");
    }
    for (name, line) in [
        ("share after 2", "7 300000000 300000000 2 met"),
        ("share after 1", "7 300000000 350000000 1 met"),
        ("share not doubled", "7 300000000 350000000 1 met"),
        ("share at once", "7 250000000 350000000 0 met"),
        ("share S", "7 250000000 350000000 0 met"),
        ("share spent", "7 300000000 350000000 1 spent"),
    ] {
        let text = format!("{name}:\ncue low high steps verdict\n{line}\n9 0 0 0 met\n");
        assert!(expected.contains(&text), "{text}");
    }
}

/// Every number that writing knows is among the answers; a case's line has its name before a colon.
#[test]
fn every_number_of_writing_occurs() {
    let expected = stored_text("crates/writer_vectors/stdout");
    let answers = expected.lines().filter_map(|line| line.split_once(": "));
    let numbers: Vec<&str> = answers
        .filter_map(|(_, answer)| answer.split(' ').next())
        .collect();
    for number in [0, 2, 3, 5, 6, 10, 12, 13, 14, 15, 21, 22] {
        assert!(numbers.contains(&&number.to_string()[..]), "{number}");
    }
}
