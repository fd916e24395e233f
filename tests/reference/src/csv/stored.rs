//! The texts of tests/texts with what is stored beside them.

use super::figures::{Figure, Taken};
use crate::files::{stored, stored_text};

/// An accepted text by name, with its sheet and its plain text.
pub fn accepted() -> Vec<(String, Taken)> {
    let list = stored_text("tests/texts/accepted.txt");
    let file = |name: &str| stored(&format!("tests/texts/accepted/{name}"));
    let taken = |line: &str| {
        let (name, sheet) = line.split_once(' ').expect("a text and its sheet");
        let taken = Taken {
            text: file(&format!("{name}.csv")),
            sheet: file(&format!("{sheet}.sheet")),
            plain: file(&format!("{sheet}.csv")),
        };
        (name.to_string(), taken)
    };
    list.lines().map(taken).collect()
}

/// A refused text by name.
pub fn refused() -> Vec<(String, Figure)> {
    let list = stored_text("tests/texts/refused.txt");
    let figure = |line: &str| {
        let words: Vec<&str> = line.split(' ').collect();
        let [name, number, count] = words[..] else {
            panic!("not a text, its number and its count: {line}");
        };
        let figure = Figure {
            text: stored(&format!("tests/texts/refused/{name}.csv")),
            number: number.parse().expect("a number"),
            count: count.parse().expect("a count"),
        };
        (name.to_string(), figure)
    };
    list.lines().map(figure).collect()
}
