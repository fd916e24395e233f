//! The program's printed text for any bytes on its standard input: a heading and a line
//! for each cue, or the one line of a refused sheet; the same into lent space; and a printed
//! text's intervals beside the count over all assignments.

use crate::run::{run, verdict_word};
use crate::sheet::{cue_table, decode, encode, lay, of_one_cue, Sheet};
use crate::table::{Count, MOST_COUNTED};
use crate::tree::open;
use crate::{by_distance, Answer, Table};

pub fn report(bytes: &[u8]) -> String {
    let sheet = match decode(bytes) {
        Err(number) => return format!("refused {number}\n"),
        Ok(sheet) => sheet,
    };
    let mut text = String::from("cue low high steps verdict\n");
    for (position, cue) in sheet.cues.iter().enumerate() {
        let Some(table) = cue_table(&sheet, position) else {
            continue; // no accepted sheet lacks the ways its cues count
        };
        let (_, mut tree) = open(&table);
        let answer = run(&table, &mut tree, sheet.limits());
        let verdict = verdict_word(answer.verdict);
        text += &format!(
            "{cue} {} {} {} {verdict}\n",
            answer.low, answer.high, answer.count
        );
    }
    text
}

/// The text of a sheet with cue 1 alone whose run answers this: number, low, high, count, verdict and figure.
pub fn told_of_one_cue([number, low, high, count, verdict, _]: [u64; 6]) -> String {
    let word = verdict_word(verdict);
    match number {
        0 => format!("cue low high steps verdict\n1 {low} {high} {count} {word}\n"),
        _ => format!("refused {number}\n"),
    }
}

/// How many lines of a printed text have an interval that encloses the chance of their cue's ways, counted over all
/// assignments: each of an accepted sheet whose faults are few enough, or in words the first that does not.
pub fn enclosing_lines(bytes: &[u8], text: &str) -> Result<usize, String> {
    let counted = |sheet: &Sheet| sheet.weights.len() <= MOST_COUNTED;
    let Some(sheet) = decode(bytes).ok().filter(counted) else {
        return Ok(0);
    };
    let count = Count::new(&sheet.weights);
    let mut lines = text.lines().skip(1);
    for position in 0..sheet.cues.len() {
        let line = lines.next().unwrap_or_default();
        let figures: Vec<u64> = line.split(' ').flat_map(str::parse).collect();
        let table = cue_table(&sheet, position).unwrap_or_default();
        let encloses = |low, high| count.encloses(low, high, &table.ways());
        if !matches!(figures[..], [_, low, high, _] if encloses(low, high)) {
            return Err(format!("line {line:?} does not enclose: {table:?}"));
        }
    }
    Ok(sheet.cues.len())
}

/// A cue's line of a sheet with allowance 0 and budget 255: its figures are printed for a sheet that has the cue's table alone
/// too, and enclose the chance that is counted over all assignments of the table's own faults.
pub fn encloses_alone(table: Table, line: &str) -> Result<(), String> {
    let (_, figures) = line.split_once(' ').unwrap_or_default();
    let text = format!("cue low high steps verdict\n1 {figures}\n");
    let bytes = encode(&of_one_cue(table, by_distance(0, 255)));
    if report(&bytes) != text || enclosing_lines(&bytes, &text)? != 1 {
        return Err(format!("{text:?} is not printed, or not counted"));
    }
    Ok(())
}

/// The text at the front of the space, the rest left as it was; refused 22 if the space is shorter.
pub fn report_into(bytes: &[u8], space: &mut [u8]) -> Answer {
    lay(report(bytes).as_bytes(), space)
}
