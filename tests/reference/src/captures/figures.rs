//! Logs and fractions that are easy to get wrong, D1 to D50, each typed by hand with all that its call answers.

use super::{compare, cut, fractions, log, logs, weight, Fraction, EQUAL, GREATER, LESS};
use crate::S;

const LIMIT: u64 = super::MOST_JUDGED;
const TOP: u64 = u64::MAX;

/// A call with what it is handed.
#[derive(Clone, Debug, PartialEq, Eq)]
pub enum Call {
    Log(Vec<u8>),
    /// The bytes of the logs, and the length of each.
    Logs(Vec<u8>, Vec<u64>),
    /// Numbers of discarded and of judged packets.
    Fractions(Vec<u64>, Vec<u64>),
    Weight(Fraction),
    Compare(Fraction, Fraction),
}

/// A name, a call, and its answer: the number, 0 for accepted, and then discarded and judged, or the weight, or the order.
pub type Figure = (&'static str, Call, Vec<u64>);

impl Call {
    /// All that the reference answers, as a figure has it: refused, zeros behind the number.
    pub fn answer(&self) -> Vec<u64> {
        match self {
            Call::Log(bytes) => of_fraction(log(bytes)),
            Call::Logs(bytes, lengths) => of_fraction(logs(&cut(bytes, lengths))),
            Call::Fractions(discarded, judged) => of_fraction(fractions(discarded, judged)),
            Call::Weight(fraction) => of_number(weight(*fraction)),
            Call::Compare(first, second) => of_number(compare(*first, *second)),
        }
    }
}

/// Number, discarded and judged.
pub fn of_fraction(answer: Result<Fraction, u64>) -> Vec<u64> {
    match answer {
        Ok(Fraction { discarded, judged }) => vec![0, discarded, judged],
        Err(number) => vec![number, 0, 0],
    }
}

/// Number, and the weight or the order.
pub fn of_number(answer: Result<u64, u64>) -> Vec<u64> {
    match answer {
        Ok(value) => vec![0, value],
        Err(number) => vec![number, 0],
    }
}

/// D1 to D50.
pub fn figures() -> Vec<Figure> {
    [
        packets(),
        lists(),
        totals(),
        weights(),
        comparisons(),
        refused_comparisons(),
        cuts(),
    ]
    .concat()
}

/// Logs alone, first the four that the rule is told by.
fn packets() -> Vec<Figure> {
    let log = |name, log: &[u8], discarded, judged| {
        let answer = vec![0, discarded, judged];
        (name, Call::Log(log.to_vec()), answer)
    };
    vec![
        log("D1: 10 after 10", &[10, 10], 1, 1),
        log("D2: minus 19", &[10, 247], 1, 1),
        log("D3: minus 20", &[10, 246], 0, 1),
        log("D4: 3 after 250", &[250, 3], 0, 1),
        log("D5: one before", &[10, 9], 1, 1),
        log("D6: the next", &[10, 11], 0, 1),
        log("D7: minus 19 from 0", &[0, 237], 1, 1),
        log("D8: minus 20 from 0", &[0, 236], 0, 1),
        log("D9: minus 128", &[0, 128], 0, 1),
        log("D10: plus 127", &[0, 127], 0, 1),
        log("D11: accepted it is last", &[10, 247, 246, 246], 2, 3),
        log(
            "D12: discarded it is not",
            &[1, 2, 3, 3, 2, 5, 250, 251],
            4,
            7,
        ),
        log("D13: one packet", &[5], 0, 0),
        log("D14: no packet", &[], 0, 0),
    ]
}

/// Several logs.
fn lists() -> Vec<Figure> {
    let logs = |name, list: &[&[u8]], discarded, judged| {
        let lengths = list.iter().map(|log| log.len() as u64).collect();
        let answer = vec![0, discarded, judged];
        (name, Call::Logs(list.concat(), lengths), answer)
    };
    vec![
        logs("D15: three logs", &[&[10, 10], &[250, 3], &[]], 1, 2),
        logs("D16: no log", &[], 0, 0),
        logs("D17: not reduced", &[&[10, 10], &[10, 10]], 2, 2),
        logs("D18: nothing carried over", &[&[10], &[10]], 0, 0),
    ]
}

/// Sums of fractions.
fn totals() -> Vec<Figure> {
    let total = |name, discarded: &[u64], judged: &[u64], answer: [u64; 3]| {
        let call = Call::Fractions(discarded.to_vec(), judged.to_vec());
        (name, call, answer.to_vec())
    };
    vec![
        total("D19: the sum above", &[1, 0], &[LIMIT, 1], [25, 0, 0]),
        total("D20: one amiss", &[5, 0], &[4, 10], [25, 0, 0]),
        total("D21: no fraction", &[], &[], [0, 0, 0]),
        total("D22: 0 of 0", &[0], &[0], [0, 0, 0]),
        total("D23: the most", &[1], &[LIMIT], [0, 1, LIMIT]),
        total("D24: not reduced", &[2, 1], &[4, 2], [0, 3, 6]),
        total("D25: no judged", &[5], &[], [25, 0, 0]),
        total("D26: no discarded", &[], &[7], [0, 0, 7]),
        total("D27: 64 bits and more", &[TOP, 2], &[TOP, 2], [25, 0, 0]),
        total("D28: 1 of 0", &[1], &[0], [25, 0, 0]),
    ]
}

fn weights() -> Vec<Figure> {
    let weight = |name, (discarded, judged), answer: [u64; 2]| {
        let call = Call::Weight(Fraction::new(discarded, judged));
        (name, call, answer.to_vec())
    };
    vec![
        weight("D29: a third", (1, 3), [0, 333_333_334]),
        weight("D30: two thirds", (2, 3), [0, 666_666_667]),
        weight("D31: none discarded", (0, 5), [0, 0]),
        weight("D32: all discarded", (3, 3), [0, S]),
        weight("D33: a quarter billionth", (1, LIMIT), [0, 1]),
        weight("D34: all of the most", (LIMIT, LIMIT), [0, S]),
        weight("D35: all but one", (LIMIT - 1, LIMIT), [0, S]),
        weight("D36: 0 of 0", (0, 0), [24, 0]),
        weight("D37: 24 before 25", (1, 0), [24, 0]),
        weight("D38: judged above", (1, LIMIT + 1), [25, 0]),
        weight("D39: 5 of 4", (5, 4), [25, 0]),
    ]
}

fn compared(name: &'static str, first: (u64, u64), second: (u64, u64), answer: [u64; 2]) -> Figure {
    let fraction = |(discarded, judged)| Fraction::new(discarded, judged);
    let call = Call::Compare(fraction(first), fraction(second));
    (name, call, answer.to_vec())
}

fn comparisons() -> Vec<Figure> {
    // Of one billion a third is a little more than 333333333; of these two the second is farther below 1.
    let (third, high, low) = (333_333_333, (LIMIT - 1, LIMIT), (LIMIT - 2, LIMIT - 1));
    vec![
        compared("D40: equal, not alike", (1, 3), (2, 6), [0, EQUAL]),
        compared("D41: beside a weight", (1, 3), (third, S), [0, GREATER]),
        compared("D42: both near 1", high, low, [0, GREATER]),
        compared("D43: the other way round", low, high, [0, LESS]),
        compared("D44: both 0", (0, 7), (0, 9), [0, EQUAL]),
    ]
}

/// 24 over both before 25 over either.
fn refused_comparisons() -> Vec<Figure> {
    vec![
        compared("D45: 25 and 24", (5, 4), (0, 0), [24, 0]),
        compared("D46: 24 and 25", (0, 0), (5, 4), [24, 0]),
        compared("D47: the first amiss", (5, 4), (1, 2), [25, 0]),
        compared("D48: the second amiss", (1, 2), (1, LIMIT + 1), [25, 0]),
    ]
}

/// Lengths that do not add up to the bytes: of the second log six are lacking and of the third all; one is left over.
fn cuts() -> Vec<Figure> {
    let logs = |name, lengths: &[u64], bytes: &[u8], discarded, judged| {
        let answer = vec![0, discarded, judged];
        (name, Call::Logs(bytes.to_vec(), lengths.to_vec()), answer)
    };
    vec![
        logs("D49: bytes lacking", &[2, 9, 4], &[10, 10, 7, 6, 8], 2, 3),
        logs("D50: a byte left over", &[2], &[10, 10, 10], 1, 1),
    ]
}
