//! The steps on logs and fractions. Behind every list that is lent stands more, which would change the answer if it were read.

use super::{Outcome, Session};
use crate::calls;
use crate::tally::Call;
use reference::captures::figures::{of_fraction, of_number};
use reference::captures::{compare, cut, fractions, logs, repeats, weight, Fraction};
use reference::NONE;
use std::mem;

/// The bytes of logs, and one more.
#[derive(Default)]
pub struct Lent {
    bytes: Vec<u8>,
    /// All bytes are 0; so many that only their number is looked at.
    are_zeros: bool,
}

impl Lent {
    pub fn listed(mut bytes: Vec<u8>) -> Lent {
        bytes.push(0);
        Lent { bytes, are_zeros: false }
    }

    /// Memory that is only read is not used up, however much it is.
    pub fn zeros(count: usize) -> Lent {
        Lent { bytes: vec![0; count + 1], are_zeros: true }
    }

    fn bytes(&self) -> &[u8] {
        self.bytes.split_last().map_or(&[], |(_, bytes)| bytes)
    }

    /// The answer that is due for logs of these lengths.
    fn fraction(&self, lengths: &[u64]) -> Result<Fraction, u64> {
        let list = cut(self.bytes(), lengths);
        match self.are_zeros {
            true => repeats(&list),
            false => logs(&list),
        }
    }
}

/// The list, and a number more: a log of all bytes that are left, or a fraction that is refused.
fn longer(list: &[u64]) -> Vec<u64> {
    [list, &[u64::MAX]].concat()
}

impl Session {
    pub(super) fn make_log(&mut self) -> Outcome {
        let lent = mem::take(&mut self.logs);
        let due = lent.fraction(&[lent.bytes().len() as u64]);
        let got = self.stack.make(Call::Log, || calls::log(lent.bytes()));
        self.logs = lent;
        self.answered(Call::Log, of_fraction(due), got.fields())
    }

    pub(super) fn make_logs(&mut self, lengths: &[u64]) -> Outcome {
        let lent = mem::take(&mut self.logs);
        let due = lent.fraction(lengths);
        let more = longer(lengths);
        let got = self.stack.make(Call::Logs, || calls::logs(lent.bytes(), &more[..lengths.len()]));
        self.logs = lent;
        self.answered(Call::Logs, of_fraction(due), got.fields())
    }

    pub(super) fn make_fractions(&mut self, discarded: &[u64], judged: &[u64]) -> Outcome {
        let (more, still) = (longer(discarded), longer(judged));
        let library = || calls::fractions(&more[..discarded.len()], &still[..judged.len()]);
        let got = self.stack.make(Call::Fractions, library);
        self.answered(Call::Fractions, of_fraction(fractions(discarded, judged)), got.fields())
    }

    pub(super) fn make_weight(&mut self, fraction: Fraction) -> Outcome {
        let got = self.stack.make(Call::Weight, || calls::weight(fraction));
        self.answered(Call::Weight, of_number(weight(fraction)), got.fields())
    }

    pub(super) fn make_compare(&mut self, one: Fraction, other: Fraction) -> Outcome {
        let got = self.stack.make(Call::Compare, || calls::compare(one, other));
        self.answered(Call::Compare, of_number(compare(one, other)), got.fields())
    }

    /// The library's answer, beside the reference's: the number first.
    fn answered(&mut self, call: Call, due: Vec<u64>, got: Vec<u64>) -> Outcome {
        self.tally.answered(call, got[0], NONE);
        self.figures = got.clone();
        self.same("number and figures", &due, &got)
    }

    pub(super) fn claim_answered(&mut self, figures: &[u64]) -> Outcome {
        let got = self.figures.clone();
        self.same("the figures", figures, &got[..])
    }
}
