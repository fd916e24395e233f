//! Logs of sequence bytes, the fractions that they give, and what a fraction weighs. What is discarded is a set of numbers,
//! walked back from the last accepted one on the circle; two fractions are compared by Euclid's algorithm, whole parts first
//! and then the remainders upside down; and a weight is searched for. Nothing is multiplied.

pub mod figures;
pub mod random;

use crate::S;
use std::cmp::Ordering;

/// No packet was judged.
pub const UNJUDGED: u64 = 24;
/// More packets were judged than may be, or more discarded than judged.
pub const AMISS: u64 = 25;

pub const MOST_JUDGED: u64 = 4_000_000_000;

/// What a comparison answers: the first is less, both are equal, the first is greater.
pub const LESS: u64 = 1;
pub const EQUAL: u64 = 2;
pub const GREATER: u64 = 3;

/// How many numbers are discarded after an accepted one: at most 0 and above -20.
const DISCARDED: usize = 20;

/// Discarded of judged, as it was handed over or counted: not reduced, and not yet tried.
#[derive(Clone, Copy, Debug, PartialEq, Eq)]
pub struct Fraction {
    pub discarded: u64,
    pub judged: u64,
}

impl Fraction {
    pub fn new(discarded: u64, judged: u64) -> Fraction {
        Fraction { discarded, judged }
    }

    fn is_amiss(self) -> bool {
        self.judged > MOST_JUDGED || self.discarded > self.judged
    }
}

/// The numbers that are discarded after an accepted one: itself and those before it on the circle, where 255 is before 0.
fn discarded_after(last: u8) -> [u8; DISCARDED] {
    let mut numbers = [last; DISCARDED];
    let mut number = last;
    for place in &mut numbers[1..] {
        number = if number == 0 { 255 } else { number - 1 };
        *place = number;
    }
    numbers
}

/// Packets discarded and packets judged of one log; the first packet is accepted and not judged.
fn counted(log: &[u8]) -> Fraction {
    let mut fraction = Fraction::new(0, 0);
    let Some((&first, others)) = log.split_first() else {
        return fraction;
    };
    let mut away = discarded_after(first);
    for &new in others {
        fraction.judged += 1;
        match away.contains(&new) {
            true => fraction.discarded += 1,
            false => away = discarded_after(new),
        }
    }
    fraction
}

/// The fraction of one log.
pub fn log(log: &[u8]) -> Result<Fraction, u64> {
    logs(&[log])
}

/// The fraction of a list of logs.
pub fn logs(logs: &[&[u8]]) -> Result<Fraction, u64> {
    summed(logs.iter().map(|log| counted(log)))
}

/// The fraction of logs each of which has one number only, by their lengths alone: every packet but the first is discarded.
pub fn repeats(logs: &[&[u8]]) -> Result<Fraction, u64> {
    let judged = logs.iter().map(|log| log.len().saturating_sub(1) as u64);
    summed(judged.map(|judged| Fraction::new(judged, judged)))
}

/// The logs whose bytes stand one behind the other. One that lacks bytes has those that are there; no log has what is left.
pub fn cut<'a>(bytes: &'a [u8], lengths: &[u64]) -> Vec<&'a [u8]> {
    let mut rest = bytes;
    let next = |length: &u64| {
        let there = (*length).min(rest.len() as u64) as usize;
        let (log, behind) = rest.split_at(there);
        rest = behind;
        log
    };
    lengths.iter().map(next).collect()
}

/// The sum of fractions whose numbers stand in two lists; a number that the shorter one lacks is 0.
pub fn fractions(discarded: &[u64], judged: &[u64]) -> Result<Fraction, u64> {
    let number = |list: &[u64], at: usize| list.get(at).copied().unwrap_or(0);
    let count = discarded.len().max(judged.len());
    summed((0..count).map(|at| Fraction::new(number(discarded, at), number(judged, at))))
}

/// The sum, refused if any of the fractions is or if it is itself. It is too wide for no list.
fn summed(fractions: impl Iterator<Item = Fraction>) -> Result<Fraction, u64> {
    let (mut discarded, mut judged, mut amiss) = (0u128, 0u128, false);
    for fraction in fractions {
        discarded += u128::from(fraction.discarded);
        judged += u128::from(fraction.judged);
        amiss |= fraction.is_amiss();
    }
    match (u64::try_from(discarded), u64::try_from(judged)) {
        (Ok(discarded), Ok(judged)) if !amiss && !Fraction::new(discarded, judged).is_amiss() => {
            Ok(Fraction::new(discarded, judged))
        }
        _ => Err(AMISS),
    }
}

/// 24 over all of the fractions, then 25 over all of them.
fn tried(fractions: &[Fraction]) -> Result<(), u64> {
    if fractions.iter().any(|fraction| fraction.judged == 0) {
        return Err(UNJUDGED);
    }
    match fractions.iter().any(|fraction| fraction.is_amiss()) {
        true => Err(AMISS),
        false => Ok(()),
    }
}

/// The smallest number of billionths that is not below the fraction.
pub fn weight(fraction: Fraction) -> Result<u64, u64> {
    tried(&[fraction])?;
    let is_below = |billionths| by_euclid((billionths, S), pair(fraction)) == Ordering::Less;
    // What is below `low` is below the fraction, and `high` is not, as none is above 1.
    let (mut low, mut high) = (0, S);
    while low < high {
        let middle = low + (high - low) / 2;
        match is_below(middle) {
            true => low = middle + 1,
            false => high = middle,
        }
    }
    Ok(low)
}

/// How the first stands to the second.
pub fn compare(first: Fraction, second: Fraction) -> Result<u64, u64> {
    tried(&[first, second])?;
    Ok(match by_euclid(pair(first), pair(second)) {
        Ordering::Less => LESS,
        Ordering::Equal => EQUAL,
        Ordering::Greater => GREATER,
    })
}

fn pair(fraction: Fraction) -> (u64, u64) {
    (fraction.discarded, fraction.judged)
}

/// Compares two quotients whose divisors are not 0. Where the whole parts are equal the remainders decide; upside down they
/// stand the other way round.
fn by_euclid((a, b): (u64, u64), (c, d): (u64, u64)) -> Ordering {
    let whole = (a / b).cmp(&(c / d));
    let (r, s) = (a % b, c % d);
    match (whole, r, s) {
        (Ordering::Equal, 0, _) | (Ordering::Equal, _, 0) => r.cmp(&s),
        (Ordering::Equal, _, _) => by_euclid((d, s), (b, r)),
        _ => whole,
    }
}
