//! Whole numbers of any size, in digits of base S: just what an exact count needs.
//! A product of n weights has at most n + 1 such digits.

use crate::S;
use std::cmp::Ordering;
use std::fmt;

/// Lowest digit first, without zeros at the high end, so that 0 has no digits.
#[derive(Clone, Debug, Default, PartialEq, Eq)]
pub struct Natural {
    digits: Vec<u32>,
}

impl Natural {
    pub fn zero() -> Natural {
        Natural::default()
    }

    pub fn new(value: u64) -> Natural {
        let mut digits = Vec::new();
        let mut rest = value;
        while rest > 0 {
            digits.push((rest % S) as u32);
            rest /= S;
        }
        Natural { digits }
    }

    pub fn plus(&self, other: &Natural) -> Natural {
        let mut sum = self.clone();
        sum.add(other);
        sum
    }

    pub fn add(&mut self, other: &Natural) {
        if self.digits.len() < other.digits.len() {
            self.digits.resize(other.digits.len(), 0);
        }
        let mut carry = 0;
        for (i, digit) in self.digits.iter_mut().enumerate() {
            let total =
                u64::from(*digit) + u64::from(other.digits.get(i).copied().unwrap_or(0)) + carry;
            *digit = (total % S) as u32;
            carry = total / S;
        }
        if carry > 0 {
            self.digits.push(carry as u32);
        }
    }

    /// Times a factor below 2^32; a digit's product and its carry fit 64 bits.
    pub fn times(&self, factor: u32) -> Natural {
        let mut digits = Vec::with_capacity(self.digits.len() + 1);
        let mut carry = 0;
        for &digit in &self.digits {
            let total = u64::from(digit) * u64::from(factor) + carry;
            digits.push((total % S) as u32);
            carry = total / S;
        }
        while carry > 0 {
            digits.push((carry % S) as u32);
            carry /= S;
        }
        while digits.last() == Some(&0) {
            digits.pop();
        }
        Natural { digits }
    }

    /// Times S to the given power.
    pub fn times_s_to(&self, power: usize) -> Natural {
        if self.digits.is_empty() {
            return Natural::zero();
        }
        let mut digits = vec![0; power];
        digits.extend_from_slice(&self.digits);
        Natural { digits }
    }
}

impl Ord for Natural {
    fn cmp(&self, other: &Natural) -> Ordering {
        let by_length = self.digits.len().cmp(&other.digits.len());
        by_length.then_with(|| self.digits.iter().rev().cmp(other.digits.iter().rev()))
    }
}

impl PartialOrd for Natural {
    fn partial_cmp(&self, other: &Natural) -> Option<Ordering> {
        Some(self.cmp(other))
    }
}

impl fmt::Display for Natural {
    fn fmt(&self, f: &mut fmt::Formatter<'_>) -> fmt::Result {
        match self.digits.split_last() {
            None => write!(f, "0"),
            Some((highest, rest)) => {
                write!(f, "{highest}")?;
                rest.iter()
                    .rev()
                    .try_for_each(|digit| write!(f, "{digit:09}"))
            }
        }
    }
}

#[cfg(test)]
mod tests {
    use super::*;

    #[test]
    fn agrees_with_machine_numbers() {
        let samples = [
            0u128,
            1,
            7,
            999_999_999,
            1_000_000_000,
            1_000_000_001,
            4_294_967_295,
            999_999_999_999_999_999,
        ];
        for &a in &samples {
            assert_eq!(Natural::new(a as u64).to_string(), a.to_string());
            for &b in &samples {
                let (x, y) = (Natural::new(a as u64), Natural::new(b as u64));
                assert_eq!(x.plus(&y).to_string(), (a + b).to_string());
                assert_eq!(x.cmp(&y), a.cmp(&b));
                if let Ok(factor) = u32::try_from(b) {
                    assert_eq!(x.times(factor).to_string(), (a * b).to_string());
                }
            }
            assert_eq!(
                Natural::new(a as u64).times_s_to(2).to_string(),
                (a * 1_000_000_000_000_000_000).to_string()
            );
        }
    }

    #[test]
    fn a_power_of_s_is_a_shift() {
        let mut power = Natural::new(1);
        for n in 0..70 {
            assert_eq!(power, Natural::new(1).times_s_to(n));
            power = power.times(S as u32);
        }
    }
}
