//! Logs and fractions: the typed figures, every pair of numbers beside eight bits read as signed, random fractions beside
//! products and quotients, and lists in another order or cut in two.

use reference::captures::figures::{figures, Call};
use reference::captures::{
    compare, cut, fractions, log, logs, repeats, weight, Fraction, AMISS, MOST_JUDGED, UNJUDGED,
};
use reference::files::{stored, stored_text};
use reference::random::Random;
use reference::S;

fn slices(logs: &[Vec<u8>]) -> Vec<&[u8]> {
    logs.iter().map(|log| &log[..]).collect()
}

fn unzipped(list: &[(u64, u64)]) -> (Vec<u64>, Vec<u64>) {
    list.iter().copied().unzip()
}

/// The sum of fractions that stand as pairs.
fn total(list: &[(u64, u64)]) -> Result<Fraction, u64> {
    let (discarded, judged) = unzipped(list);
    fractions(&discarded, &judged)
}

/// The numbers of both parts, joined as the fractions of two lists are; one that is refused refuses all.
fn joined(one: Result<Fraction, u64>, other: Result<Fraction, u64>) -> Result<Fraction, u64> {
    let (one, other) = (one?, other?);
    total(&[(one.discarded, one.judged), (other.discarded, other.judged)])
}

#[test]
fn every_figure() {
    let figures = figures();
    assert_eq!(figures.len(), 50);
    for (at, (name, call, answer)) in figures.into_iter().enumerate() {
        assert!(name.starts_with(&format!("D{}: ", at + 1)), "{name}");
        assert_eq!(call.answer(), answer, "{name}");
    }
}

#[test]
fn every_call_has_figures_and_every_refusal() {
    let has = |number: u64, of: fn(&Call) -> bool| {
        let mut figures = figures().into_iter();
        figures.any(|(_, call, answer)| of(&call) && answer[0] == number)
    };
    assert!(has(0, |call| matches!(call, Call::Log(_))));
    assert!(has(0, |call| matches!(call, Call::Logs(..))));
    for number in [0, AMISS] {
        assert!(has(number, |call| matches!(call, Call::Fractions(..))));
    }
    for number in [0, UNJUDGED, AMISS] {
        assert!(has(number, |call| matches!(call, Call::Weight(_))));
        assert!(has(number, |call| matches!(call, Call::Compare(..))));
    }
}

/// Whether a packet is discarded, by eight bits read as signed.
fn is_discarded(last: u8, new: u8) -> bool {
    let difference = new.wrapping_sub(last) as i8;
    difference <= 0 && difference > -20
}

#[test]
fn every_pair_beside_eight_bits_read_as_signed() {
    for last in 0..=255 {
        for new in 0..=255 {
            let discarded = u64::from(is_discarded(last, new));
            assert_eq!(log(&[last, new]), Ok(Fraction::new(discarded, 1)));
        }
    }
}

#[test]
fn random_logs_beside_eight_bits_read_as_signed() {
    let mut random = Random::new(31);
    let mut met = [0; 2];
    for _ in 0..20_000 {
        let length = random.log_length();
        let bytes = random.log(length);
        let mut last = bytes.first().copied().unwrap_or(0);
        let mut discarded = 0;
        for &new in bytes.iter().skip(1) {
            met[usize::from(is_discarded(last, new))] += 1;
            match is_discarded(last, new) {
                true => discarded += 1,
                false => last = new,
            }
        }
        let judged = bytes.len().saturating_sub(1) as u64;
        assert_eq!(log(&bytes), Ok(Fraction::new(discarded, judged)));
    }
    assert!(met.into_iter().all(|times| times > 200_000), "{met:?}");
}

#[test]
fn one_number_again_and_again() {
    for number in [0, 1, 19, 20, 255] {
        for lengths in [[0, 1, 2], [3, 300, 0], [20, 21, 256]] {
            let list = lengths.map(|length| vec![number; length]);
            assert_eq!(repeats(&slices(&list)), logs(&slices(&list)));
        }
    }
    assert_eq!(repeats(&[]), Ok(Fraction::new(0, 0)));
}

#[test]
fn logs_that_lack_bytes_and_bytes_that_are_left() {
    let bytes = [10, 10, 10, 20];
    let cuts: [(&[u64], &[&[u8]]); 7] = [
        (&[], &[]),
        (&[0, 0], &[&[], &[]]),
        (&[1, 2], &[&[10], &[10, 10]]),
        (&[1, 3, 0], &[&[10], &[10, 10, 20], &[]]),
        (&[3, 2, 5], &[&[10, 10, 10], &[20], &[]]),
        (&[u64::MAX, u64::MAX], &[&[10, 10, 10, 20], &[]]),
        (&[1 << 32, (1 << 32) + 3], &[&[10, 10, 10, 20], &[]]),
    ];
    for (lengths, logs) in cuts {
        assert_eq!(cut(&bytes, lengths), logs, "{lengths:?}");
    }
}

/// Refusals in their order, for the fractions that are compared or made a weight.
fn number(list: &[(u64, u64)]) -> u64 {
    let is_amiss = |&(discarded, judged): &(u64, u64)| judged > MOST_JUDGED || discarded > judged;
    match list {
        _ if list.iter().any(|&(_, judged)| judged == 0) => UNJUDGED,
        _ if list.iter().any(is_amiss) => AMISS,
        _ => 0,
    }
}

fn product(a: u64, b: u64) -> u128 {
    u128::from(a) * u128::from(b)
}

fn drawn(random: &mut Random) -> (u64, u64) {
    match random.one_in(3) {
        true => random.any_fraction(),
        false => random.fraction_within(MOST_JUDGED),
    }
}

#[test]
fn weights_beside_a_quotient() {
    let mut random = Random::new(32);
    let mut met = [0; 26];
    for _ in 0..100_000 {
        let (discarded, judged) = drawn(&mut random);
        let number = number(&[(discarded, judged)]);
        met[number as usize] += 1;
        let due = match number {
            0 => Ok(product(discarded, S).div_ceil(judged.into()) as u64),
            _ => Err(number),
        };
        let got = weight(Fraction::new(discarded, judged));
        assert_eq!(got, due, "{discarded} of {judged}");
    }
    assert!([0, 24, 25].iter().all(|&number| met[number] > 3000));
}

/// Another fraction: as large, a little off, or any.
fn beside(random: &mut Random, (discarded, judged): (u64, u64)) -> (u64, u64) {
    let most = MOST_JUDGED / judged.clamp(1, MOST_JUDGED);
    let times = random.between(1, most.max(1) as usize) as u64;
    let near = |number: u64, off: usize| number.saturating_add(off as u64).saturating_sub(1);
    match random.below(3) {
        0 => (
            discarded.saturating_mul(times),
            judged.saturating_mul(times),
        ),
        1 => (
            near(discarded, random.below(3)),
            near(judged, random.below(3)),
        ),
        _ => drawn(random),
    }
}

#[test]
fn comparisons_beside_products() {
    let mut random = Random::new(33);
    let (mut orders, mut refusals) = ([0; 4], [0; 26]);
    for _ in 0..200_000 {
        let first = drawn(&mut random);
        let second = beside(&mut random, first);
        let number = number(&[first, second]);
        refusals[number as usize] += 1;
        let (one, other) = (product(first.0, second.1), product(second.0, first.1));
        let due = match number {
            0 => Ok(2 + u64::from(one > other) - u64::from(one < other)),
            _ => Err(number),
        };
        let fraction = |(discarded, judged)| Fraction::new(discarded, judged);
        let got = compare(fraction(first), fraction(second));
        assert_eq!(got, due, "{first:?} and {second:?}");
        orders[got.unwrap_or(0) as usize] += 1;
    }
    assert!([1, 2, 3].iter().all(|&order| orders[order] > 10_000));
    assert!([0, 24, 25].iter().all(|&number| refusals[number] > 10_000));
}

/// Every cut of a list in two, and the list in other orders.
#[test]
fn lists_of_logs_in_another_order_and_cut_in_two() {
    let mut random = Random::new(34);
    for _ in 0..2000 {
        let list = random.logs(8);
        let list = slices(&list);
        let answer = logs(&list);
        assert_eq!(logs(&random.shuffled(&list)), answer);
        for at in 0..=list.len() {
            let (front, end) = list.split_at(at);
            assert_eq!(logs(&[end, front].concat()), answer);
            assert_eq!(joined(logs(front), logs(end)), answer);
        }
        // The same bytes, lent as one.
        let lengths: Vec<u64> = list.iter().map(|log| log.len() as u64).collect();
        assert_eq!(logs(&cut(&list.concat(), &lengths)), answer);
    }
}

#[test]
fn lists_of_fractions_in_another_order_and_cut_in_two() {
    let mut random = Random::new(35);
    let mut met = [0; 26];
    for _ in 0..20_000 {
        let few = random.between(1, 8);
        let list: Vec<(u64, u64)> = match random.one_in(2) {
            true => (0..few).map(|_| drawn(&mut random)).collect(),
            // Sums about the limit.
            false => (0..few)
                .map(|_| random.fraction_within(2 * MOST_JUDGED / few as u64))
                .collect(),
        };
        let answer = total(&list);
        met[answer.err().unwrap_or(0) as usize] += 1;
        assert_eq!(total(&random.shuffled(&list)), answer);
        for at in 0..=list.len() {
            let (front, end) = list.split_at(at);
            assert_eq!(joined(total(front), total(end)), answer);
        }
    }
    assert!(met[0] > 5000 && met[25] > 5000, "{met:?}");
}

/// A number that the shorter list lacks is 0.
#[test]
fn lists_of_unequal_length() {
    let mut random = Random::new(36);
    for _ in 0..5000 {
        let few = random.between(1, 6);
        let list: Vec<(u64, u64)> = (0..few).map(|_| random.fraction_within(9)).collect();
        let (discarded, judged) = unzipped(&list);
        let at = random.below(few);
        let without = |numbers: &[u64]| [&numbers[..at], &vec![0; few - at]].concat();
        let answer = fractions(&discarded, &without(&judged));
        assert_eq!(fractions(&discarded, &judged[..at]), answer);
        let answer = fractions(&without(&discarded), &judged);
        assert_eq!(fractions(&discarded[..at], &judged), answer);
    }
}

/// The stored logs give what samples/README.md tells, and together the first weight of the stored show.
#[test]
fn the_samples() {
    let (monday, tuesday) = (stored("samples/monday.log"), stored("samples/tuesday.log"));
    assert_eq!(log(&monday), Ok(Fraction::new(4, 240)));
    assert_eq!(log(&tuesday), Ok(Fraction::new(3, 160)));
    let both = logs(&[&monday, &tuesday]).unwrap();
    assert_eq!(both, Fraction::new(7, 400));
    let text = stored_text("samples/show.csv");
    let weights = text.lines().nth(1).unwrap();
    let first: u64 = weights.split(',').nth(1).unwrap().parse().unwrap();
    assert_eq!(weight(both), Ok(first));
    let page = stored_text("samples/README.md");
    for line in [
        "# 4 240 16666667\n",
        "# 3 160 18750000\n",
        "# 7 400 17500000\n",
    ] {
        assert!(page.contains(line), "{line}");
    }
    for name in ["monday", "tuesday"] {
        let sample = stored(&format!("samples/{name}.log"));
        assert_eq!(
            sample,
            stored(&format!("crates/cue_weight/data/{name}.log"))
        );
    }
}
