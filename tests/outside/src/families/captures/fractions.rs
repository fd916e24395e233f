//! Fractions: sums of lists, also of unequal lists and in another order; weights and comparisons; every two refusals at
//! once; and numbers that would be allowed if they were cut to fewer bits.

use crate::bench::Bench;
use crate::session::{Outcome, Session};
use crate::step::Step;
use reference::captures::random::NUMBERS;
use reference::captures::{Fraction, AMISS, EQUAL, GREATER, LESS, MOST_JUDGED, UNJUDGED};
use reference::random::Random;
use reference::S;

pub fn fractions(bench: &mut Bench) -> Outcome {
    bench.case("numbers at the edges", |session, _| edges(session))?;
    bench.case("two refusals at once", |session, _| orders(session))?;
    bench.case("what rounds", |session, _| rounded(session))?;
    bench.cases("weights", 20_000, |session, random| {
        let fraction = drawn(random);
        session.make(Step::Weight(fraction))
    })?;
    bench.cases("fractions side by side", 10_000, side_by_side)?;
    bench.cases("a fraction beside its weight", 5000, beside_its_weight)?;
    bench.cases("sums", 5000, sums)?;
    bench.cases("lists of unequal length", 3000, unequal)?;
    bench.case("sums above 64 bits", |session, _| wide(session))
}

fn of((discarded, judged): (u64, u64)) -> Fraction {
    Fraction::new(discarded, judged)
}

/// Mostly accepted, often at the edges.
fn drawn(random: &mut Random) -> Fraction {
    of(match random.one_in(3) {
        true => random.any_fraction(),
        false => random.fraction_within(MOST_JUDGED),
    })
}

/// Every two of them as a fraction: alone as a sum, as a weight, and on both sides of a comparison.
fn edges(session: &mut Session) -> Outcome {
    for discarded in NUMBERS {
        for judged in NUMBERS {
            let fraction = of((discarded, judged));
            let is_amiss = judged > MOST_JUDGED || discarded > judged;
            session.make(Step::Fractions(vec![discarded], vec![judged]))?;
            session.make(Step::Answered(if is_amiss { vec![AMISS, 0, 0] } else { vec![0, discarded, judged] }))?;
            session.make(Step::Weight(fraction))?;
            session.make(Step::Compare(fraction, fraction))?;
            let number = if judged == 0 { UNJUDGED } else { AMISS };
            session.make(Step::Answered(if is_amiss || judged == 0 { vec![number, 0] } else { vec![0, EQUAL] }))?;
            for other in NUMBERS.map(|edge| of((1, edge))) {
                session.make(Step::Compare(fraction, other))?;
                session.make(Step::Compare(other, fraction))?;
            }
        }
    }
    Ok(())
}

/// What refuses a fraction that is compared or made a weight, with the number; in both ways, and such as cut to 32 bits
/// would be another or none.
const REFUSED: [(u64, (u64, u64)); 9] = [
    (UNJUDGED, (0, 0)),
    (UNJUDGED, (1, 0)),
    (UNJUDGED, (u64::MAX, 0)),
    (AMISS, (5, 4)),
    (AMISS, (1, MOST_JUDGED + 1)),
    (AMISS, (0, 1 << 32)),
    (AMISS, (1, (1 << 32) + 2)),
    (AMISS, ((1 << 32) + 1, 3)),
    (AMISS, (u64::MAX, u64::MAX)),
];

/// 24 over both before 25 over either, whichever place each has; a sum is never refused by 24.
fn orders(session: &mut Session) -> Outcome {
    let whole = of((MOST_JUDGED, MOST_JUDGED));
    for (number, fraction) in REFUSED {
        let (discarded, judged) = fraction;
        session.make(Step::Weight(of(fraction)))?;
        session.make(Step::Answered(vec![number, 0]))?;
        let summed = if fraction == (0, 0) { 0 } else { AMISS };
        session.make(Step::Fractions(vec![discarded], vec![judged]))?;
        session.make(Step::Answered(vec![summed, 0, 0]))?;
        for sound in [whole, of((1, 2)), of((0, 1))] {
            for (one, other) in [(of(fraction), sound), (sound, of(fraction))] {
                session.make(Step::Compare(one, other))?;
                session.make(Step::Answered(vec![number, 0]))?;
            }
        }
        for (also, other) in REFUSED {
            session.make(Step::Compare(of(fraction), of(other)))?;
            session.make(Step::Answered(vec![number.min(also), 0]))?;
            session.make(Step::Fractions(vec![discarded, other.0], vec![judged, other.1]))?;
        }
    }
    Ok(())
}

/// A weight is whole already, or a little below or above the next: of a billion packets every number is its own weight.
fn rounded(session: &mut Session) -> Outcome {
    for discarded in [0, 1, 2, 333_333_333, S - 1, S] {
        session.make(Step::Weight(of((discarded, S))))?;
        session.make(Step::Answered(vec![0, discarded]))?;
        session.make(Step::Weight(of((4 * discarded, 4 * S))))?;
        session.make(Step::Answered(vec![0, discarded]))?;
        if discarded > 0 {
            session.make(Step::Weight(of((4 * discarded - 1, 4 * S))))?;
            session.make(Step::Answered(vec![0, discarded]))?;
            session.make(Step::Weight(of((4 * discarded - 3, 4 * S))))?;
            session.make(Step::Answered(vec![0, discarded]))?;
            session.make(Step::Weight(of((4 * discarded - 4, 4 * S))))?;
            session.make(Step::Answered(vec![0, discarded - 1]))?;
        }
    }
    for judged in 1..=60 {
        for discarded in 0..=judged {
            session.make(Step::Weight(of((discarded, judged))))?;
        }
    }
    Ok(())
}

/// Two fractions in both ways: any two, one a little off the other, and one a multiple of the other.
fn side_by_side(session: &mut Session, random: &mut Random) -> Outcome {
    let one = drawn(random);
    let Fraction { discarded, judged } = one;
    let times = random.between(1, (MOST_JUDGED / judged.clamp(1, MOST_JUDGED)) as usize) as u64;
    let near = |number: u64, more: usize| number.saturating_add(more as u64).saturating_sub(1);
    let other = match random.below(3) {
        0 => drawn(random),
        1 => of((near(discarded, random.below(3)), near(judged, random.below(3)))),
        _ => of((discarded.saturating_mul(times), judged.saturating_mul(times))),
    };
    session.make(Step::Compare(one, other))?;
    let answer = session.figures().to_vec();
    session.make(Step::Compare(other, one))?;
    // The number is the same, and less the other way round is greater.
    let turned = match answer[1] {
        LESS => GREATER,
        GREATER => LESS,
        order => order,
    };
    session.make(Step::Answered(vec![answer[0], turned]))
}

/// A weight as a fraction is not below the fraction that it was made of, and one less is.
fn beside_its_weight(session: &mut Session, random: &mut Random) -> Outcome {
    let (discarded, judged) = random.fraction_within(MOST_JUDGED);
    if judged == 0 {
        return Ok(());
    }
    let fraction = of((discarded, judged));
    session.make(Step::Weight(fraction))?;
    let weight = session.figures()[1];
    session.make(Step::Compare(of((weight, S)), fraction))?;
    let order = session.figures()[1];
    session.make(Step::Answered(vec![0, order.max(EQUAL)]))?;
    if weight > 0 {
        session.make(Step::Compare(of((weight - 1, S)), fraction))?;
        session.make(Step::Answered(vec![0, LESS]))?;
    }
    Ok(())
}

/// A list whose sum is about the limit, or any: the sum of two parts of it, and other orders.
fn sums(session: &mut Session, random: &mut Random) -> Outcome {
    let count = random.below(9);
    let most = 2 * MOST_JUDGED / count.max(1) as u64;
    let is_any = random.one_in(3);
    let mut fraction = |_| match is_any {
        true => random.any_fraction(),
        false => random.fraction_within(most.min(MOST_JUDGED)),
    };
    let list: Vec<(u64, u64)> = (0..count).map(&mut fraction).collect();
    total(session, &list)?;
    let answer = session.figures().to_vec();
    for other in [random.shuffled(&list), list.iter().rev().copied().collect()] {
        total(session, &other)?;
        session.make(Step::Answered(answer.clone()))?;
    }
    let (front, end) = list.split_at(random.below(count + 1));
    let mut parts = Vec::new();
    for part in [front, end] {
        total(session, part)?;
        parts.push(session.figures().to_vec());
    }
    // Where a part is refused the list is; else the sum of both sums is the list's own.
    match parts.iter().any(|part| part[0] != 0) {
        true => must_be_refused(session, &list),
        false => {
            let of_parts: Vec<(u64, u64)> = parts.iter().map(|part| (part[1], part[2])).collect();
            total(session, &of_parts)?;
            session.make(Step::Answered(answer))
        }
    }
}

fn must_be_refused(session: &mut Session, list: &[(u64, u64)]) -> Outcome {
    total(session, list)?;
    session.make(Step::Answered(vec![AMISS, 0, 0]))
}

/// The sum of fractions that stand as pairs.
fn total(session: &mut Session, list: &[(u64, u64)]) -> Outcome {
    let (discarded, judged) = list.iter().copied().unzip();
    session.make(Step::Fractions(discarded, judged))
}

/// Each list cut at every length beside the whole other one, and as a list that has zeros for what is cut.
fn unequal(session: &mut Session, random: &mut Random) -> Outcome {
    let count = random.between(1, 5);
    let most = random.one_of(&[9, MOST_JUDGED / 4]);
    let mut fraction = |_| match random.one_in(8) {
        true => random.any_fraction(),
        false => random.fraction_within(most),
    };
    let list: Vec<(u64, u64)> = (0..count).map(&mut fraction).collect();
    let (discarded, judged): (Vec<u64>, Vec<u64>) = list.into_iter().unzip();
    let with_zeros = |numbers: &[u64]| [numbers, &vec![0; count - numbers.len()]].concat();
    for length in 0..count {
        session.make(Step::Fractions(with_zeros(&discarded[..length]), judged.clone()))?;
        let answer = session.figures().to_vec();
        session.make(Step::Fractions(discarded[..length].to_vec(), judged.clone()))?;
        session.make(Step::Answered(answer))?;
        session.make(Step::Fractions(discarded.clone(), with_zeros(&judged[..length])))?;
        let answer = session.figures().to_vec();
        session.make(Step::Fractions(discarded.clone(), judged[..length].to_vec()))?;
        session.make(Step::Answered(answer))?;
    }
    Ok(())
}

/// Sums that are allowed once they are cut to 32 or 64 bits, of fractions that are refused or are not.
fn wide(session: &mut Session) -> Outcome {
    let refused = [
        vec![(u64::MAX, u64::MAX), (2, 2)],
        vec![(1 << 63, 1 << 63), (1 << 63, 1 << 63)],
        vec![(1 << 63, 1 << 63), (1 << 63, 1 << 63), (1, 4)],
        vec![(0, u64::MAX), (0, 1)],
        vec![(u64::MAX, u64::MAX); 3],
        vec![(1 << 62, 1 << 62); 4],
        vec![(0, 1 << 31), (0, 1 << 31)],
        vec![(1 << 31, 1 << 31), (1 << 31, 1 << 31), (3, 5)],
        vec![(7, MOST_JUDGED), (7, (1 << 32) - MOST_JUDGED)],
        vec![(1, MOST_JUDGED); 2],
        vec![(0, MOST_JUDGED); 100],
        vec![(1, 1), (0, MOST_JUDGED)],
        // What is discarded too often in one is not in the sum, and the other way round it is in none.
        vec![(5, 4), (0, 10)],
        vec![(0, 10), (5, 4)],
        vec![(0, 1), (1, 0), (0, 1)],
    ];
    for list in refused {
        must_be_refused(session, &list)?;
        must_be_refused(session, &list.iter().rev().copied().collect::<Vec<_>>())?;
    }
    let accepted = [
        (vec![(1, MOST_JUDGED - 1), (1, 1)], [0, 2, MOST_JUDGED]),
        (vec![(1 << 31, 1 << 31), (0, MOST_JUDGED - (1 << 31))], [0, 1 << 31, MOST_JUDGED]),
        (vec![(MOST_JUDGED, MOST_JUDGED), (0, 0)], [0, MOST_JUDGED, MOST_JUDGED]),
        (vec![(1, 1); 1000], [0, 1000, 1000]),
        (vec![(40_000_000, 40_000_000); 100], [0, MOST_JUDGED, MOST_JUDGED]),
    ];
    for (list, answer) in accepted {
        total(session, &list)?;
        session.make(Step::Answered(answer.to_vec()))?;
    }
    Ok(())
}
