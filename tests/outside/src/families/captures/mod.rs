//! Logs of sequence bytes: the typed figures, every pair of numbers, logs of many shapes, lists of logs that lack bytes or
//! leave some over, and lists in another order.

pub mod billions;
pub mod fractions;

use crate::bench::Bench;
use crate::session::{Outcome, Session};
use crate::step::Step;
use reference::captures::figures::{figures, Call};
use reference::random::Random;

/// Lengths far above any number of bytes that is there, some of which are a few if they are cut to 32 bits.
const HUGE: [u64; 8] = [1 << 32, (1 << 32) + 1, (1 << 32) + 3, 5 << 32, 1 << 63, (1 << 63) + 2, u64::MAX - 1, u64::MAX];

pub fn captures(bench: &mut Bench) -> Outcome {
    for (name, call, answer) in figures() {
        bench.case(name, |session, _| told(session, call, answer))?;
    }
    for last in 0..=255 {
        bench.case("every number after another", |session, _| after(session, last))?;
    }
    bench.cases("logs", 4000, |session, random| {
        let length = random.log_length();
        cut_short(session, random.log(length))
    })?;
    bench.cases("long logs", 20, |session, random| {
        let length = random.one_of(&[255, 256, 257, 4096, 65_535, 65_536, 65_537, 100_000]);
        session.make(Step::Bytes(random.log(length)))?;
        session.make(Step::Log)
    })?;
    bench.case("where a log's end is", |session, random| {
        let log = random.log(300);
        (0..=log.len()).try_for_each(|length| one_log(session, log[..length].to_vec()))
    })?;
    bench.case("nothing at all", |session, _| nothing(session))?;
    bench.cases("lists of logs", 1500, lists)?;
    bench.cases("lengths that do not fit", 3000, lengths)?;
    bench.cases("many logs", 4, |session, random| {
        let list: Vec<Vec<u8>> = (0..5000).map(|_| random.log(3)).collect();
        in_one(session, &list)
    })
}

/// A call of the typed figures, and all that it answers.
fn told(session: &mut Session, call: Call, answer: Vec<u64>) -> Outcome {
    match call {
        Call::Log(log) => {
            // A list of this one log answers the same.
            let length = log.len() as u64;
            session.make(Step::Bytes(log))?;
            session.make(Step::Logs(vec![length]))?;
            session.make(Step::Answered(answer.clone()))?;
            session.make(Step::Log)?;
        }
        Call::Logs(bytes, lengths) => {
            session.make(Step::Bytes(bytes))?;
            session.make(Step::Logs(lengths))?;
        }
        Call::Fractions(discarded, judged) => session.make(Step::Fractions(discarded, judged))?,
        Call::Weight(fraction) => session.make(Step::Weight(fraction))?,
        Call::Compare(one, other) => session.make(Step::Compare(one, other))?,
    }
    session.make(Step::Answered(answer))
}

/// Each of the 256 numbers after this one, beside eight bits read as signed; and then this one again, which shows what the
/// last accepted number is.
fn after(session: &mut Session, last: u8) -> Outcome {
    let is_discarded = |last: u8, new: u8| {
        let difference = new.wrapping_sub(last) as i8;
        difference <= 0 && difference > -20
    };
    for new in 0..=255 {
        let first = is_discarded(last, new);
        let second = is_discarded(if first { last } else { new }, last);
        one_log(session, vec![last, new])?;
        session.make(Step::Answered(vec![0, first.into(), 1]))?;
        one_log(session, vec![last, new, last])?;
        session.make(Step::Answered(vec![0, u64::from(first) + u64::from(second), 2]))?;
    }
    Ok(())
}

fn one_log(session: &mut Session, log: Vec<u8>) -> Outcome {
    session.make(Step::Bytes(log))?;
    session.make(Step::Log)
}

/// A log, and it without its last packets, as the front of the bytes.
fn cut_short(session: &mut Session, log: Vec<u8>) -> Outcome {
    let length = log.len() as u64;
    one_log(session, log)?;
    let whole = session.figures().to_vec();
    for less in [0, 1, 2, length / 2] {
        session.make(Step::Logs(vec![length.saturating_sub(less)]))?;
    }
    for more in [0, 1, 300] {
        session.make(Step::Logs(vec![length + more]))?;
        session.make(Step::Answered(whole.clone()))?;
    }
    Ok(())
}

/// Neither bytes nor lengths, and either without the other.
fn nothing(session: &mut Session) -> Outcome {
    for bytes in [vec![], vec![7], vec![7; 40]] {
        session.make(Step::Bytes(bytes))?;
        for lengths in [vec![], vec![0], vec![0; 40], vec![1]] {
            session.make(Step::Logs(lengths))?;
            session.make(Step::Answered(vec![0, 0, 0]))?;
        }
    }
    one_log(session, vec![])?;
    session.make(Step::Answered(vec![0, 0, 0]))?;
    for lengths in HUGE.map(|length| vec![length; 3]) {
        session.make(Step::Logs(lengths))?;
        session.make(Step::Answered(vec![0, 0, 0]))?;
    }
    Ok(())
}

/// The list's bytes in one, and the length of each log.
fn in_one(session: &mut Session, list: &[Vec<u8>]) -> Outcome {
    session.make(Step::Bytes(list.concat()))?;
    session.make(Step::Logs(list.iter().map(|log| log.len() as u64).collect()))
}

/// A list of logs: their fractions one by one, summed; and the list in other orders, cut and joined.
fn lists(session: &mut Session, random: &mut Random) -> Outcome {
    let list = random.logs(9);
    in_one(session, &list)?;
    let answer = session.figures().to_vec();
    let (mut discarded, mut judged) = (Vec::new(), Vec::new());
    for log in &list {
        one_log(session, log.clone())?;
        discarded.push(session.figures()[1]);
        judged.push(session.figures()[2]);
    }
    session.make(Step::Fractions(discarded, judged))?;
    session.make(Step::Answered(answer.clone()))?;
    let (front, end) = list.split_at(random.below(list.len() + 1));
    for other in [random.shuffled(&list), list.iter().rev().cloned().collect(), [end, front].concat()] {
        in_one(session, &other)?;
        session.make(Step::Answered(answer.clone()))?;
    }
    Ok(())
}

/// Lengths that lack bytes, that leave some over, that are 0 or huge: the bytes that are there are cut in order.
fn lengths(session: &mut Session, random: &mut Random) -> Outcome {
    let bytes = random.logs(5).concat();
    let share = bytes.len() / 3 + 2;
    let mut length = |_| match random.below(8) {
        0 => 0,
        1 => random.one_of(&HUGE),
        2 => random.draw() >> random.below(64),
        3 => 1,
        _ => random.below(share) as u64,
    };
    let lengths: Vec<u64> = (0..6).map(&mut length).collect();
    session.make(Step::Bytes(bytes))?;
    (0..=lengths.len()).try_for_each(|count| session.make(Step::Logs(lengths[..count].to_vec())))
}
