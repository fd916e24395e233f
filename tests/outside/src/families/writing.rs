//! The writer: sound lists and lists that disagree, each refusal alone and two at once, and spaces exactly as long,
//! shorter and longer, with all bytes in and around them.

use super::{told_number, Damage};
use crate::bench::Bench;
use crate::session::{Outcome, Session};
use crate::step::Step;
use reference::paper::whole_sheet;
use reference::random::Random;
use reference::sheet::{encode, length, Sheet};
use reference::S;

pub fn writing(bench: &mut Bench) -> Outcome {
    bench.cases("sound", 400, |session, random| {
        let lists = random.sheet();
        let length = length(&lists);
        for space in [length, length - 1, length + random.between(1, 70), 0] {
            session.make(Step::Write(lists.clone(), space))?;
            told_number(session, if space < length { 22 } else { 0 })?;
        }
        session.make(Step::Sheet(encode(&lists)))?;
        session.make(Step::Check)
    })?;
    bench.case("the longest", |session, random| {
        let lists = random.longest_sheet();
        let length = length(&lists);
        session.make(Step::Write(lists.clone(), length))?;
        session.make(Step::Write(lists, length - 1))
    })?;
    bench.cases("damaged", 4000, |session, random| {
        let lists = random.damaged_lists();
        let space = random.space(&lists);
        session.make(Step::Write(lists, space))
    })?;
    bench.cases("lists that disagree", 1500, disagree)?;
    bench.case("two faults at once", |session, _| two_faults(session))
}

/// Lists of any lengths, near each other.
fn disagree(session: &mut Session, random: &mut Random) -> Outcome {
    let mut lists = random.sheet_within(8, 4, 4);
    let resize = |random: &mut Random, length: usize| match random.below(4) {
        0 => length + random.below(3),
        1 => length.saturating_sub(random.below(3)),
        _ => length,
    };
    let (cues, rows) = (lists.cues.len(), lists.present.len());
    let more = lists.cues.last().copied().unwrap_or(0);
    lists.cues.truncate(resize(random, cues));
    if random.one_in(4) {
        lists.cues.push(more.saturating_add(1));
    }
    lists.counts.resize(resize(random, cues), random.below(3) as u16);
    lists.present.resize(resize(random, rows), 1);
    lists.absent.resize(resize(random, rows), random.below(2) as u64);
    let space = random.space(&lists);
    session.make(Step::Write(lists, space))
}

/// What makes the rules' lists refused, with the number. None undoes another.
const FAULTS: [Damage<Sheet>; 22] = [
    (2, |lists| lists.weights.resize(65, 0)),
    (2, |lists| lists.cues = (1..26).collect()),
    (2, |lists| lists.counts.resize(25, 0)),
    (3, |lists| lists.mode = 2),
    (3, |lists| lists.mode = 256),
    (3, |lists| lists.mode = (1 << 32) + 1),
    (5, |lists| replace(&mut lists.cues, 1, 7)),
    (5, |lists| replace(&mut lists.cues, 0, 0)),
    (6, |lists| replace(&mut lists.counts, 0, 129)),
    (6, |lists| replace(&mut lists.counts, 1, u16::MAX)),
    (10, |lists| replace(&mut lists.weights, 2, S as u32 + 1)),
    (12, |lists| lists.present.push(1 << 63)),
    (12, |lists| lists.absent.push(1 << 63)),
    (13, |lists| lists.absent[0] |= lists.present[0]),
    (13, |lists| lists.absent[1] |= 1),
    (14, |lists| lists.allowance = S + 1),
    (15, |lists| lists.budget = 256),
    (21, |lists| lists.present.push(0)),
    (21, |lists| lists.absent.push(0)),
    (21, |lists| lists.counts.push(0)),
    (21, |lists| lists.cues.push(1000)),
    (21, |lists| lists.counts[1] = lists.counts[1].max(1)),
];

fn replace<T>(list: &mut [T], at: usize, value: T) {
    if let Some(place) = list.get_mut(at) {
        *place = value;
    }
}

/// Each pair with ample space and with none, where 22 comes last. Lists changed twice may agree again, so that of
/// two 21 only the reference tells the number.
fn two_faults(session: &mut Session) -> Outcome {
    for (one, first) in FAULTS {
        for (other, second) in FAULTS {
            for space in [2000, 0] {
                let mut lists = whole_sheet(40);
                first(&mut lists);
                second(&mut lists);
                session.make(Step::Write(lists, space))?;
                if one.min(other) < 21 {
                    told_number(session, one.min(other))?;
                }
            }
        }
    }
    Ok(())
}
