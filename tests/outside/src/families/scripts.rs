//! The scripts that the library's test program is held to, here through the C interface and place by place.

use super::make;
use crate::bench::Bench;
use crate::calls::FIELDS;
use crate::session::{Outcome, Session};
use crate::step::{Field, Step};
use reference::scripts::{scripts as all, Call, Damage, Line, Script};

/// A script that opens its table, with those after it that are handed its tree.
pub fn scripts(bench: &mut Bench) -> Outcome {
    let mut scripts = all().into_iter().peekable();
    while let Some(script) = scripts.next() {
        bench.case("a script", |session, _| {
            play(session, script)?;
            while let Some(next) = scripts.next_if(|next| !next.opens) {
                play(session, next)?;
            }
            Ok(())
        })?;
    }
    Ok(())
}

/// On its own opened tree, or on the tree at hand.
pub fn play(session: &mut Session, script: Script) -> Outcome {
    session.make(Step::Table(script.table))?;
    if script.opens {
        session.make(Step::Open)?;
    }
    script.lines.into_iter().try_for_each(|line| play_line(session, line))
}

fn play_line(session: &mut Session, line: Line) -> Outcome {
    match line {
        Line::Call(call) => make(session, call),
        Line::Damaged(damage, call) => damaged(session, damage, call),
        Line::Show => Ok(()), // every place is compared after each call
        Line::Try(call) => {
            session.make(Step::Copy)?;
            session.make(Step::Tree(1))?;
            make(session, call)?;
            session.make(Step::Tree(0))
        }
    }
}

/// The damage is undone afterwards.
fn damaged(session: &mut Session, Damage { record, field, by }: Damage, call: Call) -> Outcome {
    let (record, number) = (record as usize, field as usize);
    let field = if number < FIELDS { Field::Of { record, number } } else { Field::Used };
    let own = session.field(field);
    session.make(Step::Poke(field, own.wrapping_add(by)))?;
    make(session, call)?;
    let now = session.field(field);
    session.make(Step::Poke(field, now.wrapping_sub(by)))
}
