//! Where a family plays its cases: it counts their comparisons, and writes a case that fails to a file.

use crate::session::{Mismatch, Outcome, Session};
use crate::tally::Tally;
use reference::random::Random;
use std::fs::{self, File};
use std::path::Path;

pub struct Bench<'a> {
    pub family: &'static str,
    pub random: Random,
    /// How many times as many random cases as by default.
    pub times: usize,
    pub tally: Tally,
    pub folder: &'a Path,
    /// Each case is written to a file as it goes, over the one before it.
    pub trace: bool,
}

impl Bench<'_> {
    /// Plays one case.
    pub fn case(&mut self, name: &str, play: impl FnOnce(&mut Session, &mut Random) -> Outcome) -> Outcome {
        let mut session = Session::new(self.traced());
        let outcome = play(&mut session, &mut self.random);
        self.tally.add(&session.tally);
        outcome.map_err(|Mismatch(said)| Mismatch(self.keep(name, &said, &session)))
    }

    /// The file that the next case is told to, if it is.
    fn traced(&self) -> Option<File> {
        let file = self.folder.join(format!("last-{}.case", self.family));
        self.trace.then(|| File::create(file).expect("a file for the case"))
    }

    /// Writes a case that failed to a file; the words say where.
    fn keep(&self, name: &str, said: &str, session: &Session) -> String {
        let family = self.family;
        let mut text = format!("# {family}, {name}\n# {said}\n");
        for step in &session.steps {
            text += &format!("{step}\n");
        }
        let file = self.folder.join(format!("failed-{family}.case"));
        match fs::write(&file, &text) {
            Ok(()) => format!("{family}, {name}: {said}\nto see it again: --replay {}", file.display()),
            Err(error) => format!("{text}{}: {error}; so here is the case itself", file.display()),
        }
    }

    /// Plays so many cases, or as many times that as asked for.
    pub fn cases(
        &mut self,
        name: &str,
        count: usize,
        mut play: impl FnMut(&mut Session, &mut Random) -> Outcome,
    ) -> Outcome {
        for _ in 0..count * self.times {
            self.case(name, &mut play)?;
        }
        Ok(())
    }
}
