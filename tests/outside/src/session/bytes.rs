//! The page's search over lent records, and the steps on sheets: reading, a reader's call, a cue's table, and with every
//! byte in and around the lent space the report, the writer, import and export.

use super::{must, Mismatch, Outcome, Session};
use crate::calls::{self, Entry, Head, Inside, Node, Spot};
use crate::lent::LentSpace;
use crate::tally::Call;
use reference::csv;
use reference::report::{enclosing_lines, report_into};
use reference::sheet::{cue_at, cue_table, decode, write, Handed, Sheet};
use reference::tree::first_widest;
use reference::{Answer, Table};
use std::{array, mem};

impl Session {
    pub(super) fn make_search(&mut self, records: &[Node]) -> Outcome {
        let marked = |node: &Node| (node.kind == 1 && node.live == 1, node.low, node.high);
        let marked: Vec<(bool, u64, u64)> = records.iter().map(marked).collect();
        let due = match first_widest(&marked) {
            Some(at) => Spot { found: 1, at },
            None => Spot { found: 0, at: 0 },
        };
        let got = self.stack.make(Call::Widest, || calls::widest(records));
        self.same("the first widest open leaf", &due, &got)
    }

    pub(super) fn make_check(&mut self) -> Outcome {
        let due = match decode(&self.sheet) {
            Err(number) => Head { number, ..Head::default() },
            Ok(sheet) => Head {
                number: 0,
                faults: sheet.weights.len() as u64,
                cues: sheet.cues.len() as u64,
                allowance: sheet.allowance,
                budget: sheet.budget,
                mode: sheet.mode,
            },
        };
        let got = self.stack.make(Call::Check, || calls::check(&self.sheet));
        self.keep_answer(Call::Check, Answer::refused(got.number));
        self.same("the sheet's head", &due, &got)
    }

    pub(super) fn make_cue(&mut self, position: usize) -> Outcome {
        self.handed(position).map(drop)
    }

    /// A reader is a sheet and a place in its contents, which moves on as long as cues are handed over.
    pub(super) fn make_next(&mut self) -> Outcome {
        let (due, got) = self.handed(self.place)?;
        let place = self.place + usize::from(got.number == 0 && got.past == 0);
        self.place = place;
        self.same("the reader's place", &due.position, &place)
    }

    /// The cue at a position, the reference's and the library's.
    fn handed(&mut self, position: usize) -> Result<(Handed, Entry), Mismatch> {
        let handed = cue_at(&self.sheet, position);
        let due = Entry {
            number: handed.number,
            past: u64::from(handed.ended),
            cue: handed.cue,
            ways: handed.ways,
            start: handed.body,
        };
        let got = self.stack.make(Call::Cue, || calls::cue(&self.sheet, position));
        self.tally.answered(Call::Cue, got.number, 0);
        self.same("the cue", &due, &got)?;
        if got.number == 0 && got.past == 0 {
            self.must_start(position, got.start as usize)?;
        }
        Ok((handed, got))
    }

    /// The words of the cue's ways stand in the sheet from `start` on.
    fn must_start(&self, position: usize, start: usize) -> Outcome {
        let table = decode(&self.sheet).ok().and_then(|sheet| cue_table(&sheet, position)).unwrap_or_default();
        let words = table.present.iter().zip(&table.absent).flat_map(|(present, absent)| [present, absent]);
        let body: Vec<u8> = words.flat_map(|word| word.to_le_bytes()).collect();
        must("the cue's body", &Some(&body[..]), &self.sheet.get(start..start + body.len()))
    }

    pub(super) fn make_inside(&mut self, position: usize) -> Outcome {
        let due = match decode(&self.sheet) {
            Err(number) => Inside { number, ..of_table(&Table::default()) },
            Ok(sheet) => match cue_table(&sheet, position) {
                None => Inside { past: 1, ..of_table(&Table::default()) },
                Some(table) => of_table(&table),
            },
        };
        let got = self.stack.make(Call::Table, || calls::table(&self.sheet, position));
        self.tally.answered(Call::Table, got.number, 0);
        self.same("the cue's table", &due, &got)
    }

    pub(super) fn make_report(&mut self, space: usize) -> Outcome {
        let sheet = mem::take(&mut self.sheet);
        let library = |space: &mut [u8]| calls::report(&sheet, space);
        let outcome = self.make_output(Call::Report, space, library, |space| report_into(&sheet, space));
        let outcome = outcome.and_then(|()| self.counted_lines(&sheet));
        self.sheet = sheet;
        outcome
    }

    /// The intervals that were just printed for a sheet, beside the count over all assignments.
    fn counted_lines(&mut self, sheet: &[u8]) -> Outcome {
        if self.answer().number != 0 {
            return Ok(());
        }
        let text = String::from_utf8_lossy(&self.printed);
        let lines = enclosing_lines(sheet, &text).map_err(Mismatch)?;
        self.tally.compared += lines as u64;
        Ok(())
    }

    pub(super) fn make_write(&mut self, lists: &Sheet, space: usize) -> Outcome {
        let library = |space: &mut [u8]| calls::write(lists, space);
        self.make_output(Call::Write, space, library, |space| write(lists, space))
    }

    /// Behind the text stands a byte that would change it: the end of a line that it ends within, or else a digit.
    pub(super) fn make_import(&mut self, space: usize) -> Outcome {
        let text = mem::take(&mut self.text);
        let next = if text.ends_with(b"\r") { b'\n' } else { b'1' };
        let longer = [&text[..], &[next]].concat();
        let library = |space: &mut [u8]| calls::import(&longer[..text.len()], space);
        let outcome = self.make_output(Call::Import, space, library, |space| csv::import(&text, space));
        self.text = text;
        outcome
    }

    pub(super) fn make_export(&mut self, space: usize) -> Outcome {
        let sheet = mem::take(&mut self.sheet);
        let library = |space: &mut [u8]| calls::export(&sheet, space);
        let outcome = self.make_output(Call::Export, space, library, |space| csv::export(&sheet, space));
        self.sheet = sheet;
        outcome
    }

    fn make_output(
        &mut self,
        call: Call,
        space: usize,
        library: impl Fn(&mut [u8]) -> calls::Answer + Sync,
        reference: impl Fn(&mut [u8]) -> Answer,
    ) -> Outcome {
        let (mut lent, mut due) = (LentSpace::new(space), LentSpace::new(space));
        let got: Answer = self.stack.make(call, || library(lent.space())).into();
        self.same_answer(call, reference(due.space()), got)?;
        self.same("the space", &due, &lent)?;
        // Refused, a count is none of bytes.
        let written = if got.number == 0 { got.count as usize } else { 0 };
        self.printed = lent.space()[..written].to_vec();
        Ok(())
    }

    pub(super) fn claim_printed(&mut self, text: &[u8]) -> Outcome {
        let got = self.printed.escape_ascii().to_string();
        self.same("the text", &text.escape_ascii().to_string(), &got)
    }
}

/// A table as it is handed over, zeros behind its lists.
fn of_table(table: &Table) -> Inside {
    let word = |words: &[u64], at: usize| words.get(at).copied().unwrap_or(0);
    Inside {
        number: 0,
        past: 0,
        faults: table.weights.len() as u64,
        ways: table.present.len() as u64,
        weights: array::from_fn(|at| table.weights.get(at).copied().unwrap_or(0)),
        present: array::from_fn(|at| word(&table.present, at)),
        absent: array::from_fn(|at| word(&table.absent, at)),
    }
}
