//! How many comparisons were made, and how often each call of the library gave each number and each verdict.

use reference::tree::State;
use reference::{Act, Answer, Limits, NONE, SHARE};
use std::collections::BTreeMap;

/// The functions of the library.
#[derive(Clone, Copy, Debug, PartialEq, Eq, PartialOrd, Ord)]
pub enum Call {
    Version,
    Open,
    Refine,
    Run,
    Widest,
    Check,
    Cue,
    Table,
    Write,
    Report,
    Import,
    Export,
    Log,
    Logs,
    Fractions,
    Weight,
    Compare,
}

impl Call {
    pub fn name(self) -> &'static str {
        match self {
            Call::Version => "cue_version",
            Call::Open => "cue_open",
            Call::Refine => "cue_refine",
            Call::Run => "cue_run",
            Call::Widest => "cue_widest",
            Call::Check => "cue_sheet_check",
            Call::Cue => "cue_sheet_cue",
            Call::Table => "cue_sheet_table",
            Call::Write => "cue_sheet_write",
            Call::Report => "cue_sheet_report",
            Call::Import => "cue_csv_import",
            Call::Export => "cue_csv_export",
            Call::Log => "cue_log",
            Call::Logs => "cue_logs",
            Call::Fractions => "cue_fractions",
            Call::Weight => "cue_fraction_weight",
            Call::Compare => "cue_fraction_compare",
        }
    }
}

#[derive(Clone, Default)]
pub struct Tally {
    pub compared: u64,
    numbers: BTreeMap<(Call, u64), u64>,
    verdicts: BTreeMap<u64, u64>,
    refined: BTreeMap<&'static str, u64>,
    common: BTreeMap<u64, u64>,
    shares: BTreeMap<u64, u64>,
}

impl Tally {
    pub fn answered(&mut self, call: Call, number: u64, verdict: u64) {
        *self.numbers.entry((call, number)).or_default() += 1;
        if verdict != NONE {
            *self.verdicts.entry(verdict).or_default() += 1;
        }
    }

    /// A common part that was asked for by hand.
    pub fn asked_common(&mut self, number: u64) {
        *self.common.entry(number).or_default() += 1;
    }

    /// A run, counted by its verdict if it was accepted and by share.
    pub fn aimed(&mut self, limits: Limits, answer: Answer) {
        if limits.mode == SHARE && answer.number == 0 {
            *self.shares.entry(answer.verdict).or_default() += 1;
        }
    }

    /// A place that was compared.
    pub fn stood(&mut self, state: State) {
        let kind = match state {
            State::Refined(Act::Independence) => "independence",
            State::Refined(Act::Common) => "common part",
            State::Refined(Act::Fault(_)) => "fault",
            State::Open | State::Closed => return,
        };
        *self.refined.entry(kind).or_default() += 1;
    }

    pub fn add(&mut self, other: &Tally) {
        self.compared += other.compared;
        other.numbers.iter().for_each(|(&met, times)| *self.numbers.entry(met).or_default() += times);
        other.verdicts.iter().for_each(|(&met, times)| *self.verdicts.entry(met).or_default() += times);
        other.refined.iter().for_each(|(&met, times)| *self.refined.entry(met).or_default() += times);
        other.common.iter().for_each(|(&met, times)| *self.common.entry(met).or_default() += times);
        other.shares.iter().for_each(|(&met, times)| *self.shares.entry(met).or_default() += times);
    }

    /// How often a call gave a number.
    pub fn met(&self, call: Call, number: u64) -> u64 {
        self.numbers.get(&(call, number)).copied().unwrap_or(0)
    }

    /// How often a verdict was given.
    pub fn met_verdict(&self, verdict: u64) -> u64 {
        self.verdicts.get(&verdict).copied().unwrap_or(0)
    }

    /// How often a verdict was given by share.
    pub fn met_share(&self, verdict: u64) -> u64 {
        self.shares.get(&verdict).copied().unwrap_or(0)
    }

    /// How often a place refined so was compared.
    pub fn met_refined(&self, kind: &str) -> u64 {
        self.refined.get(kind).copied().unwrap_or(0)
    }

    /// How often a common part asked for by hand was given a number.
    pub fn met_common(&self, number: u64) -> u64 {
        self.common.get(&number).copied().unwrap_or(0)
    }

    /// The answers by call and number, for the common part by hand too, and by verdict, by share too, and the places that were
    /// refined.
    pub fn answers(&self) -> String {
        let mut text = String::from("answers");
        let mut last = None;
        for (&(call, number), times) in &self.numbers {
            if last.replace(call) != Some(call) {
                text += &format!("\n  {}", call.name());
            }
            text += &format!("  {number}: {times}");
        }
        text += "\n  verdicts";
        self.verdicts.iter().for_each(|(verdict, times)| text += &format!("  {verdict}: {times}"));
        text += "\n  verdicts by share";
        self.shares.iter().for_each(|(verdict, times)| text += &format!("  {verdict}: {times}"));
        text += "\n  a common part by hand";
        self.common.iter().for_each(|(number, times)| text += &format!("  {number}: {times}"));
        text += "\n  refined by";
        self.refined.iter().for_each(|(kind, times)| text += &format!("  {kind}: {times}"));
        text
    }
}
