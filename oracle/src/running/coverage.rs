//! What the comparison of the running machine met, counted apart from the calls on images.

use super::rules::RULES;
use crate::call::Call;
use crate::coverage::{kind, status_name, KINDS};
use std::fmt;

/// Refusals that a call meets on a state of any bits.
const NOT_WHOLE: u8 = 7;

#[derive(Clone)]
pub struct RunningCoverage {
    /// Images loaded, called both ways, saved.
    pub loaded: u64,
    /// Images whose state is not whole.
    pub not_loaded: u64,
    /// Of those, states that keys can say, called on directly.
    pub broken: u64,
    /// Calls in place, in how many sequences, and how often saved.
    pub in_place: u64,
    pub sequences: u64,
    pub settled: u64,
    pub copies: u64,
    /// Calls on arrays of any bits, whole and not, and how many broke each rule alone.
    pub any_whole: u64,
    pub any_broken: u64,
    pub rules: [u64; RULES.len()],
    /// Lengths and flag bytes that do not fit.
    pub misfits: u64,
    by_status: [[u64; 256]; KINDS.len()],
}

impl Default for RunningCoverage {
    fn default() -> Self {
        RunningCoverage {
            loaded: 0,
            not_loaded: 0,
            broken: 0,
            in_place: 0,
            sequences: 0,
            settled: 0,
            copies: 0,
            any_whole: 0,
            any_broken: 0,
            rules: [0; RULES.len()],
            misfits: 0,
            by_status: [[0; 256]; KINDS.len()],
        }
    }
}

impl RunningCoverage {
    pub fn call(&mut self, call: &Call, status: u8) {
        self.by_status[kind(call)][usize::from(status)] += 1;
    }

    /// What should have been met and was not.
    pub fn missing(&self) -> Vec<String> {
        let counts = [
            ("images loaded", self.loaded),
            ("images not loaded", self.not_loaded),
            ("broken states", self.broken),
            ("calls in place", self.in_place),
            ("copies", self.copies),
            ("arrays of any bits, whole", self.any_whole),
            ("arrays of any bits, not whole", self.any_broken),
            ("lengths that do not fit", self.misfits),
        ];
        let rules = RULES.iter().copied().zip(self.rules);
        let missing = counts.into_iter().chain(rules).filter(|(_, count)| *count == 0);
        missing.map(|(name, _)| format!("running machine: {name}")).collect()
    }
}

impl fmt::Display for RunningCoverage {
    fn fmt(&self, f: &mut fmt::Formatter<'_>) -> fmt::Result {
        writeln!(f, "the running machine:")?;
        let lines = [
            (self.loaded, "images loaded, called by numbers and by bytes, and saved"),
            (self.not_loaded, "images whose state is not whole: load gives 7 and writes nothing"),
            (self.broken, "of those states, the ones that keys can say, called by numbers and by bytes"),
            (self.in_place, "calls in place in long sequences"),
            (self.sequences, "sequences"),
            (self.settled, "times saved and compared in them"),
            (self.copies, "copies"),
            (self.any_whole, "calls on arrays of any bits that stand for a whole state"),
            (self.any_broken, "calls on arrays of any bits that do not"),
            (self.misfits, "lengths and flag bytes that do not fit"),
        ];
        for (count, what) in lines {
            writeln!(f, "  {count:>10}  {what}")?;
        }
        for (rule, count) in RULES.iter().zip(self.rules) {
            writeln!(f, "  {count:>10}  arrays break only: {rule}")?;
        }
        for (name, row) in KINDS.iter().zip(&self.by_status).filter(|(_, row)| row.iter().any(|count| *count > 0))
        {
            write!(f, "  any bits, {name:18}")?;
            for (status, count) in row.iter().enumerate().filter(|(_, count)| **count > 0) {
                write!(f, " {}: {count} ", status_name(status as u8))?;
            }
            writeln!(f)?;
        }
        let seven: u64 = self.by_status.iter().map(|row| row[usize::from(NOT_WHOLE)]).sum();
        write!(f, "  {seven:>10}  calls on arrays of any bits were turned down with 7 and wrote nothing")
    }
}
