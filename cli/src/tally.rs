//! How many runs ended how.
use bukzarn::Outcome;
use std::collections::BTreeMap;
use std::fmt;

/// Counts of runs by their outcome.
#[derive(Debug, Default)]
pub struct Tally(BTreeMap<Outcome, u64>);

impl Tally {
    /// Counts one more run.
    pub fn add(&mut self, outcome: Outcome) {
        *self.0.entry(outcome).or_default() += 1;
    }

    /// All runs.
    pub fn frames(&self) -> u64 {
        self.0.values().sum()
    }

    /// Is every run done?
    pub fn all_done(&self) -> bool {
        self.0.keys().all(|outcome| *outcome == Outcome::Done)
    }
}

/// `590 done, 8 aborted (the program aborted), 2 spent (the budget of steps is spent)`.
impl fmt::Display for Tally {
    fn fmt(&self, f: &mut fmt::Formatter<'_>) -> fmt::Result {
        for (n, (outcome, count)) in self.0.iter().enumerate() {
            write!(f, "{}{count} {outcome}", if n == 0 { "" } else { ", " })?;
            if *outcome != Outcome::Done {
                write!(f, " ({})", outcome.words())?;
            }
        }
        Ok(())
    }
}
