//! What the inputs of a run met whose grammar has unit 1, by request (viii) of document 02.

use crate::differ::{outcome, Outcome};
use crate::generate::{units, Input};
use crate::plain::Plain;

/// Counts of such inputs whose grammar is accepted.
#[derive(Default)]
pub struct Hundredths {
    /// All of them.
    pub accepted: u64,
    /// Reports and listings of any accepted grammar.
    timed: u64,
    /// Refused with 16: reports, and listings.
    refused: [u64; 2],
    /// Reports and listings refused with 10, which comes before 16.
    before: u64,
    /// Refused with 16, where unit 0 in its place would have given 11, 12, an idle station, or a mean.
    behind: [u64; 4],
}

const BEHIND: [&str; 4] = ["else 11", "else 12", "else idle", "else a mean"];

impl Hundredths {
    /// Counts an input, if it is one. Reads and writes know of no unit here.
    pub fn count(&mut self, input: &Input, given: &Outcome) {
        // 1 to 9 are given before anything is asked of an accepted grammar, and all others behind it.
        if matches!(given.answer, Err(1..=9)) {
            return;
        }
        let kind = match input {
            Input::Report { .. } => Some(0),
            Input::Listing { .. } => Some(1),
            _ => None,
        };
        self.timed += u64::from(kind.is_some());
        let mut other = input.clone();
        if !units::set(&mut other, 1, 0) {
            return;
        }
        self.accepted += 1;
        let Some(kind) = kind else { return };
        match given.answer {
            Err(10) => self.before += 1,
            Err(16) => {
                self.refused[kind] += 1;
                self.behind[behind(&outcome(&Plain, &other))] += 1;
            }
            _ => unreachable!("no pace comes from unit 1"),
        }
    }

    /// Whether 16 was met in reports and in listings, 10 before it, and each of what it comes before.
    pub fn is_full(&self) -> bool {
        let counts = self.refused.iter().chain(&self.behind);
        self.before > 0 && counts.into_iter().all(|&count| count > 0)
    }

    /// The lines of a run, with names as wide as its own. Only a run with reports has all of them.
    pub fn print(&self, width: usize, reports: bool) {
        println!("{:>width$} {}", "unit 1", self.accepted);
        if !reports {
            return;
        }
        let [reports, listings] = self.refused;
        let all = self.before + reports + listings;
        println!("{:>width$} {all} of {}", "timed", self.timed);
        println!("{:>width$} {}", "10 before 16", self.before);
        println!("{:>width$} {reports}", "16 in reports");
        println!("{:>width$} {listings}", "16 in listings");
        for (name, count) in BEHIND.iter().zip(self.behind) {
            println!("{name:>width$} {count}");
        }
    }
}

/// Which of [`BEHIND`] an outcome is.
fn behind(outcome: &Outcome) -> usize {
    match &outcome.answer {
        Err(11) => 0,
        Err(12) => 1,
        Err(number) => unreachable!("{number} does not come behind 16"),
        // A report has the number of cycles first; a listing tells in its last line.
        Ok(numbers) => {
            let idle = if outcome.text.is_empty() {
                numbers[0] == 0
            } else {
                outcome.text.ends_with("pace idle\n")
            };
            if idle {
                2
            } else {
                3
            }
        }
    }
}
