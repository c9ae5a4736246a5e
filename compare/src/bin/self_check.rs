//! Compares implementations on generated inputs: answers and every word of every buffer.
//!
//! `self_check SEED COUNT [FIRST]` runs inputs FIRST (0 if not given) to FIRST + COUNT - 1.
//! At the first difference it prints a reproducer and exits with 1; it also exits with 1 when
//! some refusal was never met, or no report in which a restart mark made a cycle unclean, or refusal 16 not in reports
//! and listings alike, behind 10 and before all that it comes before. How far it is goes to standard error.

use compare::differ::{outcome, Outcome};
use compare::generate::{Input, Source};
use compare::hundredths::Hundredths;
use compare::implementations::{self, PLAIN};
use compare::seven::Seven;
use std::process::ExitCode;

fn main() -> ExitCode {
    let numbers: Option<Vec<u64>> = std::env::args().skip(1).map(|a| a.parse().ok()).collect();
    let (seed, count, first) = match numbers.as_deref() {
        Some(&[seed, count]) => (seed, count, 0),
        Some(&[seed, count, first]) => (seed, count, first),
        _ => {
            eprintln!("usage: self_check SEED COUNT [FIRST]");
            return ExitCode::from(2);
        }
    };
    let mut others = implementations::all();
    let plain = others.remove(PLAIN);
    eprintln!("self_check: making the stock of grammars");
    let source = Source::new(seed);
    let mut tally = Tally::default();
    for index in first..first + count {
        if (index - first) % (count / 20).max(1) == 0 {
            eprintln!("self_check: {} of {count} inputs", index - first);
        }
        let input = source.input(index);
        let expected = outcome(plain.as_ref(), &input);
        for other in &others {
            let found = outcome(other.as_ref(), &input);
            if let Some(difference) = expected.difference(&found) {
                reproducer(seed, index, &input, other.name(), &difference);
                return ExitCode::FAILURE;
            }
        }
        tally.count(&input, &expected);
    }
    tally.print(seed, first, count);
    // A short run may miss one; it shall not pass for a full one.
    ExitCode::from(u8::from(!tally.is_full()))
}

/// Prints everything that is needed to run the input again.
fn reproducer(seed: u64, index: u64, input: &Input, other: &str, difference: &str) {
    println!("plain and {other} differ at seed {seed}, input {index}");
    println!("{difference}");
    println!("again: self_check {seed} 1 {index}");
    println!("{input:?}");
}

/// What the inputs met.
#[derive(Default)]
struct Tally {
    refused: [u64; 17],
    accepted: u64,
    edited: u64,
    /// Reads, checks, parses, reports, listings.
    kinds: [u64; 5],
    seven: Seven,
    hundredths: Hundredths,
}

/// The refusals that the inputs meet.
const REFUSALS: [usize; 13] = [1, 2, 3, 4, 5, 6, 7, 8, 9, 10, 11, 12, 16];
/// How wide the names of the counts are.
const WIDTH: usize = 14;

impl Tally {
    fn count(&mut self, input: &Input, outcome: &Outcome) {
        let kind = match input {
            Input::Read { .. } => 0,
            Input::Check { .. } => 1,
            Input::Parse { .. } => 2,
            Input::Report { .. } => 3,
            Input::Listing { .. } => 4,
            Input::Write { .. } => unreachable!("write_check has the lists"),
            Input::Costs { .. } => unreachable!("desk_check has the desk"),
            Input::Marks { .. } | Input::MarkLines { .. } => unreachable!("marks_check has them"),
        };
        self.kinds[kind] += 1;
        match outcome.answer {
            Ok(_) => self.accepted += 1,
            Err(number) => self.refused[usize::from(number)] += 1,
        }
        self.edited += u64::from(outcome.has_edits(input));
        self.seven.count(input, outcome);
        self.hundredths.count(input, outcome);
    }

    /// Whether every refusal was met, a cycle that a restart mark made unclean, and unit 1 in every case.
    fn is_full(&self) -> bool {
        let refused = REFUSALS.iter().all(|&number| self.refused[number] > 0);
        refused && self.seven.unclean > 0 && self.hundredths.is_full()
    }

    fn print(&self, seed: u64, first: u64, count: u64) {
        println!(
            "seed {seed}, inputs {first} to {}: no difference",
            first + count - 1
        );
        let names = ["reads", "checks", "parses", "reports", "listings"];
        for (name, count) in names.iter().zip(self.kinds) {
            println!("{name:>WIDTH$} {count}");
        }
        println!("{:>WIDTH$} {}", "not refused", self.accepted);
        println!("{:>WIDTH$} {}", "with edits", self.edited);
        for number in REFUSALS {
            let name = format!("refused {number}");
            println!("{name:>WIDTH$} {}", self.refused[number]);
        }
        self.seven.print(WIDTH, true);
        self.hundredths.print(WIDTH, true);
    }
}
