//! Compares implementations of request (iv) on generated logs: what they answer and every word of the three buffers,
//! and on every tenth a standard input of `print_marks` and its lines, where an implementation has that program.
//!
//! `marks_check SEED COUNT [FIRST]` runs logs FIRST (0 if not given) to FIRST + COUNT - 1. At the first difference it
//! prints a reproducer and exits with 1; it also exits with 1 when refusal 15, the string of a nonterminal or an
//! accepted grammar with a restart mark or with unit 1 was never met. How far it is goes to standard error.

use compare::answer::Prints;
use compare::differ::{outcome, Outcome};
use compare::generate::{marks, Input, Source};
use compare::hundredths::Hundredths;
use compare::implementations::{self, PLAIN};
use compare::seven::Seven;
use std::process::ExitCode;

/// The refusals that a call can meet; the lines meet 1 to 3 too.
const REFUSALS: [usize; 9] = [5, 6, 7, 8, 9, 10, 11, 12, 15];
/// One in so many logs is followed by an input of `print_marks`.
const LINES: u64 = 10;
/// What every lent word holds when a log is handed in again.
const OLD: u16 = 43_690;
/// The kind of a record that inserts.
const INSERT: u16 = 2;

fn main() -> ExitCode {
    let numbers: Option<Vec<u64>> = std::env::args().skip(1).map(|a| a.parse().ok()).collect();
    let (seed, count, first) = match numbers.as_deref() {
        Some(&[seed, count]) => (seed, count, 0),
        Some(&[seed, count, first]) => (seed, count, first),
        _ => {
            eprintln!("usage: marks_check SEED COUNT [FIRST]");
            return ExitCode::from(2);
        }
    };
    let all = implementations::all();
    eprintln!("marks_check: making the stock of grammars");
    let source = Source::new(seed);
    let mut tally = Tally::default();
    for index in first..first + count {
        if (index - first) % (count / 20).max(1) == 0 {
            eprintln!("marks_check: {} of {count} logs", index - first);
        }
        let input = source.marks(index);
        let mut held = hold(&all, &input, &mut tally).map_err(|difference| (difference, input));
        if held.is_ok() && index % LINES == 0 {
            let input = Input::MarkLines {
                input: source.mark_input(index),
            };
            held = hold_lines(&all, &input, &mut tally).map_err(|difference| (difference, input));
        }
        if let Err((difference, input)) = held {
            println!("seed {seed}, log {index}: {difference}");
            println!("again: marks_check {seed} 1 {index}");
            println!("{input:?}");
            return ExitCode::FAILURE;
        }
    }
    println!(
        "seed {seed}, logs {first} to {}: no difference",
        first + count - 1
    );
    tally.print();
    // A short run may miss one; it shall not pass for a full one.
    ExitCode::from(u8::from(!tally.is_full()))
}

/// Holds all implementations on one log, or tells the first difference. Where a buffer was too short for it, it is
/// handed in again, so that the result of every log is compared that is not refused otherwise.
fn hold(all: &[Box<dyn Prints>], input: &Input, tally: &mut Tally) -> Result<(), String> {
    let Input::Marks { words, tokens, .. } = input else {
        return Err("no log for request (iv)".to_string());
    };
    let first = same(all, input)?;
    tally.count(input, &first);
    let given = match first.answer {
        Err(12 | 15) => same(all, &again(words, tokens))?,
        _ => first,
    };
    tally.look_at(&given);
    Ok(())
}

/// The same words and log with ample buffers.
fn again(words: &[u16], tokens: &[u16]) -> Input {
    let [edits, rules, marks] = marks::needed(words, tokens).map(|room| vec![OLD; room + 40]);
    Input::Marks {
        words: words.to_vec(),
        tokens: tokens.to_vec(),
        edits,
        rules,
        marks,
    }
}

/// Holds the implementations that have `print_marks` on one input of it.
fn hold_lines(all: &[Box<dyn Prints>], input: &Input, tally: &mut Tally) -> Result<(), String> {
    let given = same(all, input)?;
    tally.lines[usize::from(given.answer.is_err())] += 1;
    tally.seven.count(input, &given);
    tally.hundredths.count(input, &given);
    Ok(())
}

/// The outcome that all implementations have, or which of them has another. Those that do not have `print_marks` are
/// not asked for its lines.
fn same(all: &[Box<dyn Prints>], input: &Input) -> Result<Outcome, String> {
    let lines = matches!(input, Input::MarkLines { .. });
    let expected = outcome(all[PLAIN].as_ref(), input);
    for other in all.iter().filter(|one| !lines || one.has_mark_lines()) {
        if let Some(difference) = expected.difference(&outcome(other.as_ref(), input)) {
            return Err(format!("plain and {}: {difference}", other.name()));
        }
    }
    Ok(expected)
}

/// What the logs met.
#[derive(Default)]
struct Tally {
    /// By refusal; place 0 counts those not refused.
    calls: [u64; 16],
    /// Results with added tokens, those with the string of a nonterminal, and those of 10,000 tokens and more.
    added: u64,
    strings: u64,
    long: u64,
    /// The most tokens of a result.
    longest: u64,
    /// Inputs of `print_marks` that were not refused, and those that were.
    lines: [u64; 2],
    /// Of both.
    seven: Seven,
    hundredths: Hundredths,
}

impl Tally {
    fn count(&mut self, input: &Input, outcome: &Outcome) {
        let refusal = outcome.answer.as_ref().err().copied().unwrap_or(0);
        self.calls[usize::from(refusal)] += 1;
        self.seven.count(input, outcome);
        self.hundredths.count(input, outcome);
    }

    fn look_at(&mut self, outcome: &Outcome) {
        let Ok(numbers) = &outcome.answer else {
            return;
        };
        let mut inserted = outcome.buffers[0].chunks(3).filter(|r| r[0] == INSERT);
        let strings = inserted.clone().any(|record| record[2] >= 64);
        self.added += u64::from(inserted.next().is_some());
        self.strings += u64::from(strings);
        self.long += u64::from(numbers[3] >= 10_000);
        self.longest = self.longest.max(numbers[3]);
    }

    /// Whether refusal 15 was met, the string of a nonterminal, a restart mark, and unit 1.
    fn is_full(&self) -> bool {
        let headers = self.seven.marked > 0 && self.hundredths.accepted > 0;
        self.calls[15] > 0 && self.strings > 0 && headers
    }

    fn print(&self) {
        println!("{:>16} {}", "given", self.calls[0]);
        for number in REFUSALS {
            let name = format!("refused {number}");
            println!("{name:>16} {}", self.calls[number]);
        }
        println!("{:>16} {}", "added tokens", self.added);
        println!("{:>16} {}", "added strings", self.strings);
        println!("{:>16} {}", "10,000 and more", self.long);
        println!("{:>16} {}", "longest result", self.longest);
        println!("{:>16} {}", "printed", self.lines[0]);
        println!("{:>16} {}", "printed refused", self.lines[1]);
        self.seven.print(16, false);
        self.hundredths.print(16, false);
    }
}
