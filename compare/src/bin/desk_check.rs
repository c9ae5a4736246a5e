//! Compares implementations of request (iii) on generated grammars: what the desk answers and every word of
//! its two buffers.
//!
//! `desk_check SEED COUNT [FIRST]` runs grammars FIRST (0 if not given) to FIRST + COUNT - 1. At the first
//! difference it prints a reproducer and exits with 1; it also exits with 1 when a refusal, a tie or an accepted
//! grammar with a restart mark or with unit 1 was never met. How far it is goes to standard error.

use compare::answer::Prints;
use compare::differ::{outcome, Outcome};
use compare::generate::{Input, Source};
use compare::hundredths::Hundredths;
use compare::implementations::{self, PLAIN};
use compare::plain::{self, Grammar, Sets};
use compare::seven::Seven;
use std::process::ExitCode;

/// The refusals of the desk.
const REFUSALS: [usize; 6] = [5, 6, 7, 8, 9, 23];
/// What every lent word holds when a grammar is handed in again.
const OLD: u16 = 43_690;

fn main() -> ExitCode {
    let numbers: Option<Vec<u64>> = std::env::args().skip(1).map(|a| a.parse().ok()).collect();
    let (seed, count, first) = match numbers.as_deref() {
        Some(&[seed, count]) => (seed, count, 0),
        Some(&[seed, count, first]) => (seed, count, first),
        _ => {
            eprintln!("usage: desk_check SEED COUNT [FIRST]");
            return ExitCode::from(2);
        }
    };
    let all = implementations::all();
    eprintln!("desk_check: making the stock of grammars");
    let source = Source::new(seed);
    let mut tally = Tally::default();
    for index in first..first + count {
        if (index - first) % (count / 20).max(1) == 0 {
            eprintln!("desk_check: {} of {count} grammars", index - first);
        }
        let input = source.desk(index);
        if let Err(difference) = hold(&all, &input, &mut tally) {
            println!("seed {seed}, grammar {index}: {difference}");
            println!("again: desk_check {seed} 1 {index}");
            println!("{input:?}");
            return ExitCode::FAILURE;
        }
    }
    println!(
        "seed {seed}, grammars {first} to {}: no difference",
        first + count - 1
    );
    tally.print();
    // A short run may miss one; it shall not pass for a full one.
    ExitCode::from(u8::from(!tally.is_full()))
}

/// Holds all implementations on one grammar, or tells the first difference. Where the buffers were too short
/// for it, it is handed in again, so that costs and rules of every accepted grammar are compared.
fn hold(all: &[Box<dyn Prints>], input: &Input, tally: &mut Tally) -> Result<(), String> {
    let Input::Costs { words, .. } = input else {
        return Err("no grammar for the desk".to_string());
    };
    let first = same(all, input)?;
    tally.count(input, &first);
    let accepted = match first.answer {
        Ok(_) => first,
        Err(23) => same(all, &again(words))?,
        Err(_) => return Ok(()),
    };
    tally.look_at(words, &accepted);
    Ok(())
}

/// The same words with ample buffers.
fn again(words: &[u16]) -> Input {
    Input::Costs {
        words: words.to_vec(),
        costs: vec![OLD; 70],
        rules: vec![OLD; 70],
    }
}

/// The outcome that all implementations have, or which of them has another.
fn same(all: &[Box<dyn Prints>], input: &Input) -> Result<Outcome, String> {
    let expected = outcome(all[PLAIN].as_ref(), input);
    for other in all {
        if let Some(difference) = expected.difference(&outcome(other.as_ref(), input)) {
            return Err(format!("plain and {}: {difference}", other.name()));
        }
    }
    Ok(expected)
}

/// What the grammars met.
#[derive(Default)]
struct Tally {
    /// By refusal; place 0 counts those not refused.
    calls: [u64; 24],
    /// Accepted grammars, and those with a tie, with a tie whose lowest rule names a nonterminal, and with a
    /// rule number over 127.
    accepted: u64,
    tied: u64,
    through: u64,
    high: u64,
    seven: Seven,
    hundredths: Hundredths,
}

impl Tally {
    fn count(&mut self, input: &Input, outcome: &Outcome) {
        let refusal = outcome.answer.as_ref().err().copied().unwrap_or(0);
        self.calls[usize::from(refusal)] += 1;
        self.seven.count(input, outcome);
        self.hundredths.count(input, outcome);
    }

    fn look_at(&mut self, words: &[u16], outcome: &Outcome) {
        let (grammar, sets) = plain::check(words).expect("an accepted grammar");
        let tied = lowest_of_ties(&grammar, &sets);
        let names = |&rule: &usize| grammar.rules[rule].right.iter().any(|&s| s >= 64);
        self.accepted += 1;
        self.tied += u64::from(!tied.is_empty());
        self.through += u64::from(tied.iter().any(names));
        self.high += u64::from(outcome.buffers[1].iter().any(|&rule| rule > 127));
    }

    /// Whether every refusal was met, a tie, a restart mark, and unit 1.
    fn is_full(&self) -> bool {
        let refused = REFUSALS.iter().all(|&number| self.calls[number] > 0);
        refused && self.tied > 0 && self.seven.marked > 0 && self.hundredths.accepted > 0
    }

    fn print(&self) {
        println!("{:>16} {}", "given", self.calls[0]);
        for number in REFUSALS {
            let name = format!("refused {number}");
            println!("{name:>16} {}", self.calls[number]);
        }
        println!("{:>16} {}", "accepted", self.accepted);
        println!("{:>16} {}", "with a tie", self.tied);
        println!("{:>16} {}", "through another", self.through);
        println!("{:>16} {}", "rules over 127", self.high);
        self.seven.print(16, false);
        self.hundredths.print(16, false);
    }
}

/// The lowest rule of each nonterminal that several rules reach the cost of.
fn lowest_of_ties(grammar: &Grammar, sets: &Sets) -> Vec<usize> {
    let mut lowest = Vec::new();
    for (k, symbol) in grammar.nonterminal_symbols().enumerate() {
        let rules = grammar.rules.iter().enumerate();
        let reaching: Vec<usize> = rules
            .filter(|(_, rule)| rule.left == symbol && sets.cost_of(&rule.right) == sets.cost[k])
            .map(|(number, _)| number)
            .collect();
        if reaching.len() > 1 {
            lowest.push(reaching[0]);
        }
    }
    lowest
}
