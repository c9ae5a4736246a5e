//! Runs one input on implementations and tells where they differ.

use crate::answer::{Pace, Prints, Refusal};
use crate::generate::Input;

/// Everything an implementation gives back for one input: the refusal or the numbers it
/// answers, and every word or byte of every buffer it was lent.
#[derive(Clone, Debug, PartialEq, Eq)]
pub struct Outcome {
    /// Numbers in the order of the answer's fields; a mean by its bits, behind a 1; idle a 0.
    pub answer: Result<Vec<u64>, Refusal>,
    pub buffers: Vec<Vec<u16>>,
    /// The listing or the lines of marks, where they were asked for.
    pub text: String,
}

/// Runs one input on one implementation.
pub fn outcome(implementation: &dyn Prints, input: &Input) -> Outcome {
    let mut text = String::new();
    let (answer, buffers) = match input.clone() {
        Input::Read { file, mut words } => {
            let answer = implementation.read(&file, &mut words);
            (answer.map(|count| vec![count as u64]), vec![words])
        }
        Input::Write { words, mut bytes } => {
            let answer = implementation.write(&words, &mut bytes);
            let bytes = bytes.iter().map(|&byte| u16::from(byte)).collect();
            (answer.map(|size| vec![size as u64]), vec![bytes])
        }
        Input::Check { words } => {
            let answer = implementation.check(&words);
            (answer.map(|()| Vec::new()), Vec::new())
        }
        Input::Costs {
            words,
            mut costs,
            mut rules,
        } => {
            let answer = implementation.costs(&words, &mut costs, &mut rules);
            (answer.map(|n| vec![n as u64]), vec![costs, rules])
        }
        Input::Parse {
            words,
            tokens,
            mut edits,
            mut rules,
        } => {
            let answer = implementation.parse(&words, &tokens, &mut edits, &mut rules);
            let numbers = answer.map(|p| vec![p.moves, p.edits, p.rules]);
            (numbers, vec![edits, rules])
        }
        Input::Marks {
            words,
            tokens,
            mut edits,
            mut rules,
            mut marks,
        } => {
            let answer = implementation.marks(&words, &tokens, &mut edits, &mut rules, &mut marks);
            let numbers = answer.map(|marked| {
                let parsed = marked.parsed;
                vec![parsed.moves, parsed.edits, parsed.rules, marked.tokens]
            });
            (numbers, vec![edits, rules, marks])
        }
        Input::Report {
            words,
            tokens,
            ticks,
            mut edits,
            mut rules,
        } => {
            let answer = implementation.report(&words, &tokens, &ticks, &mut edits, &mut rules);
            let numbers = answer.map(|report| {
                let mut numbers = vec![report.cycles, report.ms];
                match report.pace {
                    Pace::Idle => numbers.push(0),
                    Pace::Mean(mean) => numbers.extend([1, mean.to_bits()]),
                }
                numbers
            });
            (numbers, vec![edits, rules])
        }
        Input::Listing { input } => {
            text = implementation.listing(&input);
            (refusal_of(&text), Vec::new())
        }
        Input::MarkLines { input } => {
            text = implementation.mark_lines(&input);
            (refusal_of(&text), Vec::new())
        }
    };
    Outcome {
        answer,
        buffers,
        text,
    }
}

/// The refusal that a listing prints, or the numbers of its first line.
fn refusal_of(text: &str) -> Result<Vec<u64>, Refusal> {
    let first = text.lines().next().unwrap_or_default();
    match first.strip_prefix("refused ") {
        Some(number) => Err(number.parse().unwrap_or(0)),
        None => Ok(first.split(' ').filter_map(|w| w.parse().ok()).collect()),
    }
}

impl Outcome {
    /// Whether the outcome lists edits.
    pub fn has_edits(&self, input: &Input) -> bool {
        match (input, &self.answer) {
            (Input::Parse { .. } | Input::Marks { .. } | Input::Report { .. }, Ok(_)) => {
                self.buffers[0].first().is_some_and(|&kind| kind != 0)
            }
            // tokens, moves, edits, rules
            (Input::Listing { .. }, Ok(numbers)) => numbers[2] > 0,
            _ => false,
        }
    }

    /// Where two outcomes differ, in words; nothing where they do not.
    pub fn difference(&self, other: &Outcome) -> Option<String> {
        if self.answer != other.answer {
            return Some(format!("answers: {:?} and {:?}", self.answer, other.answer));
        }
        for (number, (one, two)) in self.buffers.iter().zip(&other.buffers).enumerate() {
            if let Some(at) = (0..one.len()).find(|&at| one[at] != two[at]) {
                return Some(format!(
                    "buffer {number}, word {at}: {} and {}",
                    one[at], two[at]
                ));
            }
        }
        if self.text != other.text {
            return Some(format!("listings:\n{}and\n{}", self.text, other.text));
        }
        None
    }
}
