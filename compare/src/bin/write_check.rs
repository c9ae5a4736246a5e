//! Compares implementations of requests (i) and (viii) on generated lists of words: what write answers and every
//! byte of its buffer, and then what read makes of the bytes written, or of the blocks of a list of unit 1.
//!
//! `write_check SEED COUNT [FIRST]` runs lists FIRST (0 if not given) to FIRST + COUNT - 1. At the first
//! difference it prints a reproducer and exits with 1; it also exits with 1 when a refusal, a number of blocks or a
//! list that tells 16 from another answer was never met. How far it is goes to standard error.

use compare::answer::Prints;
use compare::differ::{outcome, Outcome};
use compare::generate::list::bytes_for;
use compare::generate::{Input, Source};
use compare::implementations::{self, PLAIN};
use compare::plain;
use std::process::ExitCode;

/// What every lent word holds before a read.
const OLD: u16 = 43_690;

fn main() -> ExitCode {
    let numbers: Option<Vec<u64>> = std::env::args().skip(1).map(|a| a.parse().ok()).collect();
    let (seed, count, first) = match numbers.as_deref() {
        Some(&[seed, count]) => (seed, count, 0),
        Some(&[seed, count, first]) => (seed, count, first),
        _ => {
            eprintln!("usage: write_check SEED COUNT [FIRST]");
            return ExitCode::from(2);
        }
    };
    let all = implementations::all();
    eprintln!("write_check: making the stock of grammars");
    let source = Source::new(seed);
    let mut tally = Tally::default();
    for index in first..first + count {
        if (index - first) % (count / 20).max(1) == 0 {
            eprintln!("write_check: {} of {count} lists", index - first);
        }
        let input = source.write(index);
        if let Err(difference) = hold(&all, &input, &mut tally) {
            println!("seed {seed}, list {index}: {difference}");
            println!("again: write_check {seed} 1 {index}");
            println!("{input:?}");
            return ExitCode::FAILURE;
        }
    }
    println!(
        "seed {seed}, lists {first} to {}: no difference",
        first + count - 1
    );
    tally.print();
    // A short run may miss one; it shall not pass for a full one.
    ExitCode::from(u8::from(!tally.is_full()))
}

/// Holds all implementations on one list, or tells the first difference.
fn hold(all: &[Box<dyn Prints>], input: &Input, tally: &mut Tally) -> Result<(), String> {
    let Input::Write { words, bytes } = input else {
        return Err("no list to be written".to_string());
    };
    let expected = outcome(all[PLAIN].as_ref(), input);
    same(all, input, &expected, "write")?;
    let size = match &expected.answer {
        Ok(numbers) => numbers[0] as usize,
        Err(refusal) => {
            tally.refused[usize::from(*refusal)] += 1;
            tally.look_at(words, bytes.len(), *refusal);
            if *refusal == 16 {
                read_back(all, &plain::blocks(words), words, tally)?;
            }
            return Ok(());
        }
    };
    tally.written[size / 512] += 1;
    tally.look_at(words, bytes.len(), 0);
    let lent: Vec<u8> = expected.buffers[0].iter().map(|&b| b as u8).collect();
    read_back(all, &lent[..size], words, tally)?;
    let count = words.len();
    if bytes.len() > size {
        let read = Input::Read {
            file: lent,
            words: vec![OLD; count + 300],
        };
        let expected = outcome(all[PLAIN].as_ref(), &read);
        same(all, &read, &expected, "read of the whole buffer")?;
        tally.more += 1;
        tally.more_refused += u64::from(expected.answer.is_err());
    }
    Ok(())
}

/// "Reading back the blocks written, into a word buffer long enough, gives the same words." "Old files with unit 1 can
/// still be read."
fn read_back(
    all: &[Box<dyn Prints>],
    file: &[u8],
    words: &[u16],
    tally: &mut Tally,
) -> Result<(), String> {
    let count = words.len();
    for room in [count, count - 1, count + 1, count + 300] {
        let read = Input::Read {
            file: file.to_vec(),
            words: vec![OLD; room],
        };
        let mut back = if room < count {
            Vec::new()
        } else {
            words.to_vec()
        };
        back.resize(room, 0);
        let expected = Outcome {
            answer: if room < count {
                Err(4)
            } else {
                Ok(vec![count as u64])
            },
            buffers: vec![back],
            text: String::new(),
        };
        same(all, &read, &expected, "read of the blocks")?;
        tally.reads += 1;
    }
    Ok(())
}

/// Whether all implementations have the expected outcome.
fn same(
    all: &[Box<dyn Prints>],
    input: &Input,
    expected: &Outcome,
    what: &str,
) -> Result<(), String> {
    for implementation in all {
        let found = outcome(implementation.as_ref(), input);
        if let Some(difference) = expected.difference(&found) {
            let name = implementation.name();
            return Err(format!("{what} by {name}: {difference}"));
        }
    }
    Ok(())
}

/// What the lists met.
#[derive(Default)]
struct Tally {
    refused: [u64; 17],
    /// Lists with a 1 as word 5 refused with 13; those refused with 16 where the buffer was too short for 14, and
    /// where the check accepts the words; lists written whose word 5 is like 1: odd, with 1 as its low byte or its
    /// high one; and lists of three to seven words written that have a 1 elsewhere.
    telling: [u64; 5],
    /// Lists written, by their number of blocks.
    written: [u64; 12],
    /// Reads of exactly the bytes written.
    reads: u64,
    /// Reads of more than these, and how many of them were refused.
    more: u64,
    more_refused: u64,
}

/// What is counted of the lists that tell 16 from another answer.
const TELLING: [&str; 5] = [
    "13 before 16",
    "16 before 14",
    "16 for a grammar",
    "word 5 like 1",
    "a 1 elsewhere",
];

impl Tally {
    /// Counts a list that tells 16 from another answer; `refusal` is 0 where it was written.
    fn look_at(&mut self, words: &[u16], room: usize, refusal: u16) {
        let sixth = words.get(5).copied();
        let like_1 = |word: u16| word != 1 && (word % 2 == 1 || word >> 8 == 1);
        let is = [
            refusal == 13 && sixth == Some(1),
            refusal == 16 && room < bytes_for(words.len()),
            refusal == 16 && plain::check(words).is_ok(),
            refusal == 0 && sixth.is_some_and(like_1),
            refusal == 0 && (3..8).contains(&words.len()) && words.contains(&1),
        ];
        for (count, is) in self.telling.iter_mut().zip(is) {
            *count += u64::from(is);
        }
    }

    /// Whether the three refusals were met, every number of blocks, and each list that tells 16.
    fn is_full(&self) -> bool {
        let refused = [13, 14, 16].iter().all(|&number| self.refused[number] > 0);
        refused && !self.written[1..].contains(&0) && !self.telling.contains(&0)
    }

    fn print(&self) {
        let blocks: u64 = (0..)
            .zip(self.written)
            .map(|(size, lists)| size * lists)
            .sum();
        println!(
            "{:>16} {}",
            "lists written",
            self.written.iter().sum::<u64>()
        );
        println!("{:>16} {blocks}", "blocks written");
        for number in [13, 14, 16] {
            let name = format!("refused {number}");
            println!("{name:>16} {}", self.refused[number]);
        }
        for (name, count) in TELLING.iter().zip(self.telling) {
            println!("{name:>16} {count}");
        }
        println!("{:>16} {}", "read back", self.reads);
        println!(
            "{:>16} {}, {} of them refused",
            "more was read", self.more, self.more_refused
        );
        let sizes: Vec<String> = self.written[1..].iter().map(u64::to_string).collect();
        println!("{:>16} {}", "by 1 to 11", sizes.join(", "));
    }
}
