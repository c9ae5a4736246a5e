//! Writes calls of the writer and what the plain implementation answers: `make_writes SEED COUNT FOLDER`.
//!
//! `steps.bin` holds the steps, as `compare::steps::writing` says, and `answers.txt` the lines of each
//! call. The examples of request (i) come first, in its order, and those of request (viii); then lists and rooms at
//! every edge; then COUNT seeded ones.

use compare::examples::{units, writing};
use compare::generate::{Input, Source};
use compare::steps::writing::{Writes, MOST_BYTES};
use compare::steps::MOST_WORDS;
use compare::telling::lists;
use std::path::PathBuf;
use std::{env, fs, io, process};

/// A list that would set more words is left to the comparison itself.
const MOST_CHANGES: usize = 900;

fn main() -> io::Result<()> {
    let arguments: Vec<String> = env::args().skip(1).collect();
    let numbers = |at: usize| arguments.get(at).and_then(|text| text.parse::<u64>().ok());
    let (Some(seed), Some(count), Some(folder)) = (numbers(0), numbers(1), arguments.get(2)) else {
        eprintln!("usage: make_writes SEED COUNT FOLDER");
        process::exit(2);
    };
    let mut writes = Writes::default();
    for example in writing::all().into_iter().chain(units::writings()) {
        writes.write(&example.words, example.room);
    }
    for (words, room) in lists::writes().into_iter().chain(lists::telling_sums()) {
        writes.write(&words, room);
    }
    let source = Source::new(seed);
    let mut taken = 0;
    for index in 0.. {
        if taken == count {
            break;
        }
        let Input::Write { words, bytes } = source.write(index) else {
            continue;
        };
        let fits = words.len() <= MOST_WORDS && bytes.len() <= MOST_BYTES;
        if fits && writes.changes(&words) <= MOST_CHANGES {
            writes.write(&words, bytes.len());
            taken += 1;
        }
    }
    let folder = PathBuf::from(folder);
    fs::create_dir_all(&folder)?;
    fs::write(folder.join("steps.bin"), &writes.bytes)?;
    fs::write(folder.join("answers.txt"), &writes.answers)?;
    println!(
        "{} bytes of steps, {} calls",
        writes.bytes.len(),
        writes.calls
    );
    Ok(())
}
