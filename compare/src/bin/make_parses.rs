//! Writes calls of the parser and what the plain implementation answers: `make_parses SEED COUNT
//! FOLDER`.
//!
//! `steps.bin` holds the steps, as `compare::steps` says, and `answers.txt` a line for each parse.
//! The bench examples come first, each in buffers of every length up to what it needs and a little
//! more; then COUNT seeded calls; then those that are shaped to tell wrong readings apart; then a quarter as many
//! seeded ones with the header of seven words.

use compare::generate::{Header, Input, Source};
use compare::steps::{Steps, MOST_ROOM};
use compare::{examples, telling};
use std::path::PathBuf;
use std::{env, fs, io, process};

/// Longer words and logs are left to the comparison itself.
const MOST_WORDS: usize = 300;
const MOST_TOKENS: usize = 60;

fn main() -> io::Result<()> {
    let arguments: Vec<String> = env::args().skip(1).collect();
    let numbers = |at: usize| arguments.get(at).and_then(|text| text.parse::<u64>().ok());
    let (Some(seed), Some(count), Some(folder)) = (numbers(0), numbers(1), arguments.get(2)) else {
        eprintln!("usage: make_parses SEED COUNT FOLDER");
        process::exit(2);
    };
    let mut steps = Steps::default();
    for example in examples::all() {
        let (edits, rules) = match &example.lists {
            Ok(lists) => (3 * lists.edits.len(), lists.rules.len()),
            // Room enough to come to the refusal.
            Err(_) => (0, 300),
        };
        for room in 0..=edits + 4 {
            steps.parse(&example.words, &example.tokens, room, rules + 1);
        }
        for room in (0..=rules + 2).rev().take(12) {
            steps.parse(&example.words, &example.tokens, edits + 1, room);
        }
    }
    let source = Source::new(seed);
    seeded(&mut steps, &source, Header::Six, count);
    for call in telling::parses() {
        steps.parse(&call.words, &call.tokens, call.edit_room, call.rule_room);
    }
    seeded(&mut steps, &source, Header::Seven, count / 4);
    let folder = PathBuf::from(folder);
    fs::create_dir_all(&folder)?;
    fs::write(folder.join("steps.bin"), &steps.bytes)?;
    fs::write(folder.join("answers.txt"), &steps.answers)?;
    println!(
        "{} bytes of steps, {} parses",
        steps.bytes.len(),
        steps.answers.lines().count()
    );
    Ok(())
}

/// So many calls of a source, with this header.
fn seeded(steps: &mut Steps, source: &Source, header: Header, count: u64) {
    let mut taken = 0;
    for index in 0.. {
        if taken == count {
            break;
        }
        let Input::Parse {
            words,
            tokens,
            edits,
            rules,
        } = source.unchained(index, header)
        else {
            continue;
        };
        let small = words.len() <= MOST_WORDS && tokens.len() <= MOST_TOKENS;
        if small && edits.len() <= MOST_ROOM && rules.len() <= MOST_ROOM {
            steps.parse(&words, &tokens, edits.len(), rules.len());
            taken += 1;
        }
    }
}
