//! Writes calls of the report and what the plain implementation answers: `make_reports SEED COUNT
//! FOLDER`.
//!
//! `steps.bin` holds the steps, as `compare::steps` says, and `answers.txt` a line for each report.
//! The bench examples come first, each in buffers of lengths around what it needs, and the calls among the examples of
//! request (viii); then COUNT seeded calls; then those that are shaped to tell wrong readings apart; then a quarter as
//! many seeded ones with the header of seven words.

use compare::generate::{Header, Input, Source};
use compare::steps::{Steps, MOST_ROOM};
use compare::{examples, telling};
use std::path::PathBuf;
use std::{env, fs, io, process};

/// Longer words and logs are left to the comparison itself.
const MOST_WORDS: usize = 300;
const MOST_TOKENS: usize = 60;

fn main() -> io::Result<()> {
    let arguments: Vec<String> = env::args().skip(1).collect();
    let numbers = |at: usize| arguments.get(at).and_then(|text| text.parse::<u64>().ok());
    let (Some(seed), Some(count), Some(folder)) = (numbers(0), numbers(1), arguments.get(2)) else {
        eprintln!("usage: make_reports SEED COUNT FOLDER");
        process::exit(2);
    };
    let mut steps = Steps::default();
    for example in examples::all() {
        let (words, tokens, ticks) = (&example.words, &example.tokens, &example.ticks);
        let (edits, rules) = match &example.lists {
            Ok(lists) => (3 * lists.edits.len(), lists.rules.len()),
            // Room enough to come to the refusal.
            Err(_) => (0, 300),
        };
        for room in (0..=edits + 4).rev().take(8) {
            steps.report(words, tokens, ticks, room, rules + 2);
        }
        for room in (0..=rules + 2).rev().take(4) {
            steps.report(words, tokens, ticks, edits + 2, room);
        }
    }
    for call in examples::units::reports() {
        let [edits, rules] = call.rooms;
        steps.report(&call.words, &call.tokens, &call.ticks, edits, rules);
    }
    let source = Source::new(seed);
    seeded(&mut steps, &source, Header::Six, count);
    for call in telling::reports() {
        let (words, tokens, ticks) = (&call.words, &call.tokens, &call.ticks);
        steps.report(words, tokens, ticks, call.edit_room, call.rule_room);
    }
    seeded(&mut steps, &source, Header::Seven, count / 4);
    let folder = PathBuf::from(folder);
    fs::create_dir_all(&folder)?;
    fs::write(folder.join("steps.bin"), &steps.bytes)?;
    fs::write(folder.join("answers.txt"), &steps.answers)?;
    println!(
        "{} bytes of steps, {} reports",
        steps.bytes.len(),
        steps.answers.lines().count()
    );
    Ok(())
}

/// So many calls of a source, with this header.
fn seeded(steps: &mut Steps, source: &Source, header: Header, count: u64) {
    let mut taken = 0;
    for index in 0.. {
        if taken == count {
            break;
        }
        let Input::Report {
            words,
            tokens,
            ticks,
            edits,
            rules,
        } = source.unchained(index, header)
        else {
            continue;
        };
        let small = words.len() <= MOST_WORDS && tokens.len() <= MOST_TOKENS;
        if small && edits.len() <= MOST_ROOM && rules.len() <= MOST_ROOM {
            steps.report(&words, &tokens, &ticks, edits.len(), rules.len());
            taken += 1;
        }
    }
}
