//! Writes calls for request (iv) and what the plain implementation answers: `make_marks SEED COUNT FOLDER`.
//!
//! `steps.bin` holds the steps, as `compare::steps::marks` says, and `answers.txt` a line for each call. The
//! examples come first, each in edit, rule and token buffers of every length around what it needs; then COUNT seeded
//! calls; then those that are shaped to tell wrong readings apart; then a quarter as many seeded ones with the header
//! of seven words.

use compare::examples;
use compare::generate::{Header, Input, Source};
use compare::steps::marks::{fits, Marks};
use compare::telling::marks;
use std::path::PathBuf;
use std::{env, fs, io, process};

/// A call that would set more words and tokens, or has a longer token buffer, is left to the comparison itself.
const MOST_CHANGES: usize = 200;
const MOST_ROOM: usize = 1_500;
/// How often a refusal may be given by the calls taken: at most one in so many.
const SHARE: u64 = 12;

fn main() -> io::Result<()> {
    let arguments: Vec<String> = env::args().skip(1).collect();
    let numbers = |at: usize| arguments.get(at).and_then(|text| text.parse::<u64>().ok());
    let (Some(seed), Some(count), Some(folder)) = (numbers(0), numbers(1), arguments.get(2)) else {
        eprintln!("usage: make_marks SEED COUNT FOLDER");
        process::exit(2);
    };
    let mut calls = Marks::default();
    for example in examples::marks::all() {
        for rooms in rooms(&example) {
            calls.marks(&example.words, &example.tokens, rooms);
        }
    }
    let source = Source::new(seed);
    seeded(&mut calls, &source, Header::Six, count);
    for (words, tokens, rooms) in marks::calls() {
        calls.marks(&words, &tokens, rooms);
    }
    seeded(&mut calls, &source, Header::Seven, count / 4);
    let folder = PathBuf::from(folder);
    fs::create_dir_all(&folder)?;
    fs::write(folder.join("steps.bin"), &calls.bytes)?;
    fs::write(folder.join("answers.txt"), &calls.answers)?;
    println!(
        "{} bytes of steps, {} calls",
        calls.bytes.len(),
        calls.answers.lines().count()
    );
    Ok(())
}

/// The lengths of the three buffers that tell something of an example: each of them around what is needed, the
/// others a little longer; all of them just as long; and its own.
fn rooms(example: &examples::marks::Marks) -> Vec<[usize; 3]> {
    let needed = match &example.answer {
        Ok(given) => [3 * given.edits.len(), given.rules.len(), given.marks.len()],
        // Room enough to come to the refusal.
        Err(_) => [0, 300, 4],
    };
    let mut list = vec![
        [example.edit_room, example.rule_room, example.mark_room],
        needed,
    ];
    for at in 0..3 {
        for room in (0..=needed[at] + 2).rev().take(9) {
            let mut rooms = [needed[0] + 3, needed[1] + 1, needed[2] + 1];
            rooms[at] = room;
            list.push(rooms);
        }
    }
    list
}

/// So many calls of a source, with this header.
fn seeded(calls: &mut Marks, source: &Source, header: Header, count: u64) {
    let mut taken = 0;
    let mut given = [0; 16];
    for index in 0.. {
        if taken == count {
            break;
        }
        let Input::Marks {
            words,
            tokens,
            edits,
            rules,
            marks,
        } = source.marks_with(index, header)
        else {
            continue;
        };
        let rooms = [edits.len(), rules.len(), marks.len()];
        let small = marks.len() <= MOST_ROOM && calls.changes(&words, &tokens) <= MOST_CHANGES;
        if !small || !fits(&words, &tokens, rooms) {
            continue;
        }
        let line = compare::steps::marks::marks_line(&words, &tokens, rooms);
        let refusal = line.strip_prefix("refused ").map_or(0, |rest| {
            let number = rest.split(' ').next().unwrap_or_default();
            number.parse().expect("a refusal number")
        });
        if refusal == 0 || given[refusal] < count / SHARE {
            calls.marks(&words, &tokens, rooms);
            given[refusal] += 1;
            taken += 1;
        }
    }
}
