//! Writes calls of the desk and what the plain implementation answers: `make_desks SEED COUNT FOLDER`.
//!
//! `steps.bin` holds the steps, as `compare::steps::desk` says, and `answers.txt` a line for each call. The
//! examples of request (iii) come first, each in buffers around N words; then COUNT seeded calls; then those
//! that are shaped to tell wrong readings apart; then a quarter as many grammars of request (v), and as many seeded
//! ones with the header of seven words.

use compare::examples::cheapest;
use compare::generate::{chains, Header, Input, Random, Source};
use compare::steps::desk::{Desks, MOST_ROOM, MOST_WORDS};
use compare::telling::desks;
use std::path::PathBuf;
use std::{env, fs, io, process};

/// A call that would set more words is left to the comparison itself.
const MOST_CHANGES: usize = 120;

fn main() -> io::Result<()> {
    let arguments: Vec<String> = env::args().skip(1).collect();
    let numbers = |at: usize| arguments.get(at).and_then(|text| text.parse::<u64>().ok());
    let (Some(seed), Some(count), Some(folder)) = (numbers(0), numbers(1), arguments.get(2)) else {
        eprintln!("usage: make_desks SEED COUNT FOLDER");
        process::exit(2);
    };
    let mut calls = Desks::default();
    let mut last = Vec::new();
    for example in cheapest::all() {
        // An example may stand there several times, in other buffers.
        if example.words != last {
            for (costs, rules) in rooms(usize::from(example.words[1])) {
                calls.costs(&example.words, costs, rules);
            }
        }
        last = example.words;
    }
    let source = Source::new(seed);
    seeded(&mut calls, &source, Header::Six, count);
    for (words, costs, rules) in desks::costs() {
        calls.costs(&words, costs, rules);
    }
    chained(&mut calls, seed, count / 4);
    seeded(&mut calls, &source, Header::Seven, count / 4);
    let folder = PathBuf::from(folder);
    fs::create_dir_all(&folder)?;
    fs::write(folder.join("steps.bin"), &calls.bytes)?;
    fs::write(folder.join("answers.txt"), &calls.answers)?;
    println!(
        "{} bytes of steps, {} calls",
        calls.bytes.len(),
        calls.answers.lines().count()
    );
    Ok(())
}

/// The pairs of lengths that tell something of N nonterminals: both as short as can be or longer by one or
/// more, one of them just as long, and either or both of them too short.
fn rooms(n: usize) -> [(usize, usize); 10] {
    let (less, more, ample) = (n - 1, n + 1, n.max(64));
    [
        (n, n),
        (more, more),
        (n, ample),
        (ample, n),
        (ample, ample),
        (less, less),
        (less, n),
        (n, less),
        (less, ample),
        (ample, less),
    ]
}

/// So many grammars of request (v), none of them with many words.
fn chained(calls: &mut Desks, seed: u64, count: u64) {
    let mut random = Random::new(seed);
    for _ in 0..count {
        let words = loop {
            let words = chains::any(&mut random).words();
            if calls.changes(&words) <= 2 * MOST_CHANGES {
                break words;
            }
        };
        let n = usize::from(words[1]);
        calls.costs(&words, n, n + 2);
    }
}

/// So many calls of a source, with this header.
fn seeded(calls: &mut Desks, source: &Source, header: Header, count: u64) {
    let mut taken = 0;
    for index in 0.. {
        if taken == count {
            break;
        }
        let Input::Costs {
            words,
            costs,
            rules,
        } = source.unchained_desk(index, header)
        else {
            continue;
        };
        let fits = words.len() <= MOST_WORDS && costs.len().max(rules.len()) <= MOST_ROOM;
        if fits && calls.changes(&words) <= MOST_CHANGES {
            calls.costs(&words, costs.len(), rules.len());
            taken += 1;
        }
    }
}
