//! Request (iv) of document 02, "A repaired log in marks alone": the repaired log with no nonterminal in it, and
//! refusal 15.

use super::check::check;
use super::grammar::{is_nonterminal, Grammar};
use super::parse::{parse, Edit, DELETE};
use super::sets::Sets;
use crate::answer::{Marked, Parsed, Refusal};
use std::collections::BTreeMap;

/// A mark of the result: a token of the log, by its place, or a token that was missing. "Ticks are not made up:
/// added tokens carry none."
#[derive(Clone, Copy, Debug, PartialEq, Eq)]
pub enum Mark {
    Kept(usize),
    Added(u16),
}

/// Runs the parse, fills the edit and the rule buffer as it does, and the token buffer with the result.
pub fn marks(
    words: &[u16],
    tokens: &[u16],
    edits: &mut [u16],
    rules: &mut [u16],
    marks: &mut [u16],
) -> Result<Marked, Refusal> {
    // "Words of the token buffer behind the result become zero", and after a refusal all words.
    marks.fill(0);
    let (parsed, result) = result(words, tokens, edits, rules, marks.len())?;
    for (word, mark) in marks.iter_mut().zip(&result) {
        *word = match *mark {
            Mark::Kept(place) => tokens[place],
            Mark::Added(token) => token,
        };
    }
    Ok(Marked {
        parsed,
        tokens: result.len() as u64,
    })
}

/// The counts of the parse and the marks of the result, of which there may be at most `most`.
pub fn result(
    words: &[u16],
    tokens: &[u16],
    edits: &mut [u16],
    rules: &mut [u16],
    most: usize,
) -> Result<(Parsed, Vec<Mark>), Refusal> {
    // "It runs the parse itself, so 01's refusals come first."
    let parsed = parse(words, tokens, edits, rules)?;
    let (grammar, sets) = check(words)?;
    let parts = repaired(tokens, &records(&parsed, edits));
    let strings = strings(&grammar, &sets, &parts);
    // "15 when the token buffer is too short for the full result, leaving every output buffer all zeros"
    if size(&parts, &strings) > most as u64 {
        edits.fill(0);
        rules.fill(0);
        return Err(15);
    }
    let mut result = Vec::new();
    for part in parts {
        match part {
            Part::Kept(place) => result.push(Mark::Kept(place)),
            Part::Inserted(symbol) => {
                result.extend(strings[&symbol].iter().map(|&token| Mark::Added(token)));
            }
        }
    }
    Ok((parsed, result))
}

/// The counts of a parse with long buffers and the tokens of its result, or the refusal. For the generators, which
/// lend buffers around these numbers; a result may be too long to be made.
pub fn needed_marks(words: &[u16], tokens: &[u16], long: usize) -> Result<Marked, Refusal> {
    let (mut edits, mut rules) = (vec![0; long], vec![0; long]);
    let parsed = parse(words, tokens, &mut edits, &mut rules)?;
    let (grammar, sets) = check(words)?;
    let parts = repaired(tokens, &records(&parsed, &edits));
    let tokens = size(&parts, &strings(&grammar, &sets, &parts));
    Ok(Marked { parsed, tokens })
}

/// The records that a parse has written.
fn records(parsed: &Parsed, edits: &[u16]) -> Vec<Edit> {
    let records = edits.chunks(3).take(parsed.edits as usize);
    let edit = |record: &[u16]| Edit {
        kind: record[0],
        place: record[1],
        symbol: record[2],
    };
    records.map(edit).collect()
}

/// A symbol of the repaired log: a token of the log, by its place, or an inserted symbol.
#[derive(Clone, Copy)]
enum Part {
    Kept(usize),
    Inserted(u16),
}

/// "The repaired log is the log without deleted tokens and with inserted symbols put before place r."
fn repaired(tokens: &[u16], edits: &[Edit]) -> Vec<Part> {
    let mut kept = vec![true; tokens.len()];
    // What stands before each place, END's last, in move order.
    let mut before = vec![Vec::new(); tokens.len() + 1];
    for edit in edits {
        let place = usize::from(edit.place);
        if edit.kind == DELETE {
            kept[place] = false;
        } else {
            before[place].push(edit.symbol);
        }
    }
    let mut parts = Vec::new();
    for (place, symbols) in before.iter().enumerate() {
        parts.extend(symbols.iter().map(|&symbol| Part::Inserted(symbol)));
        if place < tokens.len() && kept[place] {
            parts.push(Part::Kept(place));
        }
    }
    parts
}

/// The string of each symbol that is inserted somewhere.
fn strings(grammar: &Grammar, sets: &Sets, parts: &[Part]) -> BTreeMap<u16, Vec<u16>> {
    let mut strings = BTreeMap::new();
    for part in parts {
        if let Part::Inserted(symbol) = *part {
            let string = || string(grammar, sets, symbol);
            strings.entry(symbol).or_insert_with(string);
        }
    }
    strings
}

/// "The string its cheapest rules give": a terminal stands for itself, and a nonterminal for what the right side of
/// its cheapest rule gives.
fn string(grammar: &Grammar, sets: &Sets, symbol: u16) -> Vec<u16> {
    if !is_nonterminal(symbol) {
        return vec![symbol];
    }
    let k = usize::from(symbol - 64);
    // What costs 0 gives no token, since each costs something. Its rules are not followed: they may have more
    // leaves, all of them empty, than can be counted.
    if sets.cost[k] == Some(0) {
        return Vec::new();
    }
    let rule = sets.cheapest[k].expect("some rule reaches each cost");
    let right = grammar.rules[rule].right.iter();
    right
        .flat_map(|&symbol| string(grammar, sets, symbol))
        .collect()
}

/// How many tokens the full result has.
fn size(parts: &[Part], strings: &BTreeMap<u16, Vec<u16>>) -> u64 {
    let sizes = parts.iter().map(|part| match part {
        Part::Kept(_) => 1,
        Part::Inserted(symbol) => strings[symbol].len() as u64,
    });
    sizes.sum()
}
