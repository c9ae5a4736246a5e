//! The program of request (iv) that prints a repaired log in marks alone, from the bytes of standard input to its
//! text.

use super::listing::{line, parts_of};
use super::marks::{result, Mark};
use crate::answer::{Refusal, LISTING_EDITS, LISTING_MARKS, LISTING_RULES};

/// What the program prints for the standard input of the printing program.
pub fn mark_lines(input: &[u8]) -> String {
    match lines(input) {
        Err(number) => format!("refused {number}\n"),
        Ok(text) => text,
    }
}

/// A line for each mark of the result, and one for their numbers.
fn lines(input: &[u8]) -> Result<String, Refusal> {
    let (words, tokens, ticks) = parts_of(input)?;
    let mut edits = vec![0; LISTING_EDITS];
    let mut rules = vec![0; LISTING_RULES];
    let (_, result) = result(&words, &tokens, &mut edits, &mut rules, LISTING_MARKS)?;
    let mut text = String::new();
    let mut added = 0;
    for mark in &result {
        match *mark {
            // A mark of the log has its own tick.
            Mark::Kept(place) => {
                let (token, tick) = (tokens[place], ticks[place]);
                line(&mut text, format_args!("keep {token} {tick}"));
            }
            // "Ticks are not made up: added tokens carry none."
            Mark::Added(token) => {
                added += 1;
                line(&mut text, format_args!("add {token}"));
            }
        }
    }
    let all = result.len();
    line(&mut text, format_args!("marks {all} added {added}"));
    Ok(text)
}
