//! The lines of a repaired log in marks alone, over the tuned parts.

use super::listing::parts_of;
use super::marks::{marks, walk, Part, Strings};
use super::tables::Tables;
use crate::answer::{Refusal, LISTING_EDITS, LISTING_MARKS, LISTING_RULES};
use std::fmt::Write;

/// What the program prints for its standard input.
pub fn mark_lines(tables: &mut Tables, input: &[u8]) -> String {
    answer(tables, input).unwrap_or_else(|number| format!("refused {number}\n"))
}

fn answer(tables: &mut Tables, input: &[u8]) -> Result<String, Refusal> {
    let (words, tokens, ticks) = parts_of(tables, input)?;
    let mut edits = vec![0; LISTING_EDITS];
    let mut rules = vec![0; LISTING_RULES];
    let mut result = vec![0; LISTING_MARKS];
    let marked = marks(tables, &words, &tokens, &mut edits, &mut rules, &mut result)?;
    let edits = &edits[..3 * marked.parsed.edits as usize];
    let mut strings = Strings::new(tables, edits);
    let (mut text, mut at, mut added) = (String::new(), 0, 0);
    walk(tokens.len(), edits, |part| {
        if let Part::Kept(places) = part {
            at += places.len();
            for (token, tick) in tokens[places.clone()].iter().zip(&ticks[places]) {
                let _ = writeln!(text, "keep {token} {tick}");
            }
        } else {
            let size = strings.size(part);
            for token in &result[at..at + size] {
                let _ = writeln!(text, "add {token}");
            }
            at += size;
            added += size;
        }
    });
    let _ = writeln!(text, "marks {at} added {added}");
    Ok(text)
}
