//! The repaired log in marks alone: refusal 15 behind the parse's.
//!
//! Kept tokens are copied a stretch at a time. The string of a nonterminal is spelled out where it first stands in
//! the result, and copied from there whenever it comes again.

use super::parse::{clear_behind, run};
use super::tables::Tables;
use crate::answer::{Marked, Refusal};
use std::ops::Range;

const DELETE: u16 = 1;

/// Runs the parse into the first two lent buffers and writes the result into the third.
pub fn marks(
    tables: &mut Tables,
    words: &[u16],
    tokens: &[u16],
    edits: &mut [u16],
    rules: &mut [u16],
    marks: &mut [u16],
) -> Result<Marked, Refusal> {
    let parsed = tables
        .check(words)
        .and_then(|()| run(tables, tokens, edits, rules));
    let answer = parsed.and_then(|parsed| {
        let records = &edits[..3 * parsed.edits as usize];
        let mut strings = Strings::new(tables, records);
        let mut size = 0;
        walk(tokens.len(), records, |part| size += strings.size(part));
        if size > marks.len() {
            return Err(15);
        }
        let mut at = 0;
        walk(tokens.len(), records, |part| {
            match part {
                Part::Kept(ref places) => {
                    let room = &mut marks[at..at + places.len()];
                    room.copy_from_slice(&tokens[places.clone()]);
                }
                Part::Inserted(symbol) => strings.spell(symbol, marks, at),
            }
            at += strings.size(part);
        });
        let tokens = size as u64;
        Ok(Marked { parsed, tokens })
    });
    clear_behind(&answer.map(|answer| answer.parsed), edits, rules);
    marks[answer.map_or(0, |answer| answer.tokens as usize)..].fill(0);
    answer
}

/// What the repaired log is made of: a stretch of kept tokens, or an inserted symbol.
pub(super) enum Part {
    Kept(Range<usize>),
    Inserted(usize),
}

/// Goes over the repaired log. Edits stand in the order of their places, and an insert behind the deletes before it.
#[inline(always)]
pub(super) fn walk(n: usize, edits: &[u16], mut see: impl FnMut(Part)) {
    let mut place = 0;
    for record in edits.chunks_exact(3) {
        let edited = usize::from(record[1]);
        if place < edited {
            see(Part::Kept(place..edited));
        }
        place = edited;
        if record[0] == DELETE {
            place += 1;
        } else {
            see(Part::Inserted(usize::from(record[2] & 127)));
        }
    }
    if place < n {
        see(Part::Kept(place..n));
    }
}

/// The strings of the nonterminals of a grammar, as far as they were asked for.
pub(super) struct Strings<'a> {
    tables: &'a Tables,
    /// By nonterminal: its cheapest rule.
    rules: [u16; 64],
    /// How many tokens its string has, 0 where that is not known yet.
    sizes: [u32; 64],
    /// Where the string stands in the result, [`NOWHERE`] before it is spelled out.
    places: [u32; 64],
}

const NOWHERE: u32 = u32::MAX;

impl<'a> Strings<'a> {
    /// Nothing is looked up where no nonterminal is inserted.
    pub(super) fn new(tables: &'a Tables, edits: &[u16]) -> Strings<'a> {
        let mut rules = [0; 64];
        if edits.chunks_exact(3).any(|record| record[2] >= 64) {
            tables.cheapest(&mut rules[..tables.nonterminals]);
        }
        Strings {
            tables,
            rules,
            sizes: [0; 64],
            places: [NOWHERE; 64],
        }
    }

    /// How many tokens a part of the repaired log takes.
    #[inline(always)]
    pub(super) fn size(&mut self, part: Part) -> usize {
        match part {
            Part::Kept(places) => places.len(),
            Part::Inserted(symbol) if symbol < 64 => 1,
            Part::Inserted(symbol) => self.size_of(symbol),
        }
    }

    /// How many tokens a nonterminal's string has: none where it costs 0.
    fn size_of(&mut self, symbol: usize) -> usize {
        let k = symbol & 63;
        if self.sizes[k] == 0 && self.tables.empty[symbol & 127] == 0 {
            let mut right = self.right(k).0;
            let mut size = 0;
            while right != 0 {
                size += self.size(Part::Inserted(right as usize & 127)) as u32;
                right >>= 8;
            }
            self.sizes[k] = size;
        }
        self.sizes[k] as usize
    }

    /// The right side of a nonterminal's cheapest rule, packed, and its length.
    fn right(&self, k: usize) -> (u64, u32) {
        let rule = &self.tables.rules[usize::from(self.rules[k]) & 255];
        (rule.right, u32::from(rule.length))
    }

    /// Writes the string of a symbol at a place of the result.
    fn spell(&mut self, symbol: usize, marks: &mut [u16], at: usize) {
        if symbol < 64 {
            marks[at] = symbol as u16;
            return;
        }
        let k = symbol & 63;
        let size = self.size_of(symbol);
        if self.places[k] != NOWHERE {
            let from = self.places[k] as usize;
            marks.copy_within(from..from + size, at);
            return;
        }
        let (right, length) = self.right(k);
        let mut next = at;
        for behind in (0..length).rev() {
            let symbol = (right >> (8 * behind)) as usize & 127;
            let size = self.size(Part::Inserted(symbol));
            if size > 0 {
                self.spell(symbol, marks, next);
                next += size;
            }
        }
        self.places[k] = at as u32;
    }
}
