//! A second implementation of the same rules, made for speed: sets are u64 masks, rules are
//! packed into one word each, and moves that always follow each other are made at once.
//!
//! The tables stand in a [`Tables`] that the caller keeps, so that nothing is allocated and
//! nothing large is cleared for a call. Every entry that a call reads was written by it.

mod desk;
mod entries;
mod listing;
mod mark_lines;
mod marks;
mod pace;
mod parse;
mod reader;
mod repair;
mod shape;
mod stack;
mod tables;
mod writer;

pub use desk::costs;
pub use listing::listing;
pub use mark_lines::mark_lines;
pub use marks::marks;
pub use pace::report;
pub use parse::parse;
pub use reader::read;
pub use tables::Tables;
pub use writer::write;

use crate::answer::{Implementation, Marked, Parsed, Prints, Refusal, Report};
use std::cell::RefCell;

/// The tuned implementation as a column of the comparison, with the tables it keeps.
#[derive(Default)]
pub struct Tuned {
    tables: RefCell<Box<Tables>>,
}

impl Implementation for Tuned {
    fn name(&self) -> &'static str {
        "tuned"
    }

    fn read(&self, file: &[u8], words: &mut [u16]) -> Result<usize, Refusal> {
        read(file, words)
    }

    fn write(&self, words: &[u16], bytes: &mut [u8]) -> Result<usize, Refusal> {
        write(words, bytes)
    }

    fn check(&self, words: &[u16]) -> Result<(), Refusal> {
        self.tables.borrow_mut().check(words)
    }

    fn costs(&self, words: &[u16], costs: &mut [u16], rules: &mut [u16]) -> Result<usize, Refusal> {
        desk::costs(&mut self.tables.borrow_mut(), words, costs, rules)
    }

    fn parse(
        &self,
        words: &[u16],
        tokens: &[u16],
        edits: &mut [u16],
        rules: &mut [u16],
    ) -> Result<Parsed, Refusal> {
        parse(&mut self.tables.borrow_mut(), words, tokens, edits, rules)
    }

    fn marks(
        &self,
        words: &[u16],
        tokens: &[u16],
        edits: &mut [u16],
        rules: &mut [u16],
        marks: &mut [u16],
    ) -> Result<Marked, Refusal> {
        let tables = &mut self.tables.borrow_mut();
        marks::marks(tables, words, tokens, edits, rules, marks)
    }

    fn report(
        &self,
        words: &[u16],
        tokens: &[u16],
        ticks: &[u32],
        edits: &mut [u16],
        rules: &mut [u16],
    ) -> Result<Report, Refusal> {
        report(
            &mut self.tables.borrow_mut(),
            words,
            tokens,
            ticks,
            edits,
            rules,
        )
    }
}

impl Prints for Tuned {
    fn listing(&self, input: &[u8]) -> String {
        listing(&mut self.tables.borrow_mut(), input)
    }

    fn mark_lines(&self, input: &[u8]) -> String {
        mark_lines(&mut self.tables.borrow_mut(), input)
    }
}
