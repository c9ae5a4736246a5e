//! The plain implementation of document 01 and of requests (i) to (iv), (vi) and (viii) of document 02. It is meant
//! to be read beside the documents: sets are textbook fixpoints, the stack is inspected literally, and comments
//! in quotes are the documents' own words. Nothing here is made for speed.

mod check;
mod desk;
mod grammar;
mod listing;
mod mark_lines;
mod marks;
mod pace;
mod parse;
mod reader;
mod sets;
mod text;
mod writer;

pub use check::check;
pub use desk::costs;
pub use grammar::{Grammar, Rule, END, START};
pub use listing::listing;
pub use mark_lines::mark_lines;
pub use marks::{marks, needed_marks};
pub use pace::report;
pub use parse::{needed, parse};
pub use reader::read;
pub use sets::{Sets, TerminalSet};
pub use text::{words_of_text, write_grammar};
pub use writer::{blocks, write};

use crate::answer::{Implementation, Marked, Parsed, Prints, Refusal, Report};

/// The plain implementation as a column of the comparison.
pub struct Plain;

impl Implementation for Plain {
    fn name(&self) -> &'static str {
        "plain"
    }

    fn read(&self, file: &[u8], words: &mut [u16]) -> Result<usize, Refusal> {
        read(file, words)
    }

    fn write(&self, words: &[u16], bytes: &mut [u8]) -> Result<usize, Refusal> {
        write(words, bytes)
    }

    fn check(&self, words: &[u16]) -> Result<(), Refusal> {
        check(words).map(|_| ())
    }

    fn costs(&self, words: &[u16], costs: &mut [u16], rules: &mut [u16]) -> Result<usize, Refusal> {
        desk::costs(words, costs, rules)
    }

    fn parse(
        &self,
        words: &[u16],
        tokens: &[u16],
        edits: &mut [u16],
        rules: &mut [u16],
    ) -> Result<Parsed, Refusal> {
        parse(words, tokens, edits, rules)
    }

    fn marks(
        &self,
        words: &[u16],
        tokens: &[u16],
        edits: &mut [u16],
        rules: &mut [u16],
        marks: &mut [u16],
    ) -> Result<Marked, Refusal> {
        marks::marks(words, tokens, edits, rules, marks)
    }

    fn report(
        &self,
        words: &[u16],
        tokens: &[u16],
        ticks: &[u32],
        edits: &mut [u16],
        rules: &mut [u16],
    ) -> Result<Report, Refusal> {
        report(words, tokens, ticks, edits, rules)
    }
}

impl Prints for Plain {
    fn listing(&self, input: &[u8]) -> String {
        listing(input)
    }

    fn mark_lines(&self, input: &[u8]) -> String {
        mark_lines(input)
    }
}
