//! What an implementation of document 01, and of requests (i) to (iv), (vi) and (viii) of document 02, answers,
//! besides the buffers it was lent.

/// A refusal number: 1 to 12 of the table, 13 and 14 of request (i), 23 of request (iii), 15 of request (iv), 16 of
/// request (viii).
pub type Refusal = u16;

/// Longest log: "over 4,096 tokens" is refusal 10.
pub const MOST_TOKENS: usize = 4_096;
/// "The program lends 2,783 words for the grammar, 24,576 for edits and 16,384 for rules."
pub const LISTING_WORDS: usize = 2_783;
pub const LISTING_EDITS: usize = 24_576;
pub const LISTING_RULES: usize = 16_384;
/// `print_marks` lends as many, and 65,536 words for the tokens of the result.
pub const LISTING_MARKS: usize = 65_536;

/// The most words that are written: "more than 2,783" is refusal 13.
pub const MOST_WORDS: usize = 2_783;
/// The most bytes of a file: "over 5,632 bytes" is refusal 1. `write_grammar` has a buffer of as many.
pub const LONGEST_FILE: usize = 5_632;

/// The counts of a parse that was not refused.
#[derive(Clone, Copy, Debug, PartialEq, Eq)]
pub struct Parsed {
    /// "Every match, expand, drop, delete and insert counts one move."
    pub moves: u64,
    /// Edit records written, three words each.
    pub edits: u64,
    /// Rule numbers written.
    pub rules: u64,
}

/// The counts of a repaired log in marks alone that was not refused.
#[derive(Clone, Copy, Debug, PartialEq, Eq)]
pub struct Marked {
    /// The counts of the parse that was run for it.
    pub parsed: Parsed,
    /// Tokens of the result, kept and added.
    pub tokens: u64,
}

/// "idle when the count is 0, else the mean in ms as an f64"
#[derive(Clone, Copy, Debug)]
pub enum Pace {
    Idle,
    Mean(f64),
}

/// Means are the same when they are the same 64 bits.
impl PartialEq for Pace {
    fn eq(&self, other: &Pace) -> bool {
        match (self, other) {
            (Pace::Idle, Pace::Idle) => true,
            (Pace::Mean(a), Pace::Mean(b)) => a.to_bits() == b.to_bits(),
            _ => false,
        }
    }
}

/// "The report holds the count of clean cycles, the sum of their times in ms, and a pace."
#[derive(Clone, Copy, Debug, PartialEq)]
pub struct Report {
    pub cycles: u64,
    pub ms: u64,
    pub pace: Pace,
}

/// One implementation of these documents. Another one, behind a C interface say, joins the
/// comparison and the benchmark by implementing this trait.
pub trait Implementation {
    /// The name that heads its column.
    fn name(&self) -> &'static str;

    /// Reads a grammar file: its words into `words`, their number as the answer.
    fn read(&self, file: &[u8], words: &mut [u16]) -> Result<usize, Refusal>;

    /// Writes the grammar file of any words but those of unit 1 into `bytes`, the number of its bytes as the
    /// answer; refusals 13, 16 and 14.
    fn write(&self, words: &[u16], bytes: &mut [u8]) -> Result<usize, Refusal>;

    /// Checks grammar words, refusals 5 to 9.
    fn check(&self, words: &[u16]) -> Result<(), Refusal>;

    /// Gives the setup desk the cost and the cheapest rule of each nonterminal of unchecked words, the
    /// number of nonterminals as the answer; refusals 5 to 9 and 23.
    fn costs(&self, words: &[u16], costs: &mut [u16], rules: &mut [u16]) -> Result<usize, Refusal>;

    /// Parses a log, refusals 5 to 12.
    fn parse(
        &self,
        words: &[u16],
        tokens: &[u16],
        edits: &mut [u16],
        rules: &mut [u16],
    ) -> Result<Parsed, Refusal>;

    /// Runs the parse and writes the repaired log in marks alone into `marks`, refusals 5 to 12 and 15.
    fn marks(
        &self,
        words: &[u16],
        tokens: &[u16],
        edits: &mut [u16],
        rules: &mut [u16],
        marks: &mut [u16],
    ) -> Result<Marked, Refusal>;

    /// Runs the parse and reports the pace, refusals 5 to 12, with 16 between 10 and 11.
    fn report(
        &self,
        words: &[u16],
        tokens: &[u16],
        ticks: &[u32],
        edits: &mut [u16],
        rules: &mut [u16],
    ) -> Result<Report, Refusal>;
}

/// An implementation that also has the printing programs.
pub trait Prints: Implementation {
    /// Standard input to the text that the printing program prints.
    fn listing(&self, input: &[u8]) -> String;

    /// The same standard input to the text that `print_marks` prints.
    fn mark_lines(&self, input: &[u8]) -> String;

    /// Whether [`Prints::mark_lines`] can be asked.
    fn has_mark_lines(&self) -> bool {
        true
    }
}
