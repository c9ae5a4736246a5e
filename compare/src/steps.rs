//! The stored calls of the test programs `test_parse` and `test_pace`: steps that set words, tokens
//! and ticks and then call, and for each call the line that the plain implementation answers. Those of
//! the writer stand in [`writing`], those of the desk in [`desk`], those of request (iv) in [`marks`].
//!
//! Both files are made of numbers of two bytes, little endian. `test_parse` has five to a step:
//! 0 PLACE WORD 0 0 sets a word of the grammar, 1 PLACE TOKEN 0 0 a token of the log, and
//! 2 WORDS TOKENS E R parses so many words and tokens with E words for edits and R for rules.
//! `test_pace` has six: 0 PLACE WORD 0 0 0, then 1 PLACE TOKEN LOW HIGH 0, which also sets the tick
//! at that place, and 2 WORDS TOKENS TICKS E R, which asks for the report.

pub mod desk;
pub mod marks;
pub mod writing;

use crate::answer::{Pace, Parsed, Refusal, Report};
use crate::plain;

/// The room of the two programs, in words or tokens.
pub const MOST_WORDS: usize = 2_816;
pub const MOST_TOKENS: usize = 4_352;
pub const MOST_ROOM: usize = 4_096;
/// What every lent word holds before a call.
pub const OLD: u16 = 43_690;

/// The steps and the answers, and what words, tokens and ticks hold after the steps so far.
pub struct Steps {
    pub bytes: Vec<u8>,
    pub answers: String,
    words: Vec<u16>,
    tokens: Vec<u16>,
    ticks: Vec<u32>,
}

impl Default for Steps {
    fn default() -> Steps {
        Steps {
            bytes: Vec::new(),
            answers: String::new(),
            words: vec![0; MOST_WORDS],
            tokens: vec![0; MOST_TOKENS],
            ticks: vec![0; MOST_TOKENS],
        }
    }
}

impl Steps {
    fn step(&mut self, numbers: &[usize]) {
        for &number in numbers {
            let number = u16::try_from(number).expect("a number of two bytes");
            self.bytes.extend(number.to_le_bytes());
        }
    }

    /// A call of the parser, and its answer.
    pub fn parse(&mut self, words: &[u16], tokens: &[u16], edit_room: usize, rule_room: usize) {
        for (place, &word) in words.iter().enumerate() {
            if self.words[place] != word {
                self.words[place] = word;
                self.step(&[0, place, usize::from(word), 0, 0]);
            }
        }
        for (place, &token) in tokens.iter().enumerate() {
            if self.tokens[place] != token {
                self.tokens[place] = token;
                self.step(&[1, place, usize::from(token), 0, 0]);
            }
        }
        assert!(edit_room <= MOST_ROOM && rule_room <= MOST_ROOM);
        self.step(&[2, words.len(), tokens.len(), edit_room, rule_room]);
        let line = parse_line(words, tokens, edit_room, rule_room);
        self.answers.push_str(&line);
    }

    /// A call of the report, and its answer.
    pub fn report(
        &mut self,
        words: &[u16],
        tokens: &[u16],
        ticks: &[u32],
        edit_room: usize,
        rule_room: usize,
    ) {
        for (place, &word) in words.iter().enumerate() {
            if self.words[place] != word {
                self.words[place] = word;
                self.step(&[0, place, usize::from(word), 0, 0, 0]);
            }
        }
        for place in 0..tokens.len().max(ticks.len()) {
            let token = *tokens.get(place).unwrap_or(&self.tokens[place]);
            let tick = *ticks.get(place).unwrap_or(&self.ticks[place]);
            if (self.tokens[place], self.ticks[place]) != (token, tick) {
                (self.tokens[place], self.ticks[place]) = (token, tick);
                let (low, high) = (tick as usize & 65_535, tick as usize >> 16);
                self.step(&[1, place, usize::from(token), low, high, 0]);
            }
        }
        assert!(edit_room <= MOST_ROOM && rule_room <= MOST_ROOM);
        let sizes = [words.len(), tokens.len(), ticks.len()];
        self.step(&[2, sizes[0], sizes[1], sizes[2], edit_room, rule_room]);
        let line = report_line(words, tokens, ticks, edit_room, rule_room);
        self.answers.push_str(&line);
    }
}

/// The line of a parse: the counts or the refusal, and a digest of each buffer.
pub fn parse_line(words: &[u16], tokens: &[u16], edit_room: usize, rule_room: usize) -> String {
    let (mut edits, mut rules) = (vec![OLD; edit_room], vec![OLD; rule_room]);
    let answer = plain::parse(words, tokens, &mut edits, &mut rules);
    let told = |Parsed {
                    moves,
                    edits,
                    rules,
                }| format!("moves {moves} edits {edits} rules {rules}");
    line(answer.map(told), &edits, &rules)
}

/// The line of a report: cycles, sum and the 64 bits of the mean, or the refusal, and a digest of
/// each buffer.
pub fn report_line(
    words: &[u16],
    tokens: &[u16],
    ticks: &[u32],
    edit_room: usize,
    rule_room: usize,
) -> String {
    let (mut edits, mut rules) = (vec![OLD; edit_room], vec![OLD; rule_room]);
    let answer = plain::report(words, tokens, ticks, &mut edits, &mut rules);
    let told = |Report { cycles, ms, pace }| match pace {
        Pace::Idle => format!("cycles {cycles} ms {ms} idle"),
        Pace::Mean(mean) => format!("cycles {cycles} ms {ms} mean {}", mean.to_bits()),
    };
    line(answer.map(told), &edits, &rules)
}

fn line(answer: Result<String, Refusal>, edits: &[u16], rules: &[u16]) -> String {
    let answer = answer.unwrap_or_else(|refusal| format!("refused {refusal}"));
    format!("{answer} digests {} {}\n", digest(edits), digest(rules))
}

/// One number for words or bytes: 0 where all are zero.
pub fn digest<T: Copy + Into<u64>>(cells: &[T]) -> u64 {
    cells
        .iter()
        .fold(0, |sum, &cell| (sum * 65_599 + cell.into()) % 4_294_967_291)
}
