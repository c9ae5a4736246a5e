//! The stored calls of `test_marks`: numbers of two bytes, little endian, six to a step. 0 PLACE WORD 0 0 0 sets a
//! word of the grammar, 1 PLACE TOKEN 0 0 0 a token of the log, at first all are 0, and 2 WORDS TOKENS E R M asks for
//! the marks of so many words and tokens, with E words for edits, R for rules and M for the result.

use super::{digest, MOST_ROOM, MOST_TOKENS, MOST_WORDS, OLD};
use crate::answer::{Marked, Parsed};
use crate::plain;

/// The room of `test_marks` for the result; for the rest it has as much as `test_parse`.
pub const MOST_MARKS: usize = 65_535;

/// The steps and the answers, and what words and tokens hold after the steps so far.
pub struct Marks {
    pub bytes: Vec<u8>,
    pub answers: String,
    words: Vec<u16>,
    tokens: Vec<u16>,
}

impl Default for Marks {
    fn default() -> Marks {
        Marks {
            bytes: Vec::new(),
            answers: String::new(),
            words: vec![0; MOST_WORDS],
            tokens: vec![0; MOST_TOKENS],
        }
    }
}

impl Marks {
    fn step(&mut self, numbers: [usize; 6]) {
        for number in numbers {
            let number = u16::try_from(number).expect("a number of two bytes");
            self.bytes.extend(number.to_le_bytes());
        }
    }

    /// A call in edit, rule and token buffers of these lengths, and its answer.
    pub fn marks(&mut self, words: &[u16], tokens: &[u16], rooms: [usize; 3]) {
        assert!(fits(words, tokens, rooms));
        for (place, &word) in words.iter().enumerate() {
            if self.words[place] != word {
                self.words[place] = word;
                self.step([0, place, usize::from(word), 0, 0, 0]);
            }
        }
        for (place, &token) in tokens.iter().enumerate() {
            if self.tokens[place] != token {
                self.tokens[place] = token;
                self.step([1, place, usize::from(token), 0, 0, 0]);
            }
        }
        let [edits, rules, marks] = rooms;
        self.step([2, words.len(), tokens.len(), edits, rules, marks]);
        self.answers.push_str(&marks_line(words, tokens, rooms));
    }

    /// How many words and tokens a call would have to set first.
    pub fn changes(&self, words: &[u16], tokens: &[u16]) -> usize {
        let changed =
            |new: &[u16], old: &[u16]| new.iter().zip(old).filter(|(new, old)| new != old).count();
        changed(words, &self.words) + changed(tokens, &self.tokens)
    }
}

/// Whether `test_marks` has room for a call.
pub fn fits(words: &[u16], tokens: &[u16], [edits, rules, marks]: [usize; 3]) -> bool {
    let given = words.len() <= MOST_WORDS && tokens.len() <= MOST_TOKENS;
    given && edits.max(rules) <= MOST_ROOM && marks <= MOST_MARKS
}

/// The line of a call: the counts or the refusal, and a digest of each buffer.
pub fn marks_line(words: &[u16], tokens: &[u16], rooms: [usize; 3]) -> String {
    let [mut edits, mut rules, mut marks] = rooms.map(|room| vec![OLD; room]);
    let answer = match plain::marks(words, tokens, &mut edits, &mut rules, &mut marks) {
        Ok(Marked { parsed, tokens }) => {
            let Parsed {
                moves,
                edits,
                rules,
            } = parsed;
            format!("moves {moves} edits {edits} rules {rules} tokens {tokens}")
        }
        Err(refusal) => format!("refused {refusal}"),
    };
    let digests = [edits, rules, marks].map(|buffer| digest(&buffer).to_string());
    format!("{answer} digests {}\n", digests.join(" "))
}
