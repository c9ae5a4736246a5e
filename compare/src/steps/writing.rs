//! The stored calls of `test_write` and the stored texts of `test_spelling`.
//!
//! `test_write` has numbers of two bytes, little endian, three to a step: 0 PLACE WORD sets a word, at
//! first all are 0, and 1 COUNT ROOM writes the first COUNT words into a buffer of ROOM bytes.
//! `test_spelling` has for each text its length in four bytes, little endian, and its bytes.

use super::{digest, MOST_WORDS, OLD};
use crate::plain;

/// The room of `test_write` for bytes, and what every byte holds before a call.
pub const MOST_BYTES: usize = 9_216;
const OLD_BYTE: u8 = 170;
/// The room of `test_spelling` for words.
const SPELLED_WORDS: usize = 2_784;

/// The steps and the answers of `test_write`, and what the words hold after the steps so far.
pub struct Writes {
    pub bytes: Vec<u8>,
    pub answers: String,
    pub calls: usize,
    words: Vec<u16>,
}

impl Default for Writes {
    fn default() -> Writes {
        Writes {
            bytes: Vec::new(),
            answers: String::new(),
            calls: 0,
            words: vec![0; MOST_WORDS],
        }
    }
}

impl Writes {
    fn step(&mut self, numbers: [usize; 3]) {
        for number in numbers {
            let number = u16::try_from(number).expect("a number of two bytes");
            self.bytes.extend(number.to_le_bytes());
        }
    }

    /// A call of the writer, and its answer.
    pub fn write(&mut self, words: &[u16], room: usize) {
        assert!(words.len() <= MOST_WORDS && room <= MOST_BYTES);
        for (place, &word) in words.iter().enumerate() {
            if self.words[place] != word {
                self.words[place] = word;
                self.step([0, place, usize::from(word)]);
            }
        }
        self.step([1, words.len(), room]);
        self.calls += 1;
        self.answers.push_str(&write_lines(words, room));
    }

    /// How many words a call would have to set first.
    pub fn changes(&self, words: &[u16]) -> usize {
        let pairs = words.iter().zip(&self.words);
        pairs.filter(|(new, old)| new != old).count()
    }
}

/// The lines of a call: the answer and a digest of every byte, what the reader makes of the bytes written
/// in a buffer of as many words, and for each block the numbers at bytes 0, 2 and 510.
pub fn write_lines(words: &[u16], room: usize) -> String {
    let mut bytes = vec![OLD_BYTE; room];
    let answer = plain::write(words, &mut bytes);
    let (count, left) = (words.len(), digest(&bytes));
    let size = match answer {
        Ok(size) => size,
        Err(refusal) => {
            return format!("words {count} room {room} refused {refusal} digest {left}\n")
        }
    };
    let file = &bytes[..size];
    let mut back = vec![OLD; count];
    let read = match plain::read(file, &mut back) {
        Ok(number) => number.to_string(),
        Err(refusal) => format!("refused {refusal}"),
    };
    let mut lines = format!(
        "words {count} room {room} bytes {size} digest {left} read {read} digest {}\n",
        digest(&back)
    );
    for block in file.chunks_exact(512) {
        let [number, used, check] =
            [0, 2, 510].map(|at| u16::from_le_bytes([block[at], block[at + 1]]));
        lines.push_str(&format!("block {number} used {used} check {check}\n"));
    }
    lines
}

/// The line of a text: how many words it has and a digest of a buffer with as many of them as fit, zeros
/// behind; or the place of the first word that is no number.
pub fn text_line(text: &[u8]) -> String {
    match plain::words_of_text(text) {
        Ok(mut words) => {
            let count = words.len();
            words.resize(SPELLED_WORDS, 0);
            format!("words {count} digest {}\n", digest(&words))
        }
        Err(place) => format!("no number {place}\n"),
    }
}
