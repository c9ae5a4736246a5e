//! The stored calls of `test_desk`: numbers of two bytes, little endian, four to a step. 0 PLACE WORD 0 sets
//! a word, at first all are 0, and 1 SIZE COSTS RULES hands the first SIZE words to the desk, with buffers of
//! COSTS and RULES words.

use super::{digest, OLD};
use crate::plain;

/// The room of `test_desk` for the words, and for each of the two buffers.
pub const MOST_WORDS: usize = 4_096;
pub const MOST_ROOM: usize = 512;

/// The steps and the answers, and what the words hold after the steps so far.
pub struct Desks {
    pub bytes: Vec<u8>,
    pub answers: String,
    words: Vec<u16>,
}

impl Default for Desks {
    fn default() -> Desks {
        Desks {
            bytes: Vec::new(),
            answers: String::new(),
            words: vec![0; MOST_WORDS],
        }
    }
}

impl Desks {
    fn step(&mut self, numbers: [usize; 4]) {
        for number in numbers {
            let number = u16::try_from(number).expect("a number of two bytes");
            self.bytes.extend(number.to_le_bytes());
        }
    }

    /// A call of the desk, and its answer.
    pub fn costs(&mut self, words: &[u16], cost_room: usize, rule_room: usize) {
        assert!(words.len() <= MOST_WORDS && cost_room.max(rule_room) <= MOST_ROOM);
        for (place, &word) in words.iter().enumerate() {
            if self.words[place] != word {
                self.words[place] = word;
                self.step([0, place, usize::from(word), 0]);
            }
        }
        self.step([1, words.len(), cost_room, rule_room]);
        self.answers
            .push_str(&costs_line(words, cost_room, rule_room));
    }

    /// How many words a call would have to set first.
    pub fn changes(&self, words: &[u16]) -> usize {
        let pairs = words.iter().zip(&self.words);
        pairs.filter(|(new, old)| new != old).count()
    }
}

/// The line of a call: N or the refusal, and a digest of each buffer.
pub fn costs_line(words: &[u16], cost_room: usize, rule_room: usize) -> String {
    let (mut costs, mut rules) = (vec![OLD; cost_room], vec![OLD; rule_room]);
    let answer = match plain::costs(words, &mut costs, &mut rules) {
        Ok(n) => format!("given {n}"),
        Err(refusal) => format!("refused {refusal}"),
    };
    format!(
        "words {} costs {cost_room} rules {rule_room} {answer} digest {} digest {}\n",
        words.len(),
        digest(&costs),
        digest(&rules)
    )
}
