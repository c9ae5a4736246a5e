//! Lists of words to be written, and byte buffers for them.

use super::input::{Input, Source};
use super::random::Random;
use super::units;

const BLOCK: usize = 512;
const USED: usize = 253;
/// The most words that are written.
const MOST: usize = 2_783;

/// The bytes that the blocks of so many words take.
pub fn bytes_for(count: usize) -> usize {
    BLOCK * count.div_ceil(USED)
}

impl Source {
    /// List number `index` and a buffer for it, full of old content; it does not depend on the lists
    /// before it.
    pub fn write(&self, index: u64) -> Input {
        // Away from the inputs of the same number.
        let mut random = Random::at(self.seed().rotate_left(32), index);
        let random = &mut random;
        let mut words = self.list(random);
        // Draws of its own, so that all other lists are what they were before there was refusal 16.
        let mut more = Random::at(self.seed().rotate_left(36), index);
        units::put_in_list(&mut more, &mut words);
        let length = room(random, words.len());
        Input::Write {
            words,
            bytes: (0..length).map(|_| random.word(1, 255) as u8).collect(),
        }
    }

    /// Any words: a grammar of the stock, half of one, or of a length around an edge.
    fn list(&self, random: &mut Random) -> Vec<u16> {
        match random.below(8) {
            0 => self.any_grammar(random),
            1 => {
                let mut words = self.any_grammar(random);
                words.truncate(random.below(words.len() + 1));
                words
            }
            // Grammars one behind the other, cut at an edge.
            2 => {
                let count = length(random);
                let mut words = Vec::new();
                while words.len() < count {
                    words.extend(self.any_grammar(random));
                }
                words.truncate(count);
                words
            }
            kind => {
                let count = length(random);
                content(random, kind, count)
            }
        }
    }

    fn any_grammar(&self, random: &mut Random) -> Vec<u16> {
        self.stock()[random.below(self.stock().len())].words()
    }
}

/// A number of words: around each number of full blocks, around none and all, any, or far too many.
fn length(random: &mut Random) -> usize {
    match random.below(10) {
        0 => random.pick(&[0, 0, 1, 2, 3]),
        1 => random.range(MOST - 1, MOST + 2),
        2 => random.range(0, MOST),
        3 => random.range(1, 300),
        4 if random.chance(1, 20) => random.pick(&[2_816, 4_096, 32_768, 65_535, 65_536, 65_789]),
        _ => random.range(1, 11) * USED - 1 + random.below(3),
    }
}

/// So many words: all equal, one among zeros, small ones, or any.
fn content(random: &mut Random, kind: usize, count: usize) -> Vec<u16> {
    match kind {
        3 => {
            let word = random.pick(&[0, 0, 1, 255, 256, 65_280, u16::MAX, u16::MAX]);
            vec![word; count]
        }
        4 => {
            let mut words = vec![0; count];
            if count > 0 {
                words[random.below(count)] = random.word(1, u16::MAX);
            }
            words
        }
        5 => (0..count).map(|_| random.word(0, 300)).collect(),
        _ => (0..count).map(|_| random.bits() as u16).collect(),
    }
}

/// The length of a byte buffer around what so many words need.
fn room(random: &mut Random, count: usize) -> usize {
    let needed = bytes_for(count);
    match random.below(16) {
        0 => 0,
        1 => random.below(4),
        2 => needed.saturating_sub(1),
        3 => needed.saturating_sub(random.pick(&[2, 255, 256, 511, BLOCK])),
        4 => random.below(needed + 1),
        5..=7 => needed,
        8 => needed + 1,
        9 => needed + random.pick(&[2, 255, 256, 511, 513]),
        10 | 11 => needed + BLOCK,
        12 => needed.max(5_632),
        _ => needed + random.below(4_000),
    }
}
