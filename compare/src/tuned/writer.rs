//! The writer of grammar files, refusals 13, 16 and 14.

use crate::answer::{Refusal, MOST_WORDS};

const BLOCK: usize = 512;
const FULL: usize = 253;

/// Writes the file of some words into the lent bytes. A byte is written once, zeros too.
pub fn write(words: &[u16], bytes: &mut [u8]) -> Result<usize, Refusal> {
    let answer = size(words, bytes.len());
    let Ok(size) = answer else {
        bytes.fill(0);
        return answer;
    };
    let (file, behind) = bytes.split_at_mut(size);
    let blocks = file.chunks_exact_mut(BLOCK);
    for (number, (block, used)) in blocks.zip(words.chunks(FULL)).enumerate() {
        fill(block, number as u16, used);
    }
    behind.fill(0);
    answer
}

/// How many bytes the words take, or why they are not written. Word 5 is the unit.
fn size(words: &[u16], room: usize) -> Result<usize, Refusal> {
    let size = BLOCK * words.len().div_ceil(FULL);
    if words.is_empty() || words.len() > MOST_WORDS {
        Err(13)
    } else if words.get(5) == Some(&1) {
        Err(16)
    } else if room < size {
        Err(14)
    } else {
        Ok(size)
    }
}

/// Writes one block.
fn fill(block: &mut [u8], number: u16, used: &[u16]) {
    put(block, 0, number);
    put(block, 2, used.len() as u16);
    let (full, unused) = block[4..510].split_at_mut(2 * used.len());
    for (pair, word) in full.chunks_exact_mut(2).zip(used) {
        pair.copy_from_slice(&word.to_le_bytes());
    }
    unused.fill(0);
    // Zeros add nothing.
    let sum = weighted_sum(&block[..4 + 2 * used.len()]);
    put(block, 510, (sum % 65_521) as u16);
}

/// The weight of each byte of a block, in 16 bits: so many can be multiplied at once.
const WEIGHTS: [i16; 510] = {
    let mut weights = [0; 510];
    let mut at = 0;
    while at < 510 {
        weights[at] = at as i16 + 1;
        at += 1;
    }
    weights
};

/// At most 255 x 130,305, which an i32 holds.
fn weighted_sum(bytes: &[u8]) -> u32 {
    let pairs = bytes.iter().zip(&WEIGHTS);
    let sum: i32 = pairs
        .map(|(&byte, &weight)| i32::from(byte) * i32::from(weight))
        .sum();
    sum as u32
}

fn put(block: &mut [u8], at: usize, word: u16) {
    block[at..at + 2].copy_from_slice(&word.to_le_bytes());
}
