//! Request (i) of document 02, "Write grammar files too": refusals 13 and 14 and the blocks written. Request (viii)
//! puts refusal 16 between these two.

use crate::answer::{Refusal, MOST_WORDS};

/// Document 01: "Blocks of 512 bytes", "Bytes 4-509: 253 words".
const BLOCK: usize = 512;
const WORDS_OF_BLOCK: usize = 253;

/// "Take words and a byte buffer and write the blocks of 01." The answer is the number of bytes that
/// the blocks take.
pub fn write(words: &[u16], bytes: &mut [u8]) -> Result<usize, Refusal> {
    // "Bytes behind the last block become zero". 13 and 14 "both leave it all zeros", and so does 16, by 01: after a
    // refusal "all output buffers become zero over their whole length".
    bytes.fill(0);
    // "13 when there are no words or more than 2,783"
    if words.is_empty() || words.len() > MOST_WORDS {
        return Err(13);
    }
    // 02 (viii): "the writer refuses unit 1, that is, six words or more with word 5 equal to 1"; 16 comes "in the
    // writer after 13 and before 14".
    if words.len() >= 6 && words[5] == 1 {
        return Err(16);
    }
    // "then 14 when the byte buffer is too short"
    let file = blocks(words);
    if bytes.len() < file.len() {
        return Err(14);
    }
    bytes[..file.len()].copy_from_slice(&file);
    Ok(file.len())
}

/// The file of some words, which are 1 to 2,783 of any kind: "Old files with unit 1 can still be read." "Words used,
/// exactly 253 in every block but the last, 1 to 253 there": no block is empty.
pub fn blocks(words: &[u16]) -> Vec<u8> {
    let mut file = Vec::new();
    for (number, used) in words.chunks(WORDS_OF_BLOCK).enumerate() {
        file.extend(block(number as u16, used));
    }
    file
}

/// "Bytes 0-1: block number, from 0. Bytes 2-3: words used. Bytes 4-509: 253 words, unused ones zero."
fn block(number: u16, used: &[u16]) -> [u8; BLOCK] {
    let mut block = [0; BLOCK];
    put(&mut block, 0, number);
    put(&mut block, 2, used.len() as u16);
    for (at, &word) in used.iter().enumerate() {
        put(&mut block, 4 + 2 * at, word);
    }
    let check = check_of(&block);
    put(&mut block, 510, check);
    block
}

/// "All numbers are little endian."
fn put(block: &mut [u8], at: usize, number: u16) {
    block[at..at + 2].copy_from_slice(&number.to_le_bytes());
}

/// "Bytes 510-511: the sum over bytes i = 0..509 of (i + 1) x byte i, modulo 65,521."
fn check_of(block: &[u8]) -> u16 {
    let sum: u64 = (0..510).map(|i| (i as u64 + 1) * u64::from(block[i])).sum();
    (sum % 65_521) as u16
}
