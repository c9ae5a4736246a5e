//! "The grammar file": refusals 1 to 4 and the words read.

use crate::answer::Refusal;

/// "Blocks of 512 bytes, 1 to 11."
const BLOCK: usize = 512;
/// "over 5,632 bytes" is refusal 1.
const LONGEST: usize = 5_632;
/// "Bytes 4-509: 253 words."
const WORDS_OF_BLOCK: usize = 253;

/// "Reading yields the words in order and their number; words of the buffer behind them
/// become zero." After a refusal "all output buffers become zero over their whole length".
pub fn read(file: &[u8], words: &mut [u16]) -> Result<usize, Refusal> {
    words.fill(0);
    let content = words_of_file(file)?;
    // Refusal 4: "the word buffer is shorter than the file's words".
    if words.len() < content.len() {
        return Err(4);
    }
    words[..content.len()].copy_from_slice(&content);
    Ok(content.len())
}

/// The words of a file, or refusal 1, 2 or 3, "each tested over the whole input before the
/// next".
fn words_of_file(file: &[u8]) -> Result<Vec<u16>, Refusal> {
    // Refusal 1: "file is empty, not a multiple of 512, or over 5,632 bytes".
    if file.is_empty() || file.len() % BLOCK != 0 || file.len() > LONGEST {
        return Err(1);
    }
    let blocks: Vec<&[u8]> = file.chunks(BLOCK).collect();
    // Refusal 2: "some block's check is wrong".
    if blocks.iter().any(|block| !check_is_right(block)) {
        return Err(2);
    }
    // Refusal 3: "some block number, use count or unused word is wrong".
    let last = blocks.len() - 1;
    for (number, block) in blocks.iter().enumerate() {
        let number_right = usize::from(number_at(block, 0)) == number;
        let used = usize::from(number_at(block, 2));
        // "words used, exactly 253 in every block but the last, 1 to 253 there"
        let used_right = if number == last {
            (1..=WORDS_OF_BLOCK).contains(&used)
        } else {
            used == WORDS_OF_BLOCK
        };
        // "unused ones zero"
        if !number_right || !used_right || words_of_block(block)[used..].iter().any(|&w| w != 0) {
            return Err(3);
        }
    }
    let used = |block: &[u8]| usize::from(number_at(block, 2));
    Ok(blocks
        .iter()
        .flat_map(|block| words_of_block(block)[..used(block)].to_vec())
        .collect())
}

/// "All numbers are little endian."
fn number_at(block: &[u8], at: usize) -> u16 {
    u16::from_le_bytes([block[at], block[at + 1]])
}

/// "Bytes 4-509: 253 words".
fn words_of_block(block: &[u8]) -> Vec<u16> {
    (0..WORDS_OF_BLOCK)
        .map(|word| number_at(block, 4 + 2 * word))
        .collect()
}

/// "Bytes 510-511: the sum over bytes i = 0..509 of (i + 1) x byte i, modulo 65,521."
fn check_is_right(block: &[u8]) -> bool {
    let sum: u64 = (0..510).map(|i| (i as u64 + 1) * u64::from(block[i])).sum();
    u64::from(number_at(block, 510)) == sum % 65_521
}
