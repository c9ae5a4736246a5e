//! The reader of grammar files, refusals 1 to 4.

use crate::answer::Refusal;

const BLOCK: usize = 512;
const FULL: usize = 253;

/// Reads a grammar file into the lent words.
pub fn read(file: &[u8], words: &mut [u16]) -> Result<usize, Refusal> {
    let answer = test(file).and_then(|count| {
        if count <= words.len() {
            Ok(count)
        } else {
            Err(4)
        }
    });
    let Ok(count) = answer else {
        words.fill(0);
        return answer;
    };
    let (used, behind) = words.split_at_mut(count);
    for (part, block) in used.chunks_mut(FULL).zip(file.chunks_exact(BLOCK)) {
        for (word, bytes) in part.iter_mut().zip(block[4..].chunks_exact(2)) {
            *word = u16::from_le_bytes([bytes[0], bytes[1]]);
        }
    }
    behind.fill(0);
    Ok(count)
}

/// The number of words in a good file, or refusal 1, 2 or 3.
fn test(file: &[u8]) -> Result<usize, Refusal> {
    let count = file.len() / BLOCK;
    if file.len() % BLOCK != 0 || !(1..=11).contains(&count) {
        return Err(1);
    }
    let (mut checks, mut fields) = (true, true);
    let mut words = 0;
    for (number, block) in file.chunks_exact(BLOCK).enumerate() {
        checks &= weighted_sum(block) % 65_521 == u32::from(word(block, 510));
        let used = usize::from(word(block, 2));
        let least = if number + 1 < count { FULL } else { 1 };
        fields &= usize::from(word(block, 0)) == number && (least..=FULL).contains(&used);
        let unused = &block[4 + 2 * used.min(FULL)..510];
        fields &= unused.iter().fold(0, |all, &byte| all | byte) == 0;
        words += used;
    }
    match (checks, fields) {
        (false, _) => Err(2),
        (true, false) => Err(3),
        (true, true) => Ok(words),
    }
}

/// At most 255 x 130,305, which a u32 holds.
fn weighted_sum(block: &[u8]) -> u32 {
    let mut weight = 0;
    let mut sum = 0;
    for &byte in &block[..510] {
        weight += 1;
        sum += weight * u32::from(byte);
    }
    sum
}

fn word(block: &[u8], at: usize) -> u16 {
    u16::from_le_bytes([block[at], block[at + 1]])
}
