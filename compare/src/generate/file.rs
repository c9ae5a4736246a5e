//! Grammar files and standard input: good ones, and ones damaged in every field.

use super::random::Random;

const BLOCK: usize = 512;
const USED: usize = 253;

/// The blocks of a grammar file that holds `words`; they are not empty.
pub fn file_of(words: &[u16]) -> Vec<u8> {
    let mut file = Vec::new();
    for (number, part) in words.chunks(USED).enumerate() {
        let mut block = vec![0; BLOCK];
        put(&mut block, 0, number as u16);
        put(&mut block, 2, part.len() as u16);
        for (at, &word) in part.iter().enumerate() {
            put(&mut block, 4 + 2 * at, word);
        }
        put_check(&mut block);
        file.extend(block);
    }
    file
}

/// Standard input of the printing program: block count, blocks, entries.
pub fn standard_input(words: &[u16], tokens: &[u16], ticks: &[u32]) -> Vec<u8> {
    let file = file_of(words);
    let mut input = ((file.len() / BLOCK) as u16).to_le_bytes().to_vec();
    input.extend(file);
    for (token, tick) in tokens.iter().zip(ticks) {
        input.extend(token.to_le_bytes());
        input.extend(tick.to_le_bytes());
    }
    input
}

/// Puts another word in place of an old one of the block, and its check; answers whether that was done. It is not where
/// the old word does not stand there, or where the check is wrong.
pub fn replace_word(block: &mut [u8], at: usize, old: u16, new: u16) -> bool {
    let (place, used) = (4 + 2 * at, usize::from(get(block, 2)));
    let good = usize::from(get(block, 510)) == sum(block);
    if !good || at >= used || get(block, place) != old {
        return false;
    }
    put(block, place, new);
    put_check(block);
    true
}

/// Damages one field of a file, in a way that may also leave it good.
pub fn damage(random: &mut Random, file: &mut Vec<u8>) {
    if file.len() < BLOCK {
        return;
    }
    let count = file.len() / BLOCK;
    let number = random.below(count);
    let last = number == count - 1;
    let block = &mut file[number * BLOCK..(number + 1) * BLOCK];
    let used = get(block, 2);
    match random.below(16) {
        // The check: off by one, any other, and not reduced modulo 65,521.
        0 => {
            let wrong = get(block, 510).wrapping_add(random.pick(&[1, u16::MAX, 256]));
            put(block, 510, wrong);
        }
        1 => put(block, 510, random.bits() as u16),
        2 => check_not_reduced(random, block),
        // Any byte changed, with the check left as it was or made right again.
        3 => block[random.below(BLOCK)] ^= 1 << random.below(8),
        4 => change(block, random.below(255), random.bits() as u16),
        // The block number.
        5 => change(block, 0, random.pick(&[0, 1, 2, 10, 11, 256, u16::MAX])),
        6 => change(block, 0, get(block, 0).wrapping_add(1)),
        // The use count.
        7 => change(block, 1, random.pick(&[0, 1, 252, 253, 254, 255, u16::MAX])),
        8 => change(block, 1, used.wrapping_sub(1)),
        9 => change(block, 1, used.wrapping_add(1)),
        // An unused word: the first, the last, any.
        10 if last && used < 253 => {
            let first = 2 + usize::from(used);
            let at = [first, 254, random.range(first, 254)][random.below(3)];
            change(block, at, random.word(1, u16::MAX));
        }
        // A smaller use count with all words behind it zero: wrong only as a count.
        11 => {
            let fewer = random.pick(&[0, 0, 1, 252, used.wrapping_sub(1)]).min(252);
            block[4 + 2 * usize::from(fewer)..510].fill(0);
            change(block, 1, fewer);
        }
        // An empty block behind the last.
        12 => {
            let mut empty = vec![0; BLOCK];
            change(&mut empty, 0, count as u16);
            file.extend(empty);
        }
        // Blocks swapped, doubled, taken away or added; bytes cut or added.
        13 => {
            let other = random.below(count);
            for at in 0..BLOCK {
                file.swap(number * BLOCK + at, other * BLOCK + at);
            }
        }
        14 => lengthen(random, file),
        _ => shorten(random, file),
    }
}

/// Adds blocks or bytes at the end.
fn lengthen(random: &mut Random, file: &mut Vec<u8>) {
    match random.below(3) {
        0 => {
            let block = file[file.len() - BLOCK..].to_vec();
            let blocks = file.len() / BLOCK;
            for number in blocks..random.range(blocks, 13) {
                let mut more = block.clone();
                change(&mut more, 0, number as u16);
                file.extend(more);
            }
        }
        1 => file.extend(vec![0; random.pick(&[1, 2, 511, 512])]),
        _ => file.resize(random.pick(&[5_631, 5_632, 5_633, 6_144]), 0),
    }
}

/// Takes bytes or blocks away at the end.
fn shorten(random: &mut Random, file: &mut Vec<u8>) {
    let cut = match random.below(4) {
        0 => file.len(),
        1 => BLOCK,
        2 => random.pick(&[1, 2, 511]),
        _ => random.below(file.len()),
    };
    file.truncate(file.len() - cut);
}

/// Makes the sum of a block leave a rest below 15, and writes it without the reduction.
fn check_not_reduced(random: &mut Random, block: &mut [u8]) {
    let target = random.below(15);
    // A full block whose highest word is free to bring the sum near the target.
    put(block, 2, 253);
    put(block, 508, 0);
    let rest = (target + 65_521 - sum(block)) % 65_521;
    block[509] = (rest / 510) as u8;
    let small = rest % 510;
    if small > 0 {
        match block[small - 1].checked_add(1) {
            Some(more) => block[small - 1] = more,
            None => return put_check(block),
        }
    }
    put(block, 510, (sum(block) + 65_521) as u16);
}

/// Writes word `at` of a block and makes its check right again.
fn change(block: &mut [u8], at: usize, word: u16) {
    put(block, 2 * at, word);
    put_check(block);
}

fn get(block: &[u8], at: usize) -> u16 {
    u16::from_le_bytes([block[at], block[at + 1]])
}

fn put(block: &mut [u8], at: usize, word: u16) {
    block[at..at + 2].copy_from_slice(&word.to_le_bytes());
}

/// The weighted sum of a block, modulo 65,521.
fn sum(block: &[u8]) -> usize {
    let mut sum = 0;
    for (at, &byte) in block[..510].iter().enumerate() {
        sum = (sum + (at + 1) * usize::from(byte)) % 65_521;
    }
    sum
}

fn put_check(block: &mut [u8]) {
    let check = sum(block) as u16;
    put(block, 510, check);
}
