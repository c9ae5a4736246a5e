//! Lent buffers with old content, of lengths around what is needed.

use super::random::Random;

/// A buffer of some length around `needed` words, full of old content.
pub fn around(random: &mut Random, needed: usize) -> Vec<u16> {
    let length = match random.below(12) {
        0 => needed,
        1 => needed.saturating_sub(1),
        2 => needed.saturating_sub(2),
        3 => needed.saturating_sub(3),
        4 => needed + 1,
        5 => needed + 2,
        6 => random.below(4),
        7 => random.below(needed + 1),
        8 => needed + random.below(40),
        _ => needed + random.below(300),
    };
    old(random, length)
}

/// A buffer that is surely long enough, full of old content.
pub fn ample(random: &mut Random, needed: usize) -> Vec<u16> {
    let length = needed + random.below(100);
    old(random, length)
}

/// Old content: never zero, so that a word left alone is seen.
pub(super) fn old(random: &mut Random, length: usize) -> Vec<u16> {
    (0..length).map(|_| random.word(1, u16::MAX)).collect()
}
