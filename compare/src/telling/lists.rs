//! Lists and rooms shaped for `test_write`: each length at which a wrong reading would show, in buffers
//! around what it needs.

use crate::generate::list::bytes_for;
use crate::generate::Random;

/// Words and the length of the byte buffer.
pub type Call = (Vec<u16>, usize);

/// As many words as `test_write` has room for. A check of 16 bits without the modulus, or with another one, shows on
/// full blocks of large words.
pub fn any_words() -> Vec<u16> {
    let mut random = Random::new(13);
    (0..2_816).map(|_| random.word(1, u16::MAX)).collect()
}

/// The calls that `test_write` stores between the examples and the seeded ones, with those of request (viii).
pub fn writes() -> Vec<Call> {
    let words = any_words();
    let mut calls = Vec::new();
    // A block more or less: one word less than full blocks, just as many, one more.
    for full in (253..=2_783).step_by(253) {
        for count in [full - 1, full, full + 1] {
            let needed = bytes_for(count);
            let mut rooms = vec![needed, needed + 1, needed + 512];
            // 14 given too late, or by the number of words.
            rooms.extend([needed - 1, needed - 512]);
            rooms.extend((count % 253 == 0).then_some(2 * count));
            calls.extend(rooms.iter().map(|&room| (words[..count].to_vec(), room)));
        }
    }
    // 13 comes before 14 and leaves zeros: no words, and one or more too many, in rooms of any length.
    for count in [0, 2_784, 2_785, 2_816] {
        for room in [0, 1, 511, 512, 5_631, 5_632, 6_143, 6_144, 6_145, 9_216] {
            calls.push((words[..count].to_vec(), room));
        }
    }
    // A byte left behind the last block, near and far.
    for (count, room) in [
        (1, 0),
        (1, 510),
        (1, 513),
        (1, 1_024),
        (1, 9_216),
        (254, 1_025),
        (2_783, 9_216),
        (2_783, 5_633),
    ] {
        calls.push((words[..count].to_vec(), room));
    }
    // Every use count tells 253 apart, and the unused words behind it are zero.
    for count in [
        2, 3, 10, 41, 100, 127, 128, 200, 255, 256, 257, 300, 511, 512, 513, 2_000,
    ] {
        calls.push((words[..count].to_vec(), bytes_for(count)));
    }
    calls.extend(super::units::writes());
    calls
}

/// Lists whose bytes tell the two halves of a word, the weights and the modulus apart.
pub fn telling_sums() -> Vec<Call> {
    let mut calls = Vec::new();
    for word in [1, 255, 256, 257, 513, 0x1234, 0x8000, 0xff00, 0xfffe] {
        calls.push((vec![word], 512));
        calls.push((vec![0, word], 512));
    }
    // Full blocks whose sums are 65,520, 65,521, 65,522, 65,535 and 65,536, so that the checks are
    // 65,520, 0, 1, 14 and 15. The use count gives 759, the last byte 510 times what it holds (64,260 or
    // 64,770), and one more byte its weight: 501, 502, 503, 6 or 7.
    for (last, place, word) in [
        (126, 248, 1),
        (126, 248, 256),
        (126, 249, 1),
        (127, 0, 256),
        (127, 1, 1),
    ] {
        let mut words = vec![0; 253];
        words[252] = last << 8;
        words[place] = word;
        calls.push((words, 512));
    }
    calls
}
