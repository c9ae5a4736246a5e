//! Texts of decimal numbers: good ones, and ones with words that are no numbers.

use super::random::Random;

/// A text of words and blanks. One in three has words that are no numbers among them.
pub fn text(random: &mut Random) -> Vec<u8> {
    let count = match random.below(12) {
        0 => random.range(200, 900),
        1 | 2 => random.below(3),
        _ => random.range(1, 60),
    };
    let bad = random.chance(1, 3);
    let mut text = Vec::new();
    if random.chance(1, 3) {
        blanks(random, &mut text);
    }
    for place in 0..count {
        if place > 0 {
            blanks(random, &mut text);
        }
        if bad && random.chance(1, count) {
            no_number(random, &mut text);
        } else {
            number(random, &mut text);
        }
    }
    if random.chance(1, 2) {
        blanks(random, &mut text);
    }
    text
}

/// One or more blanks, mostly one.
fn blanks(random: &mut Random, text: &mut Vec<u8>) {
    let count = match random.below(8) {
        0 => random.range(1, 9),
        1 => return text.extend(b"\r\n"),
        _ => 1,
    };
    text.extend((0..count).map(|_| random.pick(b"  \t\n\r")));
}

/// A decimal number from 0 to 65,535, at times with leading zeros.
fn number(random: &mut Random, text: &mut Vec<u8>) {
    let number = match random.below(8) {
        0 => random.word(65_500, u16::MAX),
        1 | 2 => random.word(0, 9),
        3 | 4 => random.word(0, 999),
        _ => random.bits() as u16,
    };
    if random.chance(1, 12) {
        text.extend(vec![b'0'; random.pick(&[1, 2, 3, 4, 5, 9, 20, 40])]);
    }
    text.extend(number.to_string().bytes());
}

/// A word that is no number: too large, or with one byte that is neither digit nor blank.
fn no_number(random: &mut Random, text: &mut Vec<u8>) {
    match random.below(4) {
        0 => text.extend(random.range(65_536, 65_600).to_string().bytes()),
        1 => {
            // One past what 16, 17, 32 or 64 bits hold, and a little more.
            let power = random.pick(&[1 << 16, 1 << 17, 1 << 32, 1u128 << 64]);
            let more = random.below(70_000) as u128;
            text.extend((power + more).to_string().bytes());
        }
        2 => {
            text.push(random.pick(b"+-/:,._xae"));
            number(random, text);
        }
        _ => {
            let mut word = Vec::new();
            number(random, &mut word);
            let byte = loop {
                let byte = random.bits() as u8;
                if !byte.is_ascii_digit() && !b" \t\n\r".contains(&byte) {
                    break byte;
                }
            };
            word.insert(random.below(word.len() + 1), byte);
            text.extend(word);
        }
    }
}
