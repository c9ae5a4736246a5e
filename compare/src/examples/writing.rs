//! The examples of request (i) of document 02, in its order. The checks of the blocks are written by
//! hand, and with them every byte of a file is given.

use crate::answer::{Implementation, Refusal};
use crate::generate::families::bench_g;

/// Words, the length of the byte buffer, and what is expected of writing the one into the other.
pub struct Writing {
    pub name: &'static str,
    pub words: Vec<u16>,
    pub room: usize,
    /// The words used in each block and its check, or the refusal.
    pub answer: Result<Vec<(usize, u16)>, Refusal>,
}

pub(super) fn written(
    name: &'static str,
    words: &[u16],
    room: usize,
    blocks: &[(usize, u16)],
) -> Writing {
    Writing {
        name,
        words: words.to_vec(),
        room,
        answer: Ok(blocks.to_vec()),
    }
}

fn refused(name: &'static str, count: usize, room: usize, refusal: Refusal) -> Writing {
    Writing {
        name,
        words: vec![0; count],
        room,
        answer: Err(refusal),
    }
}

/// All of them.
pub fn all() -> Vec<Writing> {
    let g = bench_g().words();
    let counted: Vec<u16> = (1..=507).collect();
    // Full blocks of zeros: 253 used at weight 3 and the number at weight 1 make 759 + number.
    let zeros: Vec<(usize, u16)> = (759..=769).map(|check| (253, check)).collect();
    vec![
        written("0 alone", &[0], 512, &[(1, 3)]),
        written("65535 alone", &[65_535], 512, &[(1, 2_808)]),
        written("G", &g, 512, &[(42, 23_366)]),
        written("253 of 65535", &[65_535; 253], 512, &[(253, 6_837)]),
        written(
            "254 of 65535",
            &[65_535; 254],
            1_024,
            &[(253, 6_837), (1, 2_809)],
        ),
        written(
            "1 to 507",
            &counted,
            1_536,
            &[(253, 15_423), (253, 19_735), (1, 1_266)],
        ),
        refused("1 in 511", 1, 511, 14),
        refused("254 in 1023", 254, 1_023, 14),
        refused("2783 in 5631", 2_783, 5_631, 14),
        written("253 in 512", &[0; 253], 512, &zeros[..1]),
        written("2783 in 5632", &[0; 2_783], 5_632, &zeros),
        written("2783 in 9000", &[0; 2_783], 9_000, &zeros),
        refused("0 in nothing", 0, 0, 13),
        refused("2784 in nothing", 2_784, 0, 13),
    ]
}

impl Writing {
    /// Every byte of the buffer afterwards, and how many of them are the blocks.
    pub fn expected(&self) -> (Result<usize, Refusal>, Vec<u8>) {
        let mut bytes = Vec::new();
        let mut words = self.words.iter();
        let blocks = match &self.answer {
            Ok(blocks) => blocks.as_slice(),
            Err(_) => &[],
        };
        for (number, &(used, check)) in blocks.iter().enumerate() {
            let mut numbers = vec![number as u16, used as u16];
            numbers.extend(words.by_ref().take(used));
            numbers.resize(255, 0);
            numbers.push(check);
            bytes.extend(numbers.iter().flat_map(|number| number.to_le_bytes()));
        }
        let answer = match self.answer {
            Ok(_) => Ok(bytes.len()),
            Err(refusal) => Err(refusal),
        };
        bytes.resize(self.room, 0);
        (answer, bytes)
    }
}

/// Runs all examples on an implementation, and tells what differs from the request.
pub fn failures(implementation: &dyn Implementation) -> Vec<String> {
    failures_of(all(), implementation)
}

/// The same for some examples.
pub(super) fn failures_of(
    examples: Vec<Writing>,
    implementation: &dyn Implementation,
) -> Vec<String> {
    let mut failures = Vec::new();
    for example in examples {
        let mut expect = |what: &str, good: bool| {
            if !good {
                failures.push(format!("{}: {what}", example.name));
            }
        };
        let mut bytes = vec![170; example.room];
        let answer = implementation.write(&example.words, &mut bytes);
        let expected = example.expected();
        expect("the answer", answer == expected.0);
        expect("the bytes", bytes == expected.1);
        let Ok(size) = expected.0 else { continue };
        // "Reading back the blocks written, into a word buffer long enough, gives the same words."
        let count = example.words.len();
        let mut words = vec![9; count];
        let read = implementation.read(&expected.1[..size], &mut words);
        expect("read back", read == Ok(count) && words == example.words);
    }
    failures
}
