//! Units for request (viii) of document 02, "The hundredths unit goes": unit 1 on grammars of every kind, as old files
//! have it, and lists to be written with every word 5.

use super::file;
use super::input::Input;
use super::random::Random;

/// A unit for a grammar: 1 for one in twelve. It is one draw, so that all else of the grammar is as it was when there were
/// as many of either.
pub fn any(random: &mut Random) -> u16 {
    u16::from(random.chance(1, 12))
}

/// Puts unit 1 on the grammar of one input in 40, whichever it is. The words of a read stay.
pub fn put(random: &mut Random, input: &mut Input) {
    if random.chance(1, 40) {
        set(input, 0, 1);
    }
}

/// Sets the unit of the grammar of an input, and answers whether it was the old one before. Nothing is changed where it
/// was not, or where there is no unit.
pub fn set(input: &mut Input, old: u16, new: u16) -> bool {
    match input {
        Input::Check { words }
        | Input::Costs { words, .. }
        | Input::Parse { words, .. }
        | Input::Marks { words, .. }
        | Input::Report { words, .. } => match words.get_mut(5) {
            Some(unit) if *unit == old => {
                *unit = new;
                true
            }
            _ => false,
        },
        // Behind the block count stands the first block.
        Input::Listing { input } | Input::MarkLines { input } => {
            let block = input.get_mut(2..514);
            block.is_some_and(|block| file::replace_word(block, 5, old, new))
        }
        Input::Read { .. } | Input::Write { .. } => false,
    }
}

/// What word 5 of a list may be: 1 and, since only 1 is refused, numbers that are like it in some way.
const SIXTH: [u16; 14] = [
    1,
    1,
    1,
    1,
    0,
    2,
    3,
    255,
    256,
    257,
    513,
    32_769,
    65_281,
    u16::MAX,
];

/// The most words that are written.
const MOST: usize = 2_783;

/// Changes one list in four: word 5; a list of up to eight words with a 1 at some place; as many words as are written
/// at most, a few less or more, with unit 1; all words 1.
pub fn put_in_list(random: &mut Random, words: &mut Vec<u16>) {
    match random.below(32) {
        0..=3 => set_sixth(words, random.pick(&SIXTH)),
        4 | 5 => {
            words.resize(random.range(1, 8), 3);
            let at = random.below(words.len());
            words[at] = 1;
            if random.chance(1, 2) {
                set_sixth(words, 1);
            }
        }
        6 => {
            let count = random.range(MOST - 2, MOST + 3);
            words.resize(count, 7);
            set_sixth(words, 1);
        }
        7 => words.fill(1),
        _ => {}
    }
}

fn set_sixth(words: &mut [u16], word: u16) {
    if let Some(sixth) = words.get_mut(5) {
        *sixth = word;
    }
}

#[cfg(test)]
mod tests {
    use super::*;
    use crate::generate::families::bench_g;
    use crate::generate::file::standard_input;
    use crate::plain;

    #[test]
    fn the_unit_is_set_where_it_stands() {
        let mut draft = bench_g();
        let old = draft.words();
        draft.unit = 1;
        let new = draft.words();
        let mut check = Input::Check { words: old.clone() };
        assert!(!set(&mut check, 1, 0));
        assert!(set(&mut check, 0, 1));
        assert!(matches!(check, Input::Check { words } if words == new));
        let mut listing = Input::Listing {
            input: standard_input(&old, &[1, 4], &[5, 6]),
        };
        assert!(set(&mut listing, 0, 1));
        let expected = standard_input(&new, &[1, 4], &[5, 6]);
        assert!(matches!(&listing, Input::Listing { input } if *input == expected));
        assert_eq!(plain::listing(&expected), "refused 16\n");
        assert!(!set(&mut listing, 0, 1));
        // A check that is wrong stays wrong, and a list of five words has no unit.
        let mut wrong = expected.clone();
        wrong[512] ^= 1;
        let mut damaged = Input::Listing { input: wrong };
        assert!(!set(&mut damaged, 1, 0));
        let mut short = Input::Listing {
            input: standard_input(&new[..5], &[], &[]),
        };
        assert!(!set(&mut short, 0, 1));
    }
}
