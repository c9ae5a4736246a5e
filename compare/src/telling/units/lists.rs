//! Lists for the writer: which of them it refuses with 16, behind 13 and before 14.

use super::{bench_h_with, refused_words, restart_1};
use crate::generate::families::{bench_g, bench_g1, bench_h, in_hundredths};
use crate::generate::list::bytes_for;
use crate::telling::lists::{any_words, Call};

/// The calls that `test_write` stores.
pub fn writes() -> Vec<Call> {
    let mut calls = short_lists();
    calls.extend(sixth_words());
    calls.extend(grammars());
    calls.extend(rooms());
    calls.extend(lengths());
    calls
}

/// Word 5 looked for in lists of up to five words: the last word, any word, a missing one taken for 1, or what stood
/// there in the list before. Another word than word 5 looked at; only lists of six words, or of more, refused.
fn short_lists() -> Vec<Call> {
    let header = [7, 4, 6, 1, 4, 1, 0, 0];
    let mut calls: Vec<Call> = Vec::new();
    for count in [8, 5, 6, 4, 7, 3, 2, 1] {
        calls.push((header[..count].to_vec(), 512));
    }
    for count in 1..=8 {
        calls.push((vec![1; count], 512));
        // A 1 at the end, and one at each other place.
        let mut words = vec![0; count];
        words[count - 1] = 1;
        calls.push((words, 512));
    }
    for place in 0..9 {
        let mut words = vec![2; 9];
        words[place] = 1;
        calls.push((words.clone(), 512));
        calls.push((words[..5].to_vec(), 512));
    }
    calls
}

/// Numbers that are like 1 taken for it: odd ones, any but 0, those with 1 as low byte or as high byte, the lowest bit
/// of six or seven; 2 and more refused.
fn sixth_words() -> Vec<Call> {
    let mut calls = Vec::new();
    for sixth in [
        0, 1, 2, 3, 5, 64, 65, 127, 128, 129, 255, 256, 257, 511, 513, 769, 32_768, 32_769, 65_281,
        65_534, 65_535,
    ] {
        calls.push((vec![7, 4, 6, 1, 4, sixth], 512));
        calls.push((vec![261, 3, 7, 1, 3, sixth, 4], 512));
    }
    calls
}

/// Only an accepted grammar refused, only words with its shape, or with one of the headers; the restart mark, which is
/// word 6, taken for the unit; a grammar written with unit 0 in place of 1.
fn grammars() -> Vec<Call> {
    let mut list = vec![
        bench_g().words(),
        bench_g1().words(),
        bench_h().words(),
        in_hundredths(bench_h()).words(),
        bench_h_with(0).words(),
        in_hundredths(bench_h_with(0)).words(),
        restart_1().words(),
        in_hundredths(restart_1()).words(),
    ];
    list.extend(refused_words());
    list.into_iter().map(|words| (words, 512)).collect()
}

/// 16 behind 14, or only where there is room; the blocks, or as much of them as fits, left after it.
fn rooms() -> Vec<Call> {
    let mut calls = Vec::new();
    for sixth in [1, 0] {
        for room in [0, 1, 2, 510, 511, 512, 513, 1_024, 9_216] {
            calls.push((vec![0, 0, 0, 0, 0, sixth], room));
        }
    }
    for room in [0, 511, 512] {
        calls.push((bench_g1().words(), room));
    }
    calls
}

/// 16 before 13, or only in lists of one block; 2,783 words with unit 1, one less and one and more too many, in rooms
/// that suffice and in some that do not. No words have no unit.
fn lengths() -> Vec<Call> {
    let mut words = any_words();
    let mut calls = Vec::new();
    for sixth in [1, 2] {
        words[5] = sixth;
        for count in [252, 253, 254, 506, 507, 2_530, 2_531, 2_782, 2_783] {
            let needed = bytes_for(count);
            for room in [needed, needed - 1, needed + 512] {
                calls.push((words[..count].to_vec(), room));
            }
        }
        for count in [0, 2_784, 2_785, 2_816] {
            for room in [0, 512, 5_632, 6_144, 9_216] {
                calls.push((words[..count].to_vec(), room));
            }
        }
    }
    calls
}
