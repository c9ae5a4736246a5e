//! Calls and inputs shaped for request (vi), "Ticks after a controller restart": each tells apart wrong readings of
//! which header stands there, of the seventh word's range, of what goes by T, and in `cycles` of which cycles a
//! restart makes unclean.

mod cycles;

pub use cycles::reports;

use super::grammars::{costly_part, large, large_log};
use super::{desks::Call as DeskCall, marks::Call as MarkCall, Call};
use crate::examples::empty_parts::reliable;
use crate::generate::families::bench_h;
use crate::generate::file::standard_input;
use crate::generate::Draft;

/// A 1, a restart and a 3, which are a log of H.
const LOG: [u16; 3] = [1, 4, 3];

/// The calls that `test_parse` stores. `test_pace` and `test_sweep` store them too.
pub fn calls() -> Vec<Call> {
    let mut calls = Vec::new();
    for words in first_words().into_iter().chain(seventh_words()) {
        calls.push(call(words, &LOG));
    }
    for words in cut().into_iter().chain(by_t()) {
        calls.push(call(words, &LOG));
    }
    for words in behind() {
        calls.push(call(words.clone(), &LOG));
        calls.push(call(words, &[1, 99]));
    }
    calls.extend(tokens());
    calls
}

fn call(words: Vec<u16>, log: &[u16]) -> Call {
    let call = Call::new(&bench_h(), log);
    Call { words, ..call }
}

/// H with another word at one place.
fn with_word(place: usize, word: u16) -> Vec<u16> {
    let mut words = bench_h().words();
    words[place] = word;
    words
}

/// The grammar with the header of six words.
pub fn with_six(mut draft: Draft) -> Draft {
    draft.restart = None;
    draft
}

/// The grammar with this restart mark.
fn with_restart(mut draft: Draft, restart: u16) -> Draft {
    draft.restart = Some(restart);
    draft
}

/// So many terminals, none of which stands in a rule.
fn empty(terminals: usize) -> Draft {
    Draft::new(terminals, 1, &[(0, &[])])
}

// ---- Refusal 5

/// Word 0: 256 taken as T 0; 257 or 320 refused; 65 to 128 taken as T with a flag of 64, or as so many terminals; 321
/// and up taken as so many; 513 and up taken by their low byte, or by one bit; seven words read of a grammar with six,
/// or six of one with seven.
fn first_words() -> Vec<Vec<u16>> {
    let mut list = Vec::new();
    let flags = [
        0, 64, 128, 192, 251, 252, 255, 256, 257, 320, 384, 507, 508, 512, 763, 764, 768, 1_024,
        32_768, 65_280,
    ];
    for draft in [bench_h(), with_six(bench_h())] {
        for flag in flags {
            let mut words = draft.words();
            words[0] = 5 + flag;
            list.push(words);
        }
    }
    for terminals in [0, 1, 2, 63, 64, 65, 69, 128] {
        list.push(empty(terminals).words());
        list.push(with_restart(empty(terminals), 0).words());
    }
    let firsts = [64, 128, 192, 256, 384, 512, 576, 65_344].map(|first| (64, first));
    for (terminals, first) in firsts.into_iter().chain([(1, 513), (1, 65_281)]) {
        let mut words = with_restart(empty(terminals), 0).words();
        words[0] = first;
        list.push(words);
    }
    list
}

/// The seventh word: each mark's number taken, T and more, numbers below T + 256, or cut to 6 or 8 bits; a number
/// refused where there are no cycles, or 0 refused there; 1 taken where T is 1. The unit in its place.
fn seventh_words() -> Vec<Vec<u16>> {
    let mut list = Vec::new();
    let marks = [
        0, 1, 2, 3, 4, 5, 6, 63, 64, 65, 68, 132, 255, 256, 257, 260, 261, 262, 65_535,
    ];
    for (opening, closing) in [(1, 3), (3, 1), (2, 2), (0, 0), (0, 3), (1, 0)] {
        for mark in marks {
            let mut draft = with_restart(bench_h(), mark);
            (draft.opening, draft.closing) = (opening, closing);
            list.push(draft.words());
        }
    }
    for (terminals, mark) in [
        (1, 1),
        (1, 2),
        (2, 1),
        (2, 2),
        (64, 63),
        (64, 64),
        (64, 319),
    ] {
        list.push(with_restart(empty(terminals), mark).words());
    }
    for (terminals, mark) in [(2, 0), (2, 1), (3, 2), (64, 62), (64, 63), (64, 64)] {
        let mut draft = with_restart(empty(terminals), mark);
        (draft.opening, draft.closing) = (1, 1);
        list.push(draft.words());
    }
    for (unit, mark) in [(1, 4), (2, 4), (4, 0), (4, 1), (4, 4), (1, 0), (0, 0)] {
        let mut words = with_word(5, unit);
        words[6] = mark;
        list.push(words);
    }
    list
}

/// The words end in the header, behind it, or one early or late; the seventh word is missing, or stands there twice.
fn cut() -> Vec<Vec<u16>> {
    let whole = bench_h().words();
    let mut list: Vec<Vec<u16>> = (1..=9).map(|size| whole[..size].to_vec()).collect();
    list.push(whole[..whole.len() - 1].to_vec());
    list.push([&whole[..], &[0]].concat());
    list.push([&whole[..6], &whole[7..]].concat());
    list.push([&whole[..7], &whole[6..]].concat());
    list
}

/// "All other conditions go by T": marks, costs and symbols in rules from T to word 0.
fn by_t() -> Vec<Vec<u16>> {
    let mut list = Vec::new();
    for (opening, closing) in [(4, 4), (5, 5), (5, 3), (1, 5), (63, 3), (1, 64), (260, 260)] {
        let mut draft = with_restart(bench_h(), 2);
        (draft.opening, draft.closing) = (opening, closing);
        list.push(draft.words());
    }
    for symbol in [0, 3, 5, 6, 63, 66, 67, 128, 260, 261] {
        let mut draft = bench_h();
        draft.rules[5].1[0] = symbol;
        list.push(draft.words());
    }
    // END's cost and reliability, and the last terminal's.
    for (place, word) in [(7, 1), (8, 1), (15, 0), (15, 1_001), (16, 60_001)] {
        list.push(with_word(place, word));
    }
    list
}

/// 6 to 9 with a header of seven words, and a bad seventh word tested behind them.
fn behind() -> Vec<Vec<u16>> {
    let drafts = [
        Draft::new(5, 2, &[(0, &[]), (1, &[1])]),
        Draft::new(5, 1, &[(0, &[64])]),
        costly_part(1, 8, 938),
        Draft::new(5, 1, &[(0, &[64, 1]), (0, &[])]),
        Draft::new(5, 1, &[(0, &[1, 64]), (0, &[])]),
    ];
    let mut list = Vec::new();
    for draft in drafts {
        for mark in [0, 1, 99] {
            list.push(with_restart(draft.clone(), mark).words());
        }
    }
    list
}

/// Refusal 10 by word 0: a token from T to word 0, also with T 1 and T 64.
fn tokens() -> Vec<Call> {
    let mut calls = Vec::new();
    for token in [0, 4, 5, 6, 63, 64, 65, 255, 256, 260, 261, 262, 65_535] {
        for draft in [bench_h(), with_six(bench_h())] {
            calls.push(Call::new(&draft, &[1, token, 3]));
        }
    }
    for (terminals, token) in [(1, 1), (1, 256), (64, 63), (64, 64), (64, 319), (64, 320)] {
        calls.push(Call::new(&with_restart(empty(terminals), 0), &[token]));
    }
    calls.push(Call::new(&with_restart(empty(1), 0), &[]));
    calls
}

// ---- The other programs

/// The inputs that `test_sweep` stores: the longest list, one word less and one more, with and without a restart mark;
/// and logs with restarts.
pub fn inputs() -> Vec<Vec<u8>> {
    let mut inputs = Vec::new();
    for (words, mark) in [(2_693, 63), (2_694, 63), (2_694, 0), (2_694, 64)] {
        let mut draft = large(words);
        let log = large_log(&draft);
        draft.restart = Some(mark);
        let ticks = vec![3; log.len()];
        let mut words = draft.words();
        inputs.push(standard_input(&words, &log, &ticks));
        words.push(0);
        inputs.push(standard_input(&words, &log, &ticks));
    }
    for call in cycles::chosen() {
        inputs.push(standard_input(&call.words, &call.tokens, &call.ticks));
    }
    inputs
}

/// The calls that `test_desk` stores.
pub fn desks() -> Vec<DeskCall> {
    let mut calls = Vec::new();
    for words in seventh_words().into_iter().chain(cut()).step_by(3) {
        calls.push((words, 4, 4));
    }
    for words in [bench_h().words(), with_word(6, 3), with_word(0, 321)] {
        for (costs, rules) in [(0, 0), (2, 3), (3, 2), (3, 3), (4, 64), (64, 4)] {
            calls.push((words.clone(), costs, rules));
        }
    }
    calls.push((missing().words(), 4, 4));
    calls
}

/// Any number of a 2, a restart, a 1, 66, which is two restarts, and a 3. Restarts that are missing are inserted.
pub fn missing() -> Draft {
    let rules: [(u16, &[u16]); 4] = [
        (0, &[65, 64]),
        (0, &[]),
        (1, &[2, 4, 1, 66, 3]),
        (2, &[4, 4]),
    ];
    let mut draft = Draft::new(5, 3, &rules);
    draft.terminals[4].0 = 3;
    (draft.opening, draft.closing, draft.restart) = (1, 3, Some(4));
    reliable(draft, &[1, 3], 40)
}

/// The calls that `test_marks` stores; `test_mark_lines` stores their words and logs.
pub fn marks() -> Vec<MarkCall> {
    let mut calls = Vec::new();
    let logs: [&[u16]; 11] = [
        &[1, 4, 3],
        &[1, 1, 4, 3],
        &[4],
        &[1, 4],
        &[4, 3],
        &[4, 1, 4, 4, 3, 4],
        &[1, 5, 3],
        &[2, 1, 3],
        &[2, 4, 1, 3, 2],
        &[2, 3, 2, 1],
        &[4, 1, 3, 3, 4, 4, 1],
    ];
    for log in logs {
        for draft in [bench_h(), with_six(bench_h()), missing()] {
            calls.push((draft.words(), log.to_vec(), [90, 40, 40]));
        }
    }
    for words in [with_word(6, 3), with_word(6, 0), with_word(0, 321)] {
        calls.push((words, LOG.to_vec(), [90, 40, 40]));
    }
    calls
}

#[cfg(test)]
mod tests;
