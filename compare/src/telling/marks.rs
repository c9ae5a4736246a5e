//! Calls and inputs shaped for request (iv), "A repaired log in marks alone": each tells apart wrong readings of which
//! string stands for a nonterminal, of where it stands, of long results, and in `refused` of when they are refused;
//! in `inputs` those of `print_marks`.

mod inputs;
mod refused;

pub use inputs::inputs;

use crate::examples::cheapest::empty_eights;
use crate::examples::empty_parts::{reliable, two_parts};
use crate::examples::marks::{either, nested};
use crate::generate::families::{bench_g, bench_g1};
use crate::generate::Draft;
use crate::telling::grammars::ones;

/// Words, a log, and the lengths of the edit, the rule and the token buffer.
pub type Call = (Vec<u16>, Vec<u16>, [usize; 3]);

/// The calls that `test_marks` stores behind the examples and the seeded ones.
pub fn calls() -> Vec<Call> {
    let mut calls = Vec::new();
    for (draft, log) in which().iter().chain(&places()) {
        calls.push((draft.words(), log.clone(), [90, 40, 40]));
    }
    calls.extend(empties());
    calls.extend(many());
    calls.extend(refused::rooms());
    calls.extend(refused::refusals());
    calls.extend(super::restarts::marks());
    calls.extend(super::units::marks());
    calls.extend(long());
    calls
}

/// A call for each length of the token buffer, in ample edit and rule buffers.
fn in_rooms(draft: &Draft, log: &[u16], rooms: &[usize]) -> Vec<Call> {
    let call = |&room: &usize| (draft.words(), log.to_vec(), [900, 300, room]);
    rooms.iter().map(call).collect()
}

// ---- Which string, and where

/// 64 -> 1 65 2, more rules behind that one, and these costs of the tokens from 3 on. The 1 and the 2 are reliable.
fn between(nonterminals: u16, costs: &[u16], rules: &[(u16, &[u16])]) -> Draft {
    let mut draft = Draft::new(3 + costs.len(), nonterminals, &[(0, &[1, 65, 2])]);
    let rules = rules.iter().map(|(left, right)| (*left, right.to_vec()));
    draft.rules.extend(rules);
    for (terminal, &cost) in draft.terminals.iter_mut().skip(3).zip(costs) {
        terminal.0 = cost;
    }
    reliable(draft, &[1, 2], 60_000)
}

/// The highest of the cheap rules, the first, the last or the shortest of all, or the one with the fewest tokens; a
/// string spelled backwards, or only one step deep; a nonterminal left as it is; tokens for parts that can be empty.
fn which() -> Vec<(Draft, Vec<u16>)> {
    let mut drafts = vec![either(3, 4), either(4, 3)];
    // The lowest cheap one of three stands at each place.
    for costs in [[1, 1, 1], [1, 2, 1], [1, 1, 2], [2, 1, 1], [2, 2, 1]] {
        drafts.push(between(2, &costs, &[(1, &[3]), (1, &[4]), (1, &[5])]));
    }
    // Two symbols or one.
    drafts.push(between(2, &[1, 2], &[(1, &[3, 3]), (1, &[4])]));
    drafts.push(between(2, &[1, 2], &[(1, &[4]), (1, &[3, 3])]));
    drafts.push(between(2, &[1, 9], &[(1, &[4]), (1, &[3, 3, 3])]));
    // Through another, in both orders; a tie below the rule that is taken.
    drafts.push(between(3, &[1, 1], &[(1, &[66]), (1, &[3]), (2, &[4])]));
    drafts.push(between(3, &[1, 1], &[(2, &[4]), (1, &[3]), (1, &[66])]));
    drafts.push(between(3, &[1, 1], &[(1, &[66, 66]), (2, &[4]), (2, &[3])]));
    // Strings that are not the same backwards, one and three steps deep.
    drafts.push(between(2, &[1, 1, 1], &[(1, &[3, 4, 5])]));
    drafts.push(between(3, &[1, 1, 1], &[(1, &[66, 5, 66]), (2, &[3, 4])]));
    let steps: [(u16, &[u16]); 3] = [(1, &[3, 66]), (2, &[67, 4]), (3, &[5, 3])];
    drafts.push(between(4, &[1, 1, 1], &steps));
    // A string that begins with the token before it, and one that ends with the token behind it.
    drafts.push(between(2, &[1], &[(1, &[1, 3])]));
    drafts.push(between(2, &[1], &[(1, &[3, 2])]));
    // A part of itself, and the tokens around it.
    drafts.push(between(2, &[1, 1, 1], &[(1, &[3, 65, 4]), (1, &[5])]));
    drafts.push(between(
        2,
        &[1, 1, 9],
        &[(1, &[5]), (1, &[3, 65, 4]), (1, &[4])],
    ));
    // Parts that can be empty: before, between and behind, by a rule of their own or another's.
    let parts: [(u16, &[u16]); 3] = [(1, &[66, 3, 66]), (2, &[4]), (2, &[])];
    drafts.push(between(3, &[1, 1], &parts));
    let below: [(u16, &[u16]); 4] = [(1, &[3, 66, 4]), (2, &[67, 67]), (3, &[]), (2, &[5])];
    drafts.push(between(4, &[1, 1, 1], &below));
    let mut pairs = Vec::new();
    for draft in drafts {
        for log in [&[1, 2][..], &[], &[1], &[2], &[2, 1]] {
            pairs.push((draft.clone(), log.to_vec()));
        }
    }
    pairs
}

/// 65 and 66 are two tokens each, and both are missing between the same two places.
fn several() -> Draft {
    let rules: [(u16, &[u16]); 5] = [
        (0, &[67, 64]),
        (0, &[]),
        (3, &[1, 65, 66, 65, 2]),
        (1, &[3, 4]),
        (2, &[5, 3]),
    ];
    reliable(Draft::new(6, 4, &rules), &[1, 2, 5], 60)
}

/// Inserted before another place than r, or behind its token; the symbols of one place in another order; a deleted
/// token kept, a kept one left out, or taken for an added one of its number; nothing inserted before END.
fn places() -> Vec<(Draft, Vec<u16>)> {
    let logs: [&[u16]; 14] = [
        &[1],
        &[1, 2],
        &[1, 4],
        &[1, 4, 1],
        &[4, 1, 4],
        &[3, 3],
        &[1, 1, 1],
        &[1, 2, 6, 3, 4],
        &[1, 2, 2, 4, 1],
        &[1, 2, 5, 1, 2, 4],
        &[1, 2, 5, 6, 4, 2],
        &[1, 2, 3, 4, 5, 1, 4],
        &[2, 3, 4, 1, 2, 3, 4, 4],
        &[5, 1, 5, 2, 5, 3, 5, 4, 5],
    ];
    let mut pairs = Vec::new();
    for log in logs {
        pairs.push((bench_g(), log.to_vec()));
        pairs.push((bench_g1(), log.to_vec()));
    }
    let logs: [&[u16]; 9] = [
        &[1, 2],
        &[1],
        &[1, 5, 2],
        &[1, 5, 3],
        &[1, 3, 4, 2],
        &[1, 2, 2, 1, 2],
        &[1, 1, 1],
        &[1, 3, 5, 2, 1],
        &[4, 1, 4, 4, 2, 4],
    ];
    for log in logs {
        pairs.push((several(), log.to_vec()));
    }
    for log in [&[1, 3][..], &[1, 1, 3], &[3, 1], &[1, 2, 1, 3], &[2, 2, 3]] {
        pairs.push((two_parts(), log.to_vec()));
    }
    for log in [&[1, 1, 2][..], &[1, 1, 1], &[2, 1, 2], &[1, 2, 2, 1]] {
        pairs.push((nested(), log.to_vec()));
    }
    pairs
}

/// 64 -> 1 65, where 65 and so on are eight of the next each and the last is empty: 8^62 leaves, all of them empty.
fn empties_inside() -> Draft {
    let mut draft = empty_eights();
    draft.rules[0].1 = vec![1, 65];
    draft
}

/// Symbols of cost 0 followed, or given a token. In the first grammar START has 8^63 leaves, and is never missing; in
/// the other one it may be, and only its 1 is added.
fn empties() -> Vec<Call> {
    let mut calls = Vec::new();
    for log in [&[][..], &[1], &[1, 1]] {
        calls.extend(in_rooms(&empty_eights(), log, &[0, 3]));
        calls.extend(in_rooms(&empties_inside(), log, &[0, 1, 4]));
    }
    calls
}

// ---- Long ones

/// 4,096 and 4,095 tokens kept; 1,365 times a nonterminal that is missing, and as many records as there is room for.
fn many() -> Vec<Call> {
    let mut calls = Vec::new();
    for (tokens, marks) in [(4_096, 4_096), (4_096, 4_095), (4_095, 4_096)] {
        calls.push((ones().words(), vec![1; tokens], [0, 4_096, marks]));
    }
    let cycles = [1, 4].repeat(1_365);
    for (edits, marks) in [(4_096, 5_461), (4_095, 5_460), (4_095, 5_459), (4_094, 0)] {
        let log = cycles.clone();
        calls.push((bench_g().words(), log, [edits, 2_740, marks]));
    }
    calls
}

/// START is 60,000 tokens of 1, as many as a string has at most.
fn sixty_thousand() -> Draft {
    let mut draft = Draft::new(2, 7, &[]);
    for (level, times) in [8, 6, 5, 5, 5, 5].into_iter().enumerate() {
        let level = level as u16;
        draft.rules.push((level, vec![65 + level; times]));
    }
    draft.rules.push((6, vec![1; 2]));
    draft
}

/// Between 2 and 3 stands 65, 32,000 tokens of 1, any number of times, with any number of 4 beside them.
pub(super) fn thousands() -> Draft {
    let rules: [(u16, &[u16]); 9] = [
        (0, &[2, 65, 3, 64]),
        (0, &[4, 64]),
        (0, &[]),
        (1, &[66; 8]),
        (2, &[67; 8]),
        (3, &[68; 5]),
        (4, &[69; 5]),
        (5, &[70; 5]),
        (6, &[1; 4]),
    ];
    reliable(Draft::new(5, 7, &rules), &[3], 60_000)
}

/// A log for a result of so many tokens, 64,005 at least: both 65 are missing, and the rest is kept.
pub(super) fn thousands_log(marks: usize) -> Vec<u16> {
    let mut log = vec![4; marks - 64_000];
    log[1..5].copy_from_slice(&[2, 3, 2, 3]);
    log
}

/// The number of tokens in 16 bits, or room for them; one token too few taken, or one too many asked, far out.
fn long() -> Vec<Call> {
    let mut calls = Vec::new();
    for room in [0, 59_999, 60_000, 60_001] {
        calls.extend(in_rooms(&sixty_thousand(), &[], &[room]));
    }
    for log in [&[2, 3][..], &[4, 2, 3, 4]] {
        let size = 32_000 + log.len();
        calls.extend(in_rooms(&thousands(), log, &[size - 1, size, size + 9]));
    }
    // 65,536 tokens are 0 in 16 bits, and 65,541 are 5.
    let rooms: [(usize, &[usize]); 3] = [
        (65_535, &[65_535, 65_534, 0]),
        (65_536, &[65_535, 0, 1]),
        (65_541, &[65_535, 4, 5, 6]),
    ];
    for (marks, rooms) in rooms {
        for &room in rooms {
            let log = thousands_log(marks);
            calls.push((thousands().words(), log, [900, 2_000, room]));
        }
    }
    calls
}

#[cfg(test)]
mod tests;
