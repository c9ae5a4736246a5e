//! Calls that are refused, or just not: refusal 15, and behind which others it comes.

use super::{in_rooms, several, Call};
use crate::examples::cheapest::{eights, shared};
use crate::examples::marks::{either, nested};
use crate::generate::families::bench_g;
use crate::generate::Draft;

/// One word too few taken, or one too many asked, of any of the buffers; an old word left behind the last, near or
/// far; words left after 15; the edits or the rules asked for room of the tokens, or the other way.
pub fn rooms() -> Vec<Call> {
    let mut calls = Vec::new();
    let logs: [(Draft, &[u16], [usize; 3]); 5] = [
        (bench_g(), &[1, 1, 2, 3, 4], [6, 5, 8]),
        (bench_g(), &[5, 1, 2, 4, 1], [15, 5, 8]),
        (either(3, 4), &[1, 2], [3, 1, 3]),
        (several(), &[1, 2, 1, 2], [18, 5, 16]),
        (nested(), &[1, 1, 2], [3, 2, 4]),
    ];
    for (draft, log, needed) in logs {
        for at in 0..3 {
            for room in 0..=needed[at] + 3 {
                let mut rooms = [needed[0] + 4, needed[1] + 4, needed[2] + 4];
                rooms[at] = room;
                calls.push((draft.words(), log.to_vec(), rooms));
            }
        }
        let less = needed.map(|room| room - 1);
        for rooms in [needed, less, [0; 3], [needed[0], needed[1], less[2]]] {
            calls.push((draft.words(), log.to_vec(), rooms));
        }
    }
    calls.extend(in_rooms(&nested(), &[1; 253], &[504, 505, 506, 507, 700]));
    calls
}

/// 15 before another refusal, or words left after one: in token buffers that are long enough and in none.
pub fn refusals() -> Vec<Call> {
    let mut calls = Vec::new();
    let mut put = |words: &[u16], log: &[u16], edits: usize, rules: usize| {
        for marks in [0, 1, 600] {
            calls.push((words.to_vec(), log.to_vec(), [edits, rules, marks]));
        }
    };
    // 5 to 9, with a log that is good or out of range, and no room for it.
    for words in refused_words() {
        put(&words, &[1], 30, 30);
        put(&words, &[1, 64], 0, 0);
    }
    // 10: a token out of range at the end of a log that misses something; too many tokens.
    let g = bench_g().words();
    for token in [0, 7, 64, 65_535] {
        put(&g, &[1, 4, token], 30, 30);
        put(&g, &[1, 4, token], 0, 0);
    }
    put(&g, &[1; 4_097], 30, 30);
    // 11, also where rules or edits do not fit either, and behind a token that is missing.
    let deep = nested().words();
    for (edits, rules) in [(900, 300), (0, 253), (0, 252), (3, 253)] {
        put(&deep, &[1; 254], edits, rules);
    }
    // 12 by the edits, by the rules, by both; a result that would fit, and one that would not.
    for (edits, rules) in [(2, 9), (5, 9), (9, 1), (9, 4), (0, 0)] {
        put(&g, &[1, 1, 2, 3, 4], edits, rules);
        put(&eights(937).words(), &[], edits % 3, rules);
    }
    calls
}

/// Refused by each of 5 to 9: G cut, with a word too many and a bad unit; an unreachable nonterminal, an endless one,
/// one over 60,000, and rules that share a token.
fn refused_words() -> Vec<Vec<u16>> {
    let g = bench_g().words();
    let mut list = vec![
        Vec::new(),
        g[..g.len() - 1].to_vec(),
        [&g[..], &[0]].concat(),
    ];
    let mut words = g;
    words[5] = 2;
    list.push(words);
    for draft in [
        Draft::new(2, 2, &[(0, &[]), (1, &[1])]),
        Draft::new(2, 1, &[(0, &[64])]),
        eights(938),
        Draft::new(2, 1, &[(0, &[64, 1]), (0, &[])]),
        shared(),
    ] {
        list.push(draft.words());
    }
    list
}
