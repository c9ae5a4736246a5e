//! Calls of the desk that are refused, or just not: refusal 23, and behind which others it comes.

use super::{costing, in_rooms, Call};
use crate::examples::cheapest::{eights, empty_eights, late_tie, shared};
use crate::generate::families::bench_g;
use crate::generate::Draft;

/// Refusal 23 for one buffer only, for both only, or for N words; an old word left behind the last, near or far,
/// or after the refusal; N words asked of P or 64.
pub fn rooms() -> Vec<Call> {
    let mut calls = Vec::new();
    for draft in [bench_g(), late_tie(1), Draft::new(2, 1, &[(0, &[1])])] {
        let n = usize::from(draft.nonterminals);
        for room in [0, 1, 2, n - 1, n, n + 1, 6, 64, 511, 512] {
            let rooms = [(room, n), (n, room), (room, room), (room, 512), (512, room)];
            for call in in_rooms(&draft, &rooms) {
                if !calls.contains(&call) {
                    calls.push(call);
                }
            }
        }
    }
    let rooms = [(63, 63), (63, 65), (65, 63), (64, 65), (65, 64), (512, 512)];
    calls.extend(in_rooms(&empty_eights(), &rooms));
    calls
}

/// 23 before 5 to 9, or old words left after these: in buffers that are long enough and in some that are not.
pub fn refusals() -> Vec<Call> {
    let mut calls = Vec::new();
    for words in misshapen().into_iter().chain(refused_for_their_rules()) {
        let n = words.get(1).map_or(0, |&n| usize::from(n.min(64)));
        let less = n.saturating_sub(1);
        let (short, ample) = ([(0, 0), (0, 70), (70, 0)], [(70, 70), (n, n)]);
        let rooms = short.into_iter().chain([(less, n), (n, less)]).chain(ample);
        for (costs, rules) in rooms {
            let call = (words.clone(), costs, rules);
            if !calls.contains(&call) {
                calls.push(call);
            }
        }
    }
    calls
}

/// Refusal 5: hardly any words, G cut, with a word too many, with a bad unit, and with N 0, 65 and far too many.
fn misshapen() -> Vec<Vec<u16>> {
    let mut list: Vec<Vec<u16>> = vec![Vec::new(), vec![2], vec![2, 2], vec![7, 64, 6]];
    let g = bench_g().words();
    list.push(g[..g.len() - 1].to_vec());
    list.push([&g[..], &[0]].concat());
    for (place, word) in [(5, 2), (1, 0), (1, 65), (1, 65_535)] {
        let mut words = g.clone();
        words[place] = word;
        list.push(words);
    }
    list
}

/// Refusal 9, also at a cost of 0; 8 alone, far over, and with 9; 7 alone and with 9; 6 alone and with 7.
fn refused_for_their_rules() -> Vec<Vec<u16>> {
    let both: [(u16, &[u16]); 3] = [(0, &[1, 65]), (0, &[1]), (1, &[])];
    let dear: [(u16, &[u16]); 3] = [(0, &[65; 8]), (0, &[65; 8]), (1, &[1; 8])];
    let dearer: [(u16, &[u16]); 3] = [(0, &[65; 8]), (1, &[66; 8]), (2, &[1; 8])];
    let endless: [(u16, &[u16]); 3] = [(0, &[1]), (0, &[1, 65]), (1, &[65])];
    let lost: [(u16, &[u16]); 3] = [(0, &[1]), (1, &[2]), (2, &[66])];
    let drafts = [
        shared(),
        costing(2, &[1], &both),
        costing(1, &[1], &[(0, &[]), (0, &[64])]),
        eights(938),
        costing(3, &[1_000], &dearer),
        costing(2, &[1_000], &dear),
        Draft::new(2, 2, &[(0, &[65]), (1, &[65])]),
        Draft::new(2, 2, &endless),
        Draft::new(3, 2, &lost[..2]),
        Draft::new(3, 3, &lost),
    ];
    drafts.iter().map(Draft::words).collect()
}
