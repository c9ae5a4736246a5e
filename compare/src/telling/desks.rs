//! Calls shaped for request (iii), "Which rule is the cheap one": each tells apart wrong readings of which
//! rule is given, of the words given, and in `refused` of when they are refused. In `late` costs are known
//! late, for request (v).

mod late;
mod refused;

use crate::examples::cheapest::{eights, empty_eights, late_tie};
use crate::generate::ties::past_16_bits;
use crate::generate::Draft;

/// Words and the lengths of the cost and the rule buffer.
pub type Call = (Vec<u16>, usize, usize);

/// The calls that `test_desk` stores behind the examples and the seeded ones.
pub fn costs() -> Vec<Call> {
    let mut calls = Vec::new();
    for draft in ties().iter().chain(&falling()).chain(&empties()) {
        calls.push(in_room(draft));
    }
    for draft in numbers() {
        calls.extend(in_rooms(&draft, &[(64, 64), (63, 64), (64, 63), (65, 512)]));
    }
    for draft in widths() {
        calls.push((draft.words(), 8, 8));
    }
    calls.extend(refused::rooms());
    calls.extend(refused::refusals());
    calls.extend(late::all().iter().map(in_room));
    calls.extend(super::restarts::desks());
    calls.extend(super::units::desks());
    calls
}

/// A call in buffers that are long enough.
fn in_room(draft: &Draft) -> Call {
    let n = usize::from(draft.nonterminals);
    (draft.words(), n, n + 2)
}

/// A grammar whose terminals have these costs, from 1 on.
fn costing(nonterminals: u16, costs: &[u16], rules: &[(u16, &[u16])]) -> Draft {
    let mut draft = Draft::new(1 + costs.len(), nonterminals, rules);
    for (terminal, &cost) in draft.terminals.iter_mut().skip(1).zip(costs) {
        terminal.0 = cost;
    }
    draft
}

fn in_rooms(draft: &Draft, rooms: &[(usize, usize)]) -> Vec<Call> {
    let call = |&(costs, rules): &(usize, usize)| (draft.words(), costs, rules);
    rooms.iter().map(call).collect()
}

// ---- Which rule

/// The highest of tied rules, the one with the fewest or the most symbols, with or without nonterminals, with
/// the lowest or the highest tree; a number among the nonterminal's own rules, or from 1.
fn ties() -> Vec<Draft> {
    let mut drafts = Vec::new();
    // The lowest of three stands at each place.
    for costs in [[1, 1, 1], [1, 2, 1], [1, 1, 2], [2, 1, 1], [2, 2, 1]] {
        drafts.push(costing(1, &costs, &[(0, &[1]), (0, &[2]), (0, &[3])]));
    }
    // Two symbols or one, three or one.
    for (one, two) in [(&[1, 1][..], &[2][..]), (&[2][..], &[1, 1][..])] {
        drafts.push(costing(1, &[1, 2], &[(0, one), (0, two)]));
        drafts.push(costing(1, &[2, 4], &[(0, one), (0, two)]));
    }
    drafts.push(costing(1, &[1, 3], &[(0, &[1, 1, 1]), (0, &[2])]));
    // A nonterminal or a terminal, in both orders; 65 stands before, between and behind.
    drafts.push(late_tie(1));
    drafts.push(costing(2, &[1, 1], &[(0, &[1]), (0, &[65]), (1, &[2])]));
    drafts.push(costing(2, &[1, 1], &[(1, &[2]), (0, &[65]), (0, &[1])]));
    drafts.push(costing(2, &[1, 1], &[(0, &[65]), (1, &[2]), (0, &[1])]));
    // Through two others, whose own rules stand in both orders.
    let both: [(u16, &[u16]); 4] = [(0, &[65]), (0, &[66]), (1, &[1]), (2, &[2])];
    drafts.push(costing(3, &[1, 1], &both));
    let turned: [(u16, &[u16]); 4] = [(2, &[2]), (1, &[1]), (0, &[66]), (0, &[65])];
    drafts.push(costing(3, &[1, 1], &turned));
    // A high tree and a low one, in both orders.
    let high: [(u16, &[u16]); 5] = [(0, &[65]), (0, &[67]), (1, &[66]), (2, &[1]), (3, &[2])];
    drafts.push(costing(4, &[1, 1], &high));
    let low: [(u16, &[u16]); 5] = [(0, &[67]), (0, &[65]), (1, &[66]), (2, &[1]), (3, &[2])];
    drafts.push(costing(4, &[1, 1], &low));
    // The last nonterminal first, and each with another cost: words in the order of the rules.
    let backwards: [(u16, &[u16]); 5] = [
        (3, &[4]),
        (2, &[3, 67]),
        (1, &[2]),
        (1, &[5, 66]),
        (0, &[1, 65]),
    ];
    drafts.push(costing(4, &[100, 20, 3, 7, 10], &backwards));
    drafts.extend(late_chains());
    drafts
}

/// Chains of 64 -> 65; 64 -> 1; 65 -> 66; 65 -> 2 and so on with costs of 1: every rule is tied. The ways down
/// come first or last, by levels from above or below, or all before the tokens, or all behind them.
fn late_chains() -> Vec<Draft> {
    const LEVELS: u16 = 7;
    let downs = (0..LEVELS - 1).map(|k| (k, vec![65 + k]));
    let tokens = (0..LEVELS).map(|k| (k, vec![1 + k]));
    let all: Vec<(u16, Vec<u16>)> = downs.chain(tokens).collect();
    let mut orders = vec![all.clone(), all.clone(), all.clone(), all];
    orders[1].rotate_left(usize::from(LEVELS) - 1);
    orders[2].sort_by_key(|(k, right)| (*k, right[0] < 64));
    orders[3].sort_by_key(|(k, right)| (LEVELS - k, right[0] >= 64));
    let chain = |rules| {
        let mut draft = Draft::new(1 + usize::from(LEVELS), LEVELS, &[]);
        draft.rules = rules;
        draft
    };
    orders.into_iter().map(chain).collect()
}

/// The rule noted when a cost falls, for the first or the last time: costs that fall again and again.
fn falling() -> Vec<Draft> {
    // START falls from 9 to 6 by one rule.
    let stairs: [(u16, &[u16]); 7] = [
        (0, &[1]),
        (0, &[65]),
        (1, &[2]),
        (1, &[66]),
        (2, &[3]),
        (2, &[67]),
        (3, &[4]),
    ];
    // START falls from 9 to 5 and 3 by three rules; then 65 falls to 3 too, and the second is tied.
    let crossing: [(u16, &[u16]); 9] = [
        (0, &[1]),
        (0, &[65]),
        (0, &[66]),
        (1, &[2]),
        (1, &[68]),
        (2, &[67]),
        (3, &[3]),
        (4, &[69]),
        (5, &[4]),
    ];
    let mut drafts = vec![
        costing(4, &[9, 8, 7, 6], &stairs),
        costing(4, &[9, 8, 7, 7], &stairs),
        costing(6, &[9, 5, 3, 3], &crossing),
        costing(6, &[9, 5, 3, 2], &crossing),
        costing(6, &[9, 5, 3, 4], &crossing),
        costing(6, &[3, 3, 3, 3], &crossing),
    ];
    for draft in drafts.clone() {
        let rules = draft.rules.iter().rev().cloned().collect();
        drafts.push(Draft { rules, ..draft });
    }
    drafts
}

/// No rule for what costs nothing, or an empty rule passed over: 64 costs 0 by the first rule or the last, by
/// an empty rule or one of things that can be empty.
fn empties() -> Vec<Draft> {
    vec![
        Draft::new(1, 1, &[(0, &[])]),
        Draft::new(2, 1, &[(0, &[1, 64]), (0, &[])]),
        Draft::new(2, 1, &[(0, &[]), (0, &[1, 64])]),
        Draft::new(3, 2, &[(0, &[1, 64]), (0, &[65]), (1, &[2]), (1, &[])]),
        Draft::new(2, 3, &[(2, &[1]), (2, &[]), (1, &[]), (0, &[65, 66])]),
        Draft::new(
            4,
            3,
            &[(1, &[2]), (1, &[66]), (0, &[1, 65]), (2, &[3]), (2, &[])],
        ),
        empty_eights(),
    ]
}

// ---- Which words

/// Numbers in 7 bits, or among the nonterminal's own rules: 64 nonterminals with four rules each, which begin
/// with 1 to 4; the first goes on with the next nonterminal. One token costs 1 and the others 9, so that the
/// cheapest is each of the four; where it is the first, costs add up to 9, and one more would tie.
fn numbers() -> Vec<Draft> {
    let mut drafts = Vec::new();
    for cheap in 1..=4 {
        let mut draft = Draft::new(5, 64, &[]);
        for k in 0..64 {
            for first in 1..=4 {
                let mut right = vec![first];
                right.extend((first == 1 && k < 63).then_some(65 + k));
                draft.rules.push((k, right));
            }
        }
        draft.terminals.iter_mut().skip(1).for_each(|t| t.0 = 9);
        draft.terminals[cheap].0 = 1;
        drafts.push(draft);
    }
    // The same from the last rule to the first: number 255 is a rule of START.
    let mut last = drafts[3].clone();
    last.rules.reverse();
    drafts.push(last);
    drafts
}

/// Costs in 8 or 15 bits, and right sides compared in 8 or 16: what costs 256 or 65,536 more is no tie. A rule may
/// cost more than 60,000 where its nonterminal does not. 60,000 itself is given, and 60,008 refused.
fn widths() -> Vec<Draft> {
    let mut drafts = vec![past_16_bits()];
    for cost in [1, 127, 128, 255, 256, 257, 511, 512, 513, 1_000] {
        drafts.push(costing(1, &[cost], &[(0, &[1])]));
        drafts.push(eights(cost.min(937)));
    }
    for costs in [[257, 1], [256, 256], [300, 44], [999, 1_000], [1_000, 999]] {
        drafts.push(costing(1, &costs, &[(0, &[1]), (0, &[2])]));
    }
    let two: [(u16, &[u16]); 4] = [(0, &[65; 8]), (0, &[66; 8]), (1, &[1; 8]), (2, &[2; 8])];
    for costs in [[937, 937], [938, 937], [937, 938], [938, 938]] {
        drafts.push(costing(3, &costs, &two));
    }
    let full: [(u16, &[u16]); 2] = [(0, &[65; 8]), (1, &[1, 1, 1, 1, 2, 2, 2, 3])];
    for last in [937, 938, 939] {
        drafts.push(costing(2, &[937, 938, last], &full));
    }
    drafts
}

#[cfg(test)]
mod tests;
