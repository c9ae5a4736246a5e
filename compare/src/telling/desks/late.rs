//! Costs that are known late and fall several times, for request (v): a rule that is not looked at again, or not
//! often enough, leaves a cost too high, or none, or another rule than the lowest.

use super::costing;
use crate::generate::{chains, Draft};

/// The grammars, each in several orders of its rules.
pub fn all() -> Vec<Draft> {
    let mut drafts = Vec::new();
    // START falls from 9 to 5 and 3, and the last way is tied, dearer or cheaper; 9 by the last way only; all
    // the same.
    for costs in [[9, 5, 3, 3], [9, 5, 3, 4], [9, 5, 3, 2], [9, 9, 9, 9]] {
        drafts.extend(orders(race(&[1, 3, 6, 9], &costs)));
        drafts.extend(orders(race(&[9, 6, 3, 1], &costs)));
    }
    // A fall at each of 20 steps, and a chain of 40 that learns of each.
    drafts.extend(orders(stairs(20, 40)));
    drafts.push(chains::down(64));
    drafts.push(chains::up(64));
    drafts.push(chains::follow_up(64));
    drafts.extend([0, 63, 64, 127, 128, 191, 192, 255].map(one_of_256));
    drafts
}

/// As written, backwards, and each half of the rules in turns.
fn orders(draft: Draft) -> Vec<Draft> {
    let mut backwards = draft.clone();
    backwards.rules.reverse();
    let mut turns = draft.clone();
    let (front, back) = draft.rules.split_at(draft.rules.len().div_ceil(2));
    turns.rules.clear();
    for (at, rule) in front.iter().enumerate() {
        turns.rules.push(rule.clone());
        turns.rules.extend(back.get(at).cloned());
    }
    vec![draft, backwards, turns]
}

/// START has a way for each length: so many single rules down to a token of this cost.
fn race(lengths: &[u16], costs: &[u16]) -> Draft {
    let mut draft = costing(1, costs, &[]);
    for (way, &length) in lengths.iter().enumerate() {
        let first = draft.nonterminals;
        draft.rules.push((0, vec![64 + first]));
        for k in first..first + length - 1 {
            draft.rules.push((k, vec![65 + k]));
        }
        draft.rules.push((first + length - 1, vec![1 + way as u16]));
        draft.nonterminals += length;
    }
    draft
}

/// A chain of single rules down to a nonterminal that goes on `falls` steps, each with a token that costs one less
/// than the token of the step before.
fn stairs(falls: u16, above: u16) -> Draft {
    let costs: Vec<u16> = (0..falls).map(|fall| 100 - fall).collect();
    let mut draft = costing(above + falls, &costs, &[]);
    for k in 0..above + falls - 1 {
        draft.rules.push((k, vec![65 + k]));
    }
    for fall in 0..falls {
        draft.rules.push((above + fall, vec![1 + fall]));
    }
    draft
}

/// 256 rules of 64 nonterminals. At this place stands the way of 65 to 66, that goes to 67 and 68, and 68 is a
/// token that costs 2. All other rules cost 9 or more, so that 65 is cheap by the rule at the place alone.
fn one_of_256(place: usize) -> Draft {
    let mut draft = costing(64, &[9, 9, 9, 9, 2], &[]);
    let mut others: Vec<(u16, Vec<u16>)> = Vec::new();
    for k in (0..2).chain(5..64) {
        // 65 goes on with 69.
        let next = if k == 1 { 69 } else { 65 + k };
        others.push((k, [1].into_iter().chain((k < 63).then_some(next)).collect()));
        others.extend((2..=4).map(|first| (k, vec![first])));
    }
    // To and fro, so that in each order some come late.
    others.insert(100, (2, vec![67]));
    others.insert(30, (3, vec![68]));
    others.insert(200, (4, vec![5]));
    while others.len() < 255 {
        others.push((63, vec![draft.t()]));
        draft.terminals.push((9, 0));
    }
    others.insert(place, (1, vec![66]));
    draft.rules = others;
    draft
}

#[cfg(test)]
mod tests {
    use super::*;
    use crate::plain;

    /// The numbers that the comments claim, worked out by hand.
    #[test]
    fn the_grammars_are_what_their_comments_say() {
        let answer = |draft: &Draft| {
            let n = usize::from(draft.nonterminals);
            let (mut costs, mut rules) = (vec![9; n], vec![9; n]);
            plain::costs(&draft.words(), &mut costs, &mut rules).map(|_| (costs, rules))
        };
        for draft in all() {
            assert!(answer(&draft).is_ok(), "{draft:?}");
        }
        let first = |draft: &Draft| answer(draft).map(|(costs, rules)| (costs[0], rules[0]));
        let tied = race(&[1, 3, 6, 9], &[9, 5, 3, 3]);
        // The ways of START are rules 0, 2, 6 and 13 of 23.
        assert_eq!(first(&tied), Ok((3, 6)));
        assert_eq!(first(&orders(tied)[1]), Ok((3, 22 - 13)));
        assert_eq!(first(&race(&[9, 6, 3, 1], &[9, 9, 9, 9])), Ok((9, 0)));
        let (costs, _) = answer(&stairs(20, 40)).expect("accepted");
        assert_eq!(costs, vec![81; 60]);
        for place in [0, 63, 64, 127, 128, 191, 192, 255] {
            let draft = one_of_256(place);
            assert_eq!(draft.rules.len(), 256);
            let (costs, rules) = answer(&draft).expect("accepted");
            assert_eq!((costs[1], rules[1]), (2, place as u16));
            assert_eq!(costs[0], 9);
        }
    }
}
