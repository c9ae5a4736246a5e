//! Grammars with ties, for request (iii) of document 02: several rules of one nonterminal whose right sides
//! all cost what it costs, at once or through other nonterminals, or just not.

use super::draft::Draft;
use super::grammar::shuffle;
use super::random::Random;

/// The cost of a token that pads right sides, in [`ladder`].
const PAD: u16 = 1;

/// Makes all costs the same, or nearly: many ties, and the grammar stays accepted.
pub fn even(random: &mut Random, draft: &mut Draft) {
    let most = random.pick(&[1, 1, 2, 3]);
    for terminal in draft.terminals.iter_mut().skip(1) {
        terminal.0 = random.word(1, most);
    }
}

/// Levels 64, 65 and so on. Each has a way down to the next and perhaps to a later one, and rules of its own.
/// These cost as much as the way down, or one more or less, so that costs fall late and ties are late. All
/// rules but the way down begin with a token of their own, and stand in any order.
pub fn ladder(random: &mut Random) -> Draft {
    let n = random.range(1, 20);
    let mut draft = Draft::new(2, n as u16, &[]);
    let mut costs = vec![0; n];
    for k in (0..n).rev() {
        let mut reached = Vec::new();
        if k + 1 < n {
            let pads = random.pick(&[0, 0, 0, 1, 2]);
            let mut right = vec![PAD; 1 + pads];
            right[0] = 65 + k as u16;
            draft.rules.push((k as u16, right));
            reached.push(costs[k + 1] + pads);
        }
        let aim = reached.first().copied();
        let aim = aim.unwrap_or_else(|| random.pick(&[1, 2, 7, 128, 255, 256, 998, 999]));
        let least = usize::from(reached.is_empty());
        for _ in 0..random.range(least, 3) {
            let aim = (aim + random.pick(&[0, 1, 1, 1, 2])).max(2) - 1;
            let later = k + 1 + random.below(n - k);
            let named = random.chance(1, 3) && later < n && costs[later] < aim;
            let right = if named {
                own_rule(random, &mut draft, aim - costs[later], Some(later))
            } else {
                own_rule(random, &mut draft, aim, None)
            };
            if let Some(right) = right {
                draft.rules.push((k as u16, right));
                reached.push(aim);
            }
        }
        costs[k] = *reached.iter().min().expect("a first rule is always made");
    }
    shuffle(random, &mut draft.rules);
    draft
}

/// A right side of this cost that begins with a new token, with some nonterminal at its end; nothing where
/// there is no token left or none so dear.
fn own_rule(
    random: &mut Random,
    draft: &mut Draft,
    cost: usize,
    named: Option<usize>,
) -> Option<Vec<u16>> {
    let pads = random.pick(&[0, 0, 1, 2, 5]).min(cost - 1);
    let first = cost - pads;
    if draft.terminals.len() == 64 || first > 1_000 {
        return None;
    }
    let mut right = vec![draft.t()];
    right.extend(vec![PAD; pads]);
    right.extend(named.map(|k| 64 + k as u16));
    draft.terminals.push((first as u16, 0));
    Some(right)
}

/// Many nonterminals with up to four rules each, which begin with 1 to 4 and are padded, in any order: rule
/// numbers up to 255.
pub fn wide(random: &mut Random) -> Draft {
    let n = random.word(33, 64);
    let mut draft = Draft::new(6, n, &[]);
    even(random, &mut draft);
    for k in 0..n {
        let down = random.word(1, 4);
        for first in 1..=4 {
            let mut right = vec![first];
            right.extend(vec![5; random.pick(&[0, 0, 1, 2])]);
            right.extend((first == down && k + 1 < n).then_some(65 + k));
            draft.rules.push((k, right));
        }
    }
    shuffle(random, &mut draft.rules);
    draft
}

/// Ties at costs around 60,000, rules that cost more where their nonterminal does not, and some that cost
/// 65,536 more than it.
pub fn dear(random: &mut Random) -> Draft {
    if random.chance(1, 3) {
        let mut draft = past_16_bits();
        draft.terminals[3].0 = random.word(7, 9);
        shuffle(random, &mut draft.rules);
        return draft;
    }
    let rules: [(u16, &[u16]); 4] = [(0, &[65; 8]), (0, &[66; 8]), (1, &[1; 8]), (2, &[2; 8])];
    let mut draft = Draft::new(4, 3, &rules);
    for terminal in 1..3 {
        draft.terminals[terminal].0 = random.word(937, 939);
    }
    if random.chance(1, 2) {
        // 3 x 8 costs at most 8,000.
        draft.rules.push((1, vec![3; 8]));
        draft.terminals[3].0 = random.word(936, 939);
    }
    shuffle(random, &mut draft.rules);
    draft
}

/// Rule 0 costs 8 x 8,193 = 65,536 + 8 and rule 1 costs 8: no tie, except in 16 bits.
pub fn past_16_bits() -> Draft {
    let rules: [(u16, &[u16]); 4] = [
        (0, &[65; 8]),
        (0, &[3]),
        (1, &[1, 1, 1, 1, 1, 1, 1, 66]),
        (2, &[1, 2]),
    ];
    let mut draft = Draft::new(4, 3, &rules);
    draft.terminals = vec![(0, 0), (1_000, 0), (193, 0), (8, 0)];
    draft
}

#[cfg(test)]
mod tests {
    use super::*;
    use crate::plain;

    #[test]
    fn ladders_and_wide_ones_are_accepted() {
        let mut random = Random::new(1);
        for _ in 0..300 {
            let (ladder, wide) = (ladder(&mut random), wide(&mut random));
            assert_eq!(plain::check(&ladder.words()).err(), None, "{ladder:?}");
            assert_eq!(plain::check(&wide.words()).err(), None, "{wide:?}");
            let verdict = plain::check(&dear(&mut random).words()).err();
            assert!(matches!(verdict, None | Some(8)));
        }
    }
}
