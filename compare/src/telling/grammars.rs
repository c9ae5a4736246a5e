//! The grammars of the inputs that are shaped by hand.

use crate::generate::Draft;

/// A log of 2, 3 and 1: when 1 comes, 66 66 stands above it, which costs 16 x `symbols` x `cost`.
pub fn far(symbols: usize, cost: u16, reliability: u16) -> Draft {
    let mut draft = Draft::new(
        5,
        4,
        &[
            (0, &[2, 65, 66, 1]),
            (0, &[]),
            (1, &[3, 66]),
            (1, &[]),
            (2, &[67; 8]),
        ],
    );
    draft.rules.push((3, vec![4; symbols]));
    draft.terminals[1].1 = reliability;
    draft.terminals[4].0 = cost;
    draft
}

/// START costs 0. Nonterminal 65 is `eights` levels of eight over `symbols` of this cost.
pub fn costly_part(eights: u16, symbols: usize, cost: u16) -> Draft {
    let mut draft = Draft::new(3, 2 + eights, &[(0, &[1, 65]), (0, &[])]);
    for level in 1..=eights {
        draft.rules.push((level, vec![65 + level; 8]));
    }
    draft.rules.push((1 + eights, vec![2; symbols]));
    draft.terminals[2].0 = cost;
    draft
}

/// "With 64 -> 1 64 2 and 64 -> empty."
pub fn nested() -> Draft {
    Draft::new(3, 1, &[(0, &[1, 64, 2]), (0, &[])])
}

/// Any number of 1.
pub fn ones() -> Draft {
    Draft::new(2, 1, &[(0, &[1, 64]), (0, &[])])
}

/// Any order of the marks 1 and 2. A 3 stands in no rule and is always deleted.
pub fn marks(opening: u16, closing: u16, unit: u16) -> Draft {
    let mut draft = Draft::new(4, 1, &[(0, &[1, 64]), (0, &[2, 64]), (0, &[])]);
    (draft.opening, draft.closing, draft.unit) = (opening, closing, unit);
    draft
}

/// A 1 with six 2 behind it, any number of times: in a log of 1 alone each next 1 has six inserts.
pub fn six_behind() -> Draft {
    let mut draft = Draft::new(3, 1, &[(0, &[1, 2, 2, 2, 2, 2, 2, 64]), (0, &[])]);
    draft.terminals[1].1 = 100;
    draft
}

/// A 1 takes 64 expands, START and 63 single rules below it, and a 2 takes one.
pub fn long_chain() -> Draft {
    let mut draft = Draft::new(3, 64, &[(0, &[65, 64]), (0, &[2, 64]), (0, &[])]);
    for level in 1..63 {
        draft.rules.push((level, vec![65 + level]));
    }
    draft.rules.push((63, vec![1]));
    draft
}

/// A 1 takes 82 moves: 11 expands, 70 drops of nonterminal 75, which is only ever empty, a match.
pub fn many_drops() -> Draft {
    let mut draft = Draft::new(2, 12, &[(0, &[65, 64]), (0, &[]), (11, &[])]);
    for level in 1..=10 {
        let below = if level == 10 { 1 } else { 65 + level };
        let mut right = vec![75; 7];
        right.push(below);
        draft.rules.push((level, right));
    }
    draft
}

/// An accepted grammar of so many words, 965 to 2,694: T 64, N 64, P 256. Nonterminal 64 + k has
/// four rules that begin with 1 to 4; the first of them ends with the next nonterminal.
pub fn large(words: usize) -> Draft {
    let mut draft = Draft::new(64, 64, &[]);
    let mut left = words - 965;
    for k in 0..64 {
        for first in 1..=4 {
            let next = (first == 1 && k < 63).then_some(65 + k);
            let most = if next.is_some() { 6 } else { 7 };
            let more = left.min(most);
            left -= more;
            let mut right = vec![first];
            right.extend((0..more).map(|at| 5 + (7 * k + at as u16) % 59));
            right.extend(next);
            draft.rules.push((k, right));
        }
    }
    draft
}

/// The log that takes the first rule of each nonterminal of [`large`], and the last rule of all.
pub fn large_log(draft: &Draft) -> Vec<u16> {
    let firsts = draft.rules.iter().step_by(4).take(63);
    let taken = firsts.chain(draft.rules.last());
    let symbols = taken.flat_map(|(_, right)| right.iter().copied());
    symbols.filter(|&symbol| symbol < 64).collect()
}
