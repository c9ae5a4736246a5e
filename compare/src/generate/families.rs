//! Families of grammars that are known by heart: bench grammar G, G1 with unit 1, H with restarts, nested brackets,
//! chains, and costs around 60,000.

use super::draft::Draft;
use super::grammar::weigh;
use super::random::Random;

/// Bench grammar G of document 01.
pub fn bench_g() -> Draft {
    let rules: [(u16, &[u16]); 6] = [
        (0, &[65, 64]),
        (0, &[]),
        (1, &[1, 66, 4]),
        (2, &[2, 67, 3]),
        (3, &[5, 6]),
        (3, &[]),
    ];
    let mut draft = Draft::new(7, 4, &rules);
    draft.terminals = vec![(0, 0), (20, 60), (3, 9), (5, 15), (4, 40), (3, 2), (3, 2)];
    (draft.opening, draft.closing) = (1, 4);
    draft
}

/// G1 of request (viii): G with unit 1, as old files have it.
pub fn bench_g1() -> Draft {
    in_hundredths(bench_g())
}

/// The grammar with unit 1.
pub fn in_hundredths(mut draft: Draft) -> Draft {
    draft.unit = 1;
    draft
}

/// Grammar H of request (vi): any number of cycles, a 1, any number of 2 and of restarts, which are 4, and a 3; and
/// restarts between the cycles.
pub fn bench_h() -> Draft {
    let rules: [(u16, &[u16]); 7] = [
        (0, &[65, 64]),
        (0, &[4, 64]),
        (0, &[]),
        (1, &[1, 66, 3]),
        (2, &[2, 66]),
        (2, &[4, 66]),
        (2, &[]),
    ];
    let mut draft = Draft::new(5, 3, &rules);
    draft.terminals = vec![(0, 0), (20, 60), (3, 9), (4, 40), (1, 2)];
    (draft.opening, draft.closing) = (1, 3);
    draft.restart = Some(4);
    draft
}

/// Nested brackets, over up to six pads so that the stack meets 256 symbols in every way:
/// document 01's own; START -> 65 3.., 65 -> 1 65 2..; the same through a third nonterminal,
/// with a part that can be empty behind the 1, and with three such parts before it, where the
/// stack is highest before they are dropped. Such logs meet refusal 11.
pub fn nest(random: &mut Random) -> Draft {
    let own: [(u16, &[u16]); 2] = [(0, &[1, 64]), (0, &[])];
    let below: [(u16, &[u16]); 3] = [(1, &[1, 65]), (1, &[]), (0, &[65])];
    let third: [(u16, &[u16]); 4] = [(2, &[1, 65]), (1, &[66]), (1, &[]), (0, &[65])];
    let behind: [(u16, &[u16]); 5] = [(1, &[1, 66, 65]), (1, &[]), (0, &[65]), (2, &[3]), (2, &[])];
    let before: [(u16, &[u16]); 11] = [
        (1, &[66, 67, 68, 69]),
        (0, &[70]),
        (2, &[4]),
        (2, &[]),
        (3, &[5]),
        (3, &[]),
        (4, &[6]),
        (4, &[]),
        (5, &[1, 70]),
        (6, &[65]),
        (6, &[]),
    ];
    let mut draft = match random.below(6) {
        0 => Draft::new(4, 1, &own),
        1 => Draft::new(4, 2, &below),
        2 => Draft::new(4, 3, &third),
        3 => Draft::new(4, 3, &behind),
        _ => Draft::new(7, 7, &before),
    };
    draft.rules[0].1.extend(vec![2; random.range(1, 4)]);
    let start = |(left, right): &&mut (u16, Vec<u16>)| *left == 0 && right.len() == 1;
    if let Some((_, right)) = draft.rules.iter_mut().find(start) {
        right.extend(vec![3; random.below(7)]);
    }
    weigh(random, &mut draft);
    draft
}

/// A chain START -> 65 -> 66 .. whose last nonterminal begins with 1: many expands a token,
/// and on a damaged log many inserts, so that 16,384 rules and 8,192 records run out.
pub fn chain(random: &mut Random) -> Draft {
    let n = random.word(2, 12);
    let mut draft = Draft::new(3, n, &[]);
    for k in 0..n - 1 {
        draft.rules.push((k, vec![65 + k]));
    }
    draft.rules[0].1.push(64);
    draft.rules.push((0, Vec::new()));
    let mut last = vec![1];
    last.extend(vec![2; random.below(8)]);
    draft.rules.push((n - 1, last));
    weigh(random, &mut draft);
    draft
}

/// START is eight of 65, and 65 (one of them 66) eight tokens; START costs about 60,000.
pub fn costly(random: &mut Random) -> Draft {
    let mut draft = match random.below(3) {
        // Document 01's own: eight times eight tokens of one cost.
        0 => {
            let mut draft = Draft::new(2, 2, &[(0, &[65; 8]), (1, &[1; 8])]);
            draft.terminals[1].0 = random.word(936, 939);
            draft
        }
        // 7 x 7,500 and one of 7,500 plus or minus a little.
        1 => {
            let mut draft = Draft::new(5, 3, &[(0, &[65; 8]), (1, &[1, 1, 1, 1, 2, 2, 2, 2])]);
            draft.terminals[1].0 = 937;
            draft.terminals[2].0 = 938;
            draft.terminals[3].0 = 936;
            draft.terminals[4].0 = random.word(936, 942);
            let at = random.below(8);
            draft.rules[0].1[at] = 66;
            draft
                .rules
                .push((2, vec![4, 1, 1, 1, 2, 2, 2, random.word(1, 3)]));
            draft
        }
        // A chain that costs 8^k, far past any machine word for a long one.
        _ => {
            let n = random.word(2, 64);
            let mut draft = Draft::new(2, n, &[]);
            for k in 0..n - 1 {
                let times = if n < 8 { random.range(5, 8) } else { 8 };
                draft.rules.push((k, vec![65 + k; times]));
            }
            draft.rules.push((n - 1, vec![1]));
            draft
        }
    };
    // Sometimes a second way out that is cheaper.
    if random.chance(1, 4) {
        let t = draft.t();
        draft.terminals.push((random.word(1, 1_000), 0));
        draft.rules.push((draft.nonterminals - 1, vec![t]));
    }
    let reliability = random.pick(&[0, 1, 59_999, 60_000]);
    draft
        .terminals
        .iter_mut()
        .skip(1)
        .for_each(|t| t.1 = reliability);
    draft
}

#[cfg(test)]
mod tests {
    use super::*;
    use crate::plain;

    #[test]
    fn families_are_what_they_are_called() {
        let mut random = Random::new(1);
        for _ in 0..300 {
            assert!(plain::check(&nest(&mut random).words()).is_ok());
            assert!(plain::check(&chain(&mut random).words()).is_ok());
            let verdict = plain::check(&costly(&mut random).words()).err();
            assert!(matches!(verdict, None | Some(8)));
        }
    }
}
