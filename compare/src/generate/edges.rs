//! Grammar words at the edges of the table's ranges, and grammars that meet each of the
//! refusals 5 to 9.

use super::draft::Draft;
use super::random::Random;

/// Changes a draft so that it probably meets one of 5 to 9, or stands just inside.
pub fn change(random: &mut Random, draft: &mut Draft) {
    match random.below(5) {
        0 | 1 => change_ranges(random, draft),
        2 => change_sizes(random, draft),
        _ => change_rules(random, draft),
    }
}

/// One field of the words at an edge of its range.
fn change_ranges(random: &mut Random, draft: &mut Draft) {
    let t = draft.t();
    let terminal = random.below(draft.terminals.len());
    let number = random.below(draft.rules.len());
    match random.below(9) {
        // END's words are both 0; the others' cost is 1..1,000, reliability 0..60,000.
        0 => draft.terminals[terminal].0 = random.pick(&[0, 1, 1_000, 1_001, u16::MAX]),
        1 => draft.terminals[terminal].1 = random.pick(&[0, 1, 60_000, 60_001, u16::MAX]),
        2 => draft.terminals[0] = random.pick(&[(0, 0), (0, 1), (1, 0), (1, 60_000)]),
        // "each 1..T-1, or both 0 (no cycles); they may be equal"
        3 => {
            let edge = [0, 1, t.saturating_sub(1), t, 64, u16::MAX];
            draft.opening = random.pick(&edge);
            draft.closing = random.pick(&edge);
        }
        4 => draft.unit = random.pick(&[0, 1, 2, u16::MAX]),
        // Left side 0..N-1.
        5 => {
            let n = draft.nonterminals;
            draft.rules[number].0 = random.pick(&[0, n.wrapping_sub(1), n, 64, u16::MAX]);
        }
        // Length 0..8.
        6 => {
            let length = random.pick(&[0, 1, 7, 8, 9, 10]);
            let fill = if t > 1 { 1 } else { 64 };
            draft.rules[number].1.resize(length, fill);
        }
        // Symbols: END, the last terminal, one more, 63, START, the last nonterminal, one more.
        _ => {
            let n = draft.nonterminals;
            let edge = [0, t - 1, t, 63, 64, 63 + n, 64 + n, 128, 256, u16::MAX];
            let right = &mut draft.rules[number].1;
            if right.is_empty() {
                right.push(1);
            }
            let at = random.below(right.len());
            right[at] = random.pick(&edge);
        }
    }
}

/// T, N or P at its edge, with the rest of the words as many as that asks for.
fn change_sizes(random: &mut Random, draft: &mut Draft) {
    match random.below(4) {
        0 => {
            let t = random.pick(&[0, 1, 2, 63, 64, 65]);
            draft.terminals.resize(t, (1, 5));
        }
        1 => draft.nonterminals = random.pick(&[0, 1, 2, 63, 64, 65]),
        2 => {
            // Many nonterminals that are all reachable, each by the one before it.
            let n = random.pick(&[63, 64, 65]);
            for k in draft.nonterminals..n {
                let host = draft.rules.iter_mut().rev().find(|r| r.1.len() < 8);
                if let Some((_, right)) = host {
                    right.push(64 + k);
                }
                draft.rules.push((k, Vec::new()));
            }
            draft.nonterminals = n;
        }
        _ => {
            // P at its edge by doubled rules (refusal 9), or by none at all.
            let count = random.pick(&[0, 1, 255, 256, 257]);
            let model = draft.rules[random.below(draft.rules.len())].clone();
            draft.rules.resize(count, model);
        }
    }
}

/// What the rules mean: unreachable, without a string, left recursive, doubled, in conflict.
fn change_rules(random: &mut Random, draft: &mut Draft) {
    let n = draft.nonterminals;
    let number = random.below(draft.rules.len());
    let (left, right) = draft.rules[number].clone();
    // A left side out of range names no symbol; any number will do.
    let own = left.wrapping_add(64);
    match random.below(11) {
        // A nonterminal nobody names, with a rule, without one, or naming itself.
        0 if n < 64 => {
            draft.nonterminals += 1;
            let right = match random.below(3) {
                0 => Vec::new(),
                1 => vec![1],
                _ => vec![64 + n],
            };
            draft.rules.push((n, right));
        }
        1 if n < 64 => draft.nonterminals += 1,
        // A nonterminal that is named and has no rule, or only one that never ends.
        2 if n < 64 => {
            draft.nonterminals += 1;
            draft.rules[number].1.insert(0, 64 + n);
            draft.rules[number].1.truncate(8);
        }
        3 => draft
            .rules
            .retain(|rule| rule.0 != left || rule.1.contains(&own)),
        4 => draft
            .rules
            .iter_mut()
            .filter(|r| r.0 == left)
            .for_each(|(k, r)| {
                r.truncate(7);
                r.push(k.wrapping_add(64));
            }),
        // Left recursion: at once, through another nonterminal, hidden behind an empty one.
        5 => draft.rules.push((left, vec![own])),
        6 => {
            draft.rules[number].1.insert(0, own);
            draft.rules[number].1.truncate(8);
        }
        7 => {
            let other = random.word(64, 63 + n.max(1));
            draft.rules[number].1.insert(0, other);
            draft.rules[number].1.truncate(8);
        }
        // Doubled rules, a second empty one, one symbol more or less.
        8 => draft.rules.push((left, right)),
        9 => draft.rules.push((left, Vec::new())),
        _ => {
            let rule = &mut draft.rules[number].1;
            if rule.is_empty() || rule.len() < 8 && random.chance(1, 2) {
                let t = draft.terminals.len() as u16;
                rule.push(random.word(1, t.max(2) - 1));
            } else {
                rule.remove(random.below(rule.len()));
            }
        }
    }
    if draft.rules.is_empty() {
        draft.rules.push((0, Vec::new()));
    }
}

/// Changes finished words: cut short, words behind the last rule, any word changed.
pub fn change_words(random: &mut Random, words: &mut Vec<u16>) {
    match random.below(6) {
        0 => words.truncate(words.len() - 1),
        1 => words.truncate(random.below(words.len() + 1)),
        2 => words.push(random.pick(&[0, 1, 64])),
        3 => words.extend(vec![0; random.range(1, 20)]),
        4 => {
            let at = random.below(words.len());
            let new = words[at].wrapping_add(random.pick(&[1, u16::MAX]));
            words[at] = new;
        }
        _ => {
            let at = random.below(words.len());
            words[at] = random.pick(&[0, 1, 8, 9, 63, 64, 65, 127, 128, 256, 257, u16::MAX]);
        }
    }
}
