//! Grammars for request (v) of document 02, "Fewer rounds over the rules": what is found of one nonterminal is
//! wanted by another, and so on through a long chain. A check that does not come back to some rule gives
//! another answer on them.
//!
//! [`down`], [`up`], [`follow_down`] and [`follow_up`] are fixed ones, which the benchmark measures. [`any`] makes
//! seeded ones: a core from `cores`, whose verdict hangs on every link of a chain, among other rules, numbered
//! and ordered in every way.

mod cores;

use super::draft::Draft;
use super::random::Random;

/// The rules at both ends of each word of a table that has one bit for each of 256 rules.
const EDGES: [usize; 8] = [0, 63, 64, 127, 128, 191, 192, 255];

/// 64 -> 65, 65 -> 66 and so on; the last of `n` nonterminals is a token. Each rule mentions what the next one
/// makes known: by rounds from the first rule to the last, cost and FIRST move up by one nonterminal a round.
pub fn down(n: u16) -> Draft {
    let mut draft = Draft::new(2, n, &[]);
    for k in 0..n {
        let next = if k + 1 < n { 65 + k } else { 1 };
        draft.rules.push((k, vec![next]));
    }
    draft
}

/// The same chain in the opposite numbering: 64 is the last nonterminal, that the one before it, and so on; 65
/// is a token. Slow by rounds from the last rule to the first.
pub fn up(n: u16) -> Draft {
    turned(down(n))
}

/// Each nonterminal but the last is 1 and the next one, or 2, the next one and a token of its own, or empty. So
/// FOLLOW of each holds FOLLOW of the one before it and one token more, as far as there are tokens, and all can
/// be empty. Slow by rounds from the last rule to the first.
pub fn follow_down(n: u16) -> Draft {
    let mut draft = Draft::new(64, n, &[]);
    for k in 0..n - 1 {
        draft.rules.push((k, vec![1, 65 + k]));
        draft.rules.push((k, vec![2, 65 + k, (3 + k).min(63)]));
        draft.rules.push((k, Vec::new()));
    }
    draft.rules.push((n - 1, vec![1]));
    draft.rules.push((n - 1, Vec::new()));
    draft
}

/// The same in the opposite numbering. Slow by rounds from the first rule to the last.
pub fn follow_up(n: u16) -> Draft {
    turned(follow_down(n))
}

/// How often a nonterminal stands in a right side, over all rules.
pub fn mentions(draft: &Draft) -> usize {
    let symbols = draft.rules.iter().flat_map(|(_, right)| right);
    symbols.filter(|&&symbol| symbol >= 64).count()
}

/// Any core, or two of them below one START, with or without other rules, numbered and ordered in any way.
pub fn any(random: &mut Random) -> Draft {
    let mut draft = cores::any(random);
    if random.chance(1, 4) {
        let other = cores::any(random);
        draft = joined(draft, other);
    }
    let own = draft.rules.len();
    if random.chance(1, 2) {
        fill(random, &mut draft);
    }
    number(random, &mut draft);
    order(random, &mut draft, own);
    draft
}

/// The same grammar with its rules in any order and with other numbers for its terminals and nonterminals but END
/// and START; and the new number of each terminal.
pub fn mixed(random: &mut Random, draft: &Draft) -> (Draft, Vec<u16>) {
    let mut tokens: Vec<u16> = (0..draft.t()).collect();
    let mut numbers: Vec<u16> = (0..draft.nonterminals).collect();
    mix(random, &mut tokens[1..]);
    mix(random, &mut numbers[1..]);
    let new = |token: u16| tokens[usize::from(token)];
    let mut mixed = draft.clone();
    for (token, &weights) in draft.terminals.iter().enumerate() {
        mixed.terminals[usize::from(tokens[token])] = weights;
    }
    (mixed.opening, mixed.closing) = (new(draft.opening), new(draft.closing));
    mixed.restart = draft.restart.map(new);
    let symbols = mixed.rules.iter_mut().flat_map(|(_, right)| right);
    for symbol in symbols.filter(|symbol| **symbol < 64) {
        *symbol = new(*symbol);
    }
    renumber(&mut mixed, |k| numbers[usize::from(k)]);
    mix(random, &mut mixed.rules);
    (mixed, tokens)
}

/// Nonterminals 1 to N - 1 in the opposite order, and rules by left side.
fn turned(mut draft: Draft) -> Draft {
    let n = draft.nonterminals;
    renumber(&mut draft, |k| (n - k) % n);
    draft.rules.sort_by_key(|(left, _)| *left);
    draft
}

fn renumber(draft: &mut Draft, new: impl Fn(u16) -> u16) {
    for (left, right) in &mut draft.rules {
        *left = new(*left);
        for symbol in right.iter_mut().filter(|symbol| **symbol >= 64) {
            *symbol = 64 + new(*symbol - 64);
        }
    }
}

/// START is a new token and the first grammar's START, or another one and the second's; the first alone where
/// both together are too large. Where both are refused, the lower refusal is that of both.
fn joined(first: Draft, second: Draft) -> Draft {
    let tokens = first.terminals.len() + second.terminals.len() + 1;
    let nonterminals = 1 + first.nonterminals + second.nonterminals;
    if tokens > 64 || nonterminals > 64 {
        return first;
    }
    let mut draft = Draft::new(1, nonterminals, &[]);
    let mut parts = Vec::new();
    let mut before = 1;
    for part in [first, second] {
        let tokens = draft.t() - 1;
        draft.terminals.extend(&part.terminals[1..]);
        for (left, right) in part.rules {
            let moved = |symbol: u16| symbol + if symbol < 64 { tokens } else { before };
            let right = right.into_iter().map(moved).collect();
            draft.rules.push((left + before, right));
        }
        parts.push(64 + before);
        before += part.nonterminals;
    }
    for part in parts {
        draft.rules.push((0, vec![draft.t(), part]));
        draft.terminals.push((1, 0));
    }
    draft
}

/// Adds rules up to 256 or some other number, of nonterminals that nothing hangs on: START may be a new token and
/// the first of them, and each may go on with the next.
fn fill(random: &mut Random, draft: &mut Draft) {
    let own = draft.nonterminals;
    if own > 63 || draft.terminals.len() > 63 {
        return;
    }
    let count = random.pick(&[256, 256, 256, 255, 193, 192, 129, 128, 65, 64]);
    let more = match random.below(3) {
        0 => 64 - own,
        1 => (64 - own).min(5),
        _ => random.word(1, 64 - own),
    };
    draft.rules.push((0, vec![draft.t(), 64 + own]));
    draft.terminals.push((random.word(1, 1_000), 0));
    draft.nonterminals += more;
    let last = draft.nonterminals - 1;
    for token in 1..64 {
        if token > 1 && draft.rules.len() >= count {
            break;
        }
        if token == draft.t() {
            draft.terminals.push((random.word(1, 1_000), 0));
        }
        for k in own..=last {
            let mut right = vec![token];
            right.extend((token == 1 && k < last).then_some(65 + k));
            // The first rule of each is wanted in any case.
            if token == 1 || draft.rules.len() < count {
                draft.rules.push((k, right));
            }
        }
    }
}

/// Numbers nonterminals but START as they are, backwards, or in any way.
fn number(random: &mut Random, draft: &mut Draft) {
    let n = draft.nonterminals;
    let mut numbers: Vec<u16> = (0..n).collect();
    match random.below(4) {
        0 => {}
        1 => numbers[1..].reverse(),
        _ => mix(random, &mut numbers[1..]),
    }
    renumber(draft, |k| numbers.get(usize::from(k)).copied().unwrap_or(k));
}

/// Orders rules as they are, backwards, by left side or in any way; or so that the first `own` of them stand at
/// the edges of words, as far as there are edges.
fn order(random: &mut Random, draft: &mut Draft, own: usize) {
    let rules = &mut draft.rules;
    match random.below(6) {
        0 => {}
        1 => rules.reverse(),
        2 => rules.sort_by_key(|(left, _)| *left),
        3 => mix(random, rules),
        _ => {
            let mut edges: Vec<usize> = EDGES.into_iter().filter(|&e| e < rules.len()).collect();
            mix(random, &mut edges);
            mix(random, &mut rules[..own]);
            mix(random, &mut rules[own..]);
            let taken = edges.len().min(own);
            let rest = rules.split_off(taken);
            let mut placed: Vec<_> = edges.into_iter().zip(rules.drain(..)).collect();
            placed.sort();
            rules.extend(rest);
            for (place, rule) in placed {
                rules.insert(place.min(rules.len()), rule);
            }
        }
    }
}

/// Puts a list into any order.
fn mix<T>(random: &mut Random, list: &mut [T]) {
    for at in (1..list.len()).rev() {
        list.swap(at, random.below(at + 1));
    }
}

#[cfg(test)]
mod tests;
