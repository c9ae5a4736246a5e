//! Grammars: accepted LL(1) ones with structure, and small random ones of any verdict.

use super::draft::Draft;
use super::random::Random;
use super::units;
use crate::plain;

/// A small grammar, accepted or not, without any plan.
pub fn random_small(random: &mut Random) -> Draft {
    let t = random.range(1, 5);
    let n = random.word(1, 4);
    let mut draft = Draft::new(t, n, &[]);
    for _ in 0..random.range(usize::from(n), usize::from(n) * 3) {
        let length = random.pick(&[0, 0, 1, 1, 1, 2, 2, 3, 4]);
        let right = (0..length)
            .map(|_| {
                if t > 1 && random.chance(3, 5) {
                    random.word(1, t as u16 - 1)
                } else {
                    random.word(64, 63 + n)
                }
            })
            .collect();
        draft.rules.push((random.word(0, n - 1), right));
    }
    weigh(random, &mut draft);
    draft
}

/// An accepted grammar of at most the given sizes.
pub fn accepted(random: &mut Random, t: usize, n: usize, most_rules: usize) -> Draft {
    loop {
        if let Some(draft) = try_accepted(random, t, n, most_rules) {
            return draft;
        }
    }
}

/// An accepted grammar of random sizes, mostly small, up to 64, 64 and 256.
pub fn accepted_of_any_size(random: &mut Random) -> Draft {
    match random.below(10) {
        0..=5 => {
            let (t, n) = (random.range(2, 10), random.range(1, 8));
            accepted(random, t, n, 40)
        }
        6 | 7 => {
            let (t, n) = (random.range(2, 30), random.range(1, 24));
            accepted(random, t, n, 120)
        }
        8 => {
            let (t, n) = (random.range(30, 64), random.range(30, 64));
            accepted(random, t, n, 256)
        }
        _ => {
            let mut draft = accepted(random, 64, 64, 256);
            if random.chance(1, 2) {
                fill_up(random, &mut draft, 256);
            }
            draft
        }
    }
}

/// An accepted grammar with 64 terminals, 64 nonterminals and over `least` rules, whose START
/// is a list, so that it has logs of every length.
pub fn large(random: &mut Random, least: usize) -> Draft {
    loop {
        let mut draft = Draft::new(64, 64, &[]);
        draft.rules = plan(random, 64, 64, 256, 6);
        draft.rules.retain(|rule| rule.0 != 0);
        draft.rules.push((0, vec![65, 64]));
        draft.rules.push((0, Vec::new()));
        // Reliability about three times the cost, as source document 001 recommends.
        for terminal in draft.terminals.iter_mut().skip(1) {
            let cost = random.word(1, 20);
            *terminal = (cost, 3 * cost + random.word(0, 20));
        }
        (draft.opening, draft.closing) = (random.word(1, 63), random.word(1, 63));
        if repair(random, &mut draft).is_some() && draft.rules.len() > least {
            return draft;
        }
    }
}

/// Adds rules that begin with a token of their own until there are `count`, as far as the
/// grammar stays accepted.
pub fn fill_up(random: &mut Random, draft: &mut Draft, count: usize) {
    for _ in 0..2 * count {
        if draft.rules.len() >= count || draft.terminals.len() < 2 {
            return;
        }
        let mut right = vec![random.word(1, draft.t() - 1)];
        if random.chance(1, 3) {
            right.push(random.word(64, 63 + draft.nonterminals));
        }
        draft
            .rules
            .push((random.word(0, draft.nonterminals - 1), right));
        if plain::check(&draft.words()).is_err() {
            draft.rules.pop();
        }
    }
}

/// Costs, reliabilities, marks and unit of every style, all within their ranges.
pub fn weigh(random: &mut Random, draft: &mut Draft) {
    let style = random.below(5);
    for terminal in draft.terminals.iter_mut().skip(1) {
        *terminal = match style {
            0 => (random.word(1, 20), random.word(0, 60)),
            1 => (1, random.word(0, 3)),
            2 => (random.word(1, 30), 60_000),
            3 => (random.word(1, 30), 0),
            _ => (
                random.pick(&[1, 2, 10, 1_000]),
                random.pick(&[0, 1, 10, 1_000, 60_000]),
            ),
        };
    }
    let t = draft.t();
    (draft.opening, draft.closing) = match random.below(4) {
        0 => (0, 0),
        _ if t < 2 => (0, 0),
        1 => {
            let mark = random.word(1, t - 1);
            (mark, mark)
        }
        _ => (random.word(1, t - 1), random.word(1, t - 1)),
    };
    draft.unit = units::any(random);
}

/// One attempt at an accepted grammar: a plan from the last nonterminal up, then repairs.
fn try_accepted(random: &mut Random, t: usize, n: usize, most_rules: usize) -> Option<Draft> {
    let mut draft = Draft::new(t, n as u16, &[]);
    let dense = random.range(1, 8);
    draft.rules = plan(random, t, n, most_rules.max(n), dense);
    weigh(random, &mut draft);
    repair(random, &mut draft)?;
    Some(draft)
}

/// Changes a planned grammar until it is accepted, or gives up.
fn repair(random: &mut Random, draft: &mut Draft) -> Option<()> {
    for _ in 0..150 {
        match plain::check(&draft.words()) {
            Ok(_) => {
                shuffle(random, &mut draft.rules);
                return Some(());
            }
            Err(6) => make_reachable(random, draft)?,
            Err(8) => draft.terminals.iter_mut().skip(1).for_each(|t| t.0 = 1),
            Err(9) => remove_conflict(draft)?,
            Err(_) => return None,
        }
    }
    None
}

/// Rules for each nonterminal from the last to START: lists, alternatives with different
/// first tokens (up to `dense` of them), nesting by recursion behind a first token, and empty
/// parts.
fn plan(
    random: &mut Random,
    t: usize,
    n: usize,
    most: usize,
    dense: usize,
) -> Vec<(u16, Vec<u16>)> {
    let mut rules: Vec<(u16, Vec<u16>)> = Vec::new();
    for k in (0..n).rev() {
        // Each nonterminal still to come needs one rule.
        let room = most - rules.len() - k;
        let left = k as u16;
        let own = rules.len();
        if room > 1 && k + 1 < n && random.chance(1, 6) {
            let item = random.word(65 + left, 63 + n as u16);
            rules.push((left, vec![item, 64 + left]));
            rules.push((left, Vec::new()));
            continue;
        }
        let count = random.range(1, dense).min(room);
        let mut firsts: Vec<u16> = Vec::new();
        for _ in 0..count {
            let recursive = !firsts.is_empty() && random.chance(1, 3);
            let right = alternative(random, t, n, k, recursive);
            match right.first() {
                Some(first) if !firsts.contains(first) => firsts.push(*first),
                _ => continue,
            }
            rules.push((left, right));
        }
        let empty = rules.len() == own || rules.len() - own < room && random.chance(1, 4);
        if empty {
            rules.push((left, Vec::new()));
        }
    }
    rules
}

/// A right side for nonterminal `k`; without recursion it names only later nonterminals.
fn alternative(random: &mut Random, t: usize, n: usize, k: usize, recursive: bool) -> Vec<u16> {
    let length = random.pick(&[1, 1, 1, 2, 2, 3, 3, 4, 5, 8]);
    let mut right = Vec::new();
    for at in 0..length {
        let least = if recursive && at > 0 { 0 } else { k + 1 };
        let terminal = random.chance(if at == 0 { 4 } else { 3 }, 5);
        if least < n && (!terminal || t < 2) {
            right.push(random.range(64 + least, 63 + n) as u16);
        } else if t > 1 {
            right.push(random.range(1, t - 1) as u16);
        }
    }
    right
}

/// Puts each unreachable nonterminal behind the first symbol of some rule of an earlier one.
fn make_reachable(random: &mut Random, draft: &mut Draft) -> Option<()> {
    loop {
        let grammar = plain::Grammar::from_words(&draft.words())?;
        let sets = plain::Sets::of(&grammar);
        let Some(lost) = sets.reachable.iter().position(|&r| !r) else {
            return Some(());
        };
        let hosts: Vec<usize> = (0..draft.rules.len())
            .filter(|&rule| {
                let (left, right) = &draft.rules[rule];
                usize::from(*left) < lost && (1..8).contains(&right.len())
            })
            .collect();
        if hosts.is_empty() {
            return None;
        }
        let right = &mut draft.rules[random.pick(&hosts)].1;
        let at = random.range(1, right.len());
        right.insert(at, 64 + lost as u16);
    }
}

/// Takes away one of two rules that share a predict token, the one that can be empty first.
fn remove_conflict(draft: &mut Draft) -> Option<()> {
    let grammar = plain::Grammar::from_words(&draft.words())?;
    let sets = plain::Sets::of(&grammar);
    for (number, one) in grammar.rules.iter().enumerate() {
        for (earlier, other) in grammar.rules[..number].iter().enumerate() {
            if one.left == other.left && sets.predict(one).meets(&sets.predict(other)) {
                let first_goes = sets.can_be_empty(&other.right);
                draft
                    .rules
                    .remove(if first_goes { earlier } else { number });
                return Some(());
            }
        }
    }
    None
}

/// Puts rules into any order.
pub(super) fn shuffle(random: &mut Random, rules: &mut [(u16, Vec<u16>)]) {
    if random.chance(1, 2) {
        rules.sort();
    } else {
        for at in (1..rules.len()).rev() {
            rules.swap(at, random.below(at + 1));
        }
    }
}
