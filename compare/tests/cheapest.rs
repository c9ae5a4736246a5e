//! Request (iii) of document 02 on many grammars: costs and rules are what derivations say, and following the
//! cheapest rules ends.

use compare::examples::cheapest::empty_eights;
use compare::generate::{grammar, ties, Draft, Random, Source};
use compare::plain::{self, Grammar};
use std::cmp::Reverse;
use std::collections::{BTreeSet, BinaryHeap};

/// Costs and rules in buffers that just suffice, or the refusal.
fn desk(words: &[u16]) -> Result<(Vec<u16>, Vec<u16>), u16> {
    let n = words.get(1).map_or(0, |&n| usize::from(n.min(64)));
    let (mut costs, mut rules) = (vec![7; n], vec![7; n]);
    assert_eq!(plain::costs(words, &mut costs, &mut rules)?, n);
    Ok((costs, rules))
}

// ---- By derivations

/// "Its cheapest derivable terminal string", literally: sentential forms are derived from the leftmost
/// nonterminal, those that begin with the cheapest tokens first, until one is a terminal string. Nothing where
/// that takes more than so many forms.
fn cheapest_string(grammar: &Grammar, from: &[u16], most: usize) -> Option<u64> {
    let mut seen = BTreeSet::new();
    // The cost of the tokens so far, and what is left behind them.
    let mut open = BinaryHeap::from([Reverse((0, from.to_vec()))]);
    while let Some(Reverse((cost, form))) = open.pop() {
        let Some((&symbol, behind)) = form.split_first() else {
            return Some(cost);
        };
        if !seen.insert((cost, form.clone())) {
            continue;
        }
        if seen.len() > most {
            return None;
        }
        if symbol < 64 {
            let token = u64::from(grammar.insert_cost[usize::from(symbol)]);
            open.push(Reverse((cost + token, behind.to_vec())));
        }
        for rule in grammar.rules.iter().filter(|rule| rule.left == symbol) {
            let next = [&rule.right[..], behind].concat();
            open.push(Reverse((cost, next)));
        }
    }
    None
}

/// Small accepted grammars of every kind, with ties and without.
fn small_grammars(count: usize) -> Vec<Draft> {
    let mut random = Random::new(2025);
    let mut drafts = Vec::new();
    while drafts.len() < count {
        let mut draft = match random.below(4) {
            0 => ties::ladder(&mut random),
            1 => grammar::random_small(&mut random),
            _ => {
                let (t, n) = (random.range(2, 8), random.range(2, 6));
                grammar::accepted(&mut random, t, n, 20)
            }
        };
        if random.chance(1, 2) {
            ties::even(&mut random, &mut draft);
        }
        if plain::check(&draft.words()).is_ok() {
            drafts.push(draft);
        }
    }
    drafts
}

/// "The cost of a nonterminal is that of its cheapest derivable terminal string", and the rule is the
/// lowest-numbered one whose right side derives a string of that cost and none cheaper.
#[test]
fn costs_and_rules_are_what_derivations_say() {
    const MOST: usize = 3_000;
    let (mut held, mut tied) = (0, 0);
    for draft in small_grammars(2_000) {
        let words = draft.words();
        let grammar = Grammar::from_words(&words).expect("the shape");
        let (costs, rules) = desk(&words).expect("an accepted grammar");
        for (k, symbol) in grammar.nonterminal_symbols().enumerate() {
            let Some(cost) = cheapest_string(&grammar, &[symbol], MOST) else {
                continue;
            };
            assert_eq!(u64::from(costs[k]), cost, "{symbol} in {draft:?}");
            let all = grammar.rules.iter().enumerate();
            let own = all.filter(|(_, rule)| rule.left == symbol);
            let strings = own.map(|(p, rule)| (p, cheapest_string(&grammar, &rule.right, MOST)));
            let strings: Vec<(usize, Option<u64>)> = strings.collect();
            if strings.iter().any(|(_, string)| string.is_none()) {
                continue;
            }
            let reaching: Vec<usize> = strings
                .iter()
                .filter(|(_, string)| *string == Some(cost))
                .map(|(p, _)| *p)
                .collect();
            assert_eq!(usize::from(rules[k]), reaching[0], "{symbol} in {draft:?}");
            held += 1;
            tied += usize::from(reaching.len() > 1);
        }
    }
    assert!(held > 5_000 && tied > 1_000, "{held} held, {tied} tied");
}

// ---- Following the cheapest rules

/// The height of the tree that the cheapest rules make, and the cost of its tokens. Each nonterminal is looked
/// at once, since a tree of empty parts may have more nodes than can be counted; one that meets itself would
/// never end.
fn follow(
    grammar: &Grammar,
    rules: &[u16],
    k: usize,
    known: &mut Vec<Option<(usize, u64)>>,
    path: &mut Vec<usize>,
) -> (usize, u64) {
    assert!(!path.contains(&k), "following cheapest rules does not end");
    if let Some(known) = known[k] {
        return known;
    }
    path.push(k);
    let (mut height, mut cost) = (1, 0);
    for &symbol in &grammar.rules[usize::from(rules[k])].right {
        if symbol < 64 {
            cost += u64::from(grammar.insert_cost[usize::from(symbol)]);
        } else {
            let below = follow(grammar, rules, usize::from(symbol - 64), known, path);
            height = height.max(1 + below.0);
            cost += below.1;
        }
    }
    path.pop();
    known[k] = Some((height, cost));
    (height, cost)
}

/// "In an accepted grammar, following cheapest rules from any nonterminal comes to an end", within N steps, and
/// what it spells costs what the nonterminal costs.
#[test]
fn following_the_cheapest_rules_ends() {
    let source = Source::new(41);
    let mut random = Random::new(42);
    let mut drafts = source.stock().to_vec();
    for draft in source.stock() {
        let mut even = draft.clone();
        ties::even(&mut random, &mut even);
        drafts.push(even);
    }
    drafts.extend(small_grammars(1_000));
    drafts.extend((0..200).map(|_| ties::wide(&mut random)));
    drafts.push(empty_eights());
    let (mut followed, mut highest) = (0, 0);
    for draft in drafts {
        let words = draft.words();
        let grammar = Grammar::from_words(&words).expect("the shape");
        let (costs, rules) = desk(&words).expect("an accepted grammar");
        let mut known = vec![None; costs.len()];
        for (k, &cost) in costs.iter().enumerate() {
            assert_eq!(grammar.rules[usize::from(rules[k])].left, 64 + k as u16);
            let (height, spelled) = follow(&grammar, &rules, k, &mut known, &mut Vec::new());
            assert_eq!(spelled, u64::from(cost), "{draft:?}");
            assert!(height <= costs.len(), "{draft:?}");
            highest = highest.max(height);
            followed += 1;
        }
    }
    assert!(followed > 10_000, "{followed}");
    assert_eq!(highest, 64, "the bound itself");
}

/// What costs 0 can be empty, and two rules that can be empty share a predict token: such a nonterminal has no
/// tie in an accepted grammar.
#[test]
fn what_costs_nothing_has_no_tie() {
    let source = Source::new(43);
    let mut empties = 0;
    for draft in source.stock().iter().chain(&small_grammars(500)) {
        let (grammar, sets) = plain::check(&draft.words()).expect("an accepted grammar");
        for (k, symbol) in grammar.nonterminal_symbols().enumerate() {
            if sets.cost[k] == Some(0) {
                let own = grammar.rules.iter().filter(|rule| rule.left == symbol);
                assert_eq!(own.filter(|r| sets.cost_of(&r.right) == Some(0)).count(), 1);
                empties += 1;
            }
        }
    }
    assert!(empties > 500, "{empties}");
}
