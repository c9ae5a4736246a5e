//! The sets of the plain implementation against their definitions by derivations: for small
//! grammars all sentential forms up to a length are derived one step at a time, and what is
//! read off them must be what the fixpoints found.

use compare::generate::{grammar, Random};
use compare::plain::{Grammar, Sets, END, START};
use std::collections::{BTreeMap, BTreeSet};

/// Longest sentential form looked at.
const LONGEST: usize = 8;

/// All forms derivable from one, no longer than the limit; each step replaces one nonterminal
/// anywhere by one of its right sides.
fn derivable(grammar: &Grammar, from: &[u16], longest: usize) -> BTreeSet<Vec<u16>> {
    let mut seen = BTreeSet::from([from.to_vec()]);
    let mut open = vec![from.to_vec()];
    while let Some(form) = open.pop() {
        for at in 0..form.len() {
            for rule in grammar.rules.iter().filter(|rule| rule.left == form[at]) {
                let mut next = form.clone();
                next.splice(at..at + 1, rule.right.iter().copied());
                if next.len() <= longest && seen.insert(next.clone()) {
                    open.push(next);
                }
            }
        }
    }
    seen
}

/// The cost of the cheapest terminal string among forms.
fn cheapest(grammar: &Grammar, forms: &BTreeSet<Vec<u16>>) -> Option<u64> {
    let cost = |t: &u16| u64::from(grammar.insert_cost[usize::from(*t)]);
    forms
        .iter()
        .filter(|form| form.iter().all(|&symbol| symbol < 64))
        .map(|form| form.iter().map(cost).sum())
        .min()
}

/// Small grammars in which every nonterminal is reachable and derives a string, as FIRST and
/// FOLLOW are asked for only there; LL(1) or not.
fn small_grammars(count: usize) -> Vec<Grammar> {
    let mut random = Random::new(2024);
    let mut grammars = Vec::new();
    while grammars.len() < count {
        let mut draft = grammar::random_small(&mut random);
        draft.rules.truncate(6);
        draft
            .rules
            .iter_mut()
            .for_each(|(_, right)| right.truncate(3));
        let Some(grammar) = Grammar::from_words(&draft.words()) else {
            continue;
        };
        let sets = Sets::of(&grammar);
        let useful = sets.reachable.iter().all(|&r| r) && sets.cost.iter().all(|c| c.is_some());
        if grammar.nonterminals <= 3 && useful {
            grammars.push(grammar);
        }
    }
    grammars
}

#[test]
fn cost_empty_and_first_are_what_derivations_say() {
    let mut empties = 0;
    for grammar in small_grammars(300) {
        let sets = Sets::of(&grammar);
        for symbol in grammar.nonterminal_symbols() {
            let k = usize::from(symbol - 64);
            let forms = derivable(&grammar, &[symbol], LONGEST - 1);
            assert_eq!(sets.cost[k], cheapest(&grammar, &forms), "{grammar:?}");
            assert_eq!(sets.empty[k], forms.contains(&vec![]), "{grammar:?}");
            empties += usize::from(sets.empty[k]);
            for terminal in 0..grammar.terminals {
                let begins = forms.iter().any(|form| form.first() == Some(&terminal));
                assert_eq!(sets.first[k].contains(terminal), begins, "{grammar:?}");
            }
        }
    }
    assert!(empties > 50, "enough grammars with empty parts");
}

#[test]
fn follow_is_what_derivations_say() {
    let mut sizes = BTreeMap::new();
    for grammar in small_grammars(150) {
        let sets = Sets::of(&grammar);
        // "FOLLOW(START) holds END": what follows in the forms of START with END behind.
        let forms = derivable(&grammar, &[START, END], LONGEST);
        for symbol in grammar.nonterminal_symbols() {
            let follow = &sets.follow[usize::from(symbol - 64)];
            for terminal in 0..grammar.terminals {
                let pair = [symbol, terminal];
                let follows = forms.iter().any(|form| form.windows(2).any(|w| w == pair));
                assert_eq!(follow.contains(terminal), follows, "{symbol} {grammar:?}");
                *sizes.entry(follows).or_insert(0) += 1;
            }
        }
    }
    assert!(
        sizes[&true] > 100 && sizes[&false] > 100,
        "both answers occur"
    );
}
