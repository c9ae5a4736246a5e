//! The grammar check: refusals 5 to 9, "checked in this order".

use super::grammar::Grammar;
use super::sets::Sets;
use crate::answer::Refusal;

/// The grammar and its sets, or the lowest refusal that applies.
pub fn check(words: &[u16]) -> Result<(Grammar, Sets), Refusal> {
    // "the words have the shape above"
    let Some(grammar) = Grammar::from_words(words) else {
        return Err(5);
    };
    let sets = Sets::of(&grammar);
    // "every nonterminal is reachable from START"
    if sets.reachable.iter().any(|&reachable| !reachable) {
        return Err(6);
    }
    // "every nonterminal derives some terminal string"
    if sets.cost.iter().any(|cost| cost.is_none()) {
        return Err(7);
    }
    // "none costs more than 60,000"
    if sets.cost.iter().flatten().any(|&cost| cost > 60_000) {
        return Err(8);
    }
    // "no two rules of one nonterminal share a predict token"
    for (number, one) in grammar.rules.iter().enumerate() {
        for other in &grammar.rules[..number] {
            if one.left == other.left && sets.predict(one).meets(&sets.predict(other)) {
                return Err(9);
            }
        }
    }
    Ok((grammar, sets))
}
