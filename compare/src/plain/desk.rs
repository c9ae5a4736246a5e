//! Request (iii) of document 02, "Which rule is the cheap one": what the setup desk gets, and refusal 23.

use super::check::check;
use crate::answer::Refusal;

/// "The setup desk hands in unchecked grammar words and gets cost and rule of each nonterminal, in order,
/// in two u16 buffers, zeros behind." The answer is the number of nonterminals.
pub fn costs(words: &[u16], costs: &mut [u16], rules: &mut [u16]) -> Result<usize, Refusal> {
    // After a refusal too "all output buffers become zero over their whole length".
    costs.fill(0);
    rules.fill(0);
    // "Refusals for the desk: 5 to 9"
    let (grammar, sets) = check(words)?;
    let n = usize::from(grammar.nonterminals);
    // "then 23 when either buffer is shorter than N"
    if costs.len() < n || rules.len() < n {
        return Err(23);
    }
    for k in 0..n {
        let cost = sets.cost[k].expect("each derives some terminal string");
        let rule = sets.cheapest[k].expect("some rule reaches each cost");
        // Costs are at most 60,000, and rules 256: neither is cut.
        costs[k] = cost as u16;
        rules[k] = rule as u16;
    }
    Ok(n)
}
