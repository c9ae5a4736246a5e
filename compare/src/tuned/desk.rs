//! The cost and the cheapest rule of each nonterminal, for the setup desk: refusal 23 behind the check's.

use super::tables::Tables;
use crate::answer::Refusal;

/// Writes costs and rules into the lent buffers. A word of the costs is written once, zeros too.
pub fn costs(
    tables: &mut Tables,
    words: &[u16],
    costs: &mut [u16],
    rules: &mut [u16],
) -> Result<usize, Refusal> {
    let answer = tables.check(words).and_then(|()| {
        let n = tables.nonterminals;
        if n <= costs.len().min(rules.len()) {
            Ok(n)
        } else {
            Err(23)
        }
    });
    let (costs, unused) = costs.split_at_mut(answer.unwrap_or(0));
    unused.fill(0);
    let (rules, unused) = rules.split_at_mut(answer.unwrap_or(0));
    unused.fill(0);
    if answer.is_ok() {
        for (word, &cost) in costs.iter_mut().zip(&tables.cost[64..]) {
            *word = cost as u16;
        }
        tables.cheapest(rules);
    }
    answer
}

impl Tables {
    /// The lowest rule that reaches each cost, in a pass from the last rule to the first: a lower one
    /// takes the place of a higher. Each nonterminal has a rule that does, so every word is written.
    pub(super) fn cheapest(&self, rules: &mut [u16]) {
        for (number, rule) in self.rules[..self.count].iter().enumerate().rev() {
            let mut cost = rule.cost;
            let mut named = rule.named;
            while named != 0 {
                cost += self.cost[named as usize & 127];
                named >>= 8;
            }
            let k = usize::from(rule.left & 63);
            if cost == self.cost[64 + k] {
                rules[k] = number as u16;
            }
        }
    }
}
