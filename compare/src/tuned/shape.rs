//! The shape of grammar words, refusal 5, and the tables that can be filled along with it.

use super::tables::{low_bits, Rule, Tables, LAST, NONE};

impl Tables {
    /// Refusal 5, and the tables that need no fixpoint.
    pub(super) fn shape(&mut self, words: &[u16]) -> Option<()> {
        let &[first, n, p, opening, closing, unit, ref rest @ ..] = words else {
            return None;
        };
        // T + 256 stands for a header of seven words, with the restart mark in the last.
        let (t, restart, rest) = match (first.checked_sub(256), rest) {
            (None | Some(0), _) => (first, 0, rest),
            (Some(t), &[restart, ref rest @ ..]) => (t, restart, rest),
            (Some(_), []) => return None,
        };
        let sizes = (1..=64).contains(&t) && (1..=64).contains(&n) && (1..=256).contains(&p);
        let mark = |mark: u16| 1 <= mark && mark < t;
        let marks = mark(opening) && mark(closing) || opening | closing == 0;
        let other = mark(restart) && restart != opening && restart != closing;
        if !sizes || !marks || unit > 1 || restart != 0 && !other {
            return None;
        }
        (self.terminals, self.nonterminals, self.count) = (t, usize::from(n), usize::from(p));
        (self.opening, self.closing, self.unit) = (opening, closing, unit);
        self.restart = restart;

        let (weights, rest) = rest.split_at_checked(2 * usize::from(t))?;
        let mut good = weights[0] | weights[1] == 0;
        for (terminal, pair) in weights.chunks_exact(2).enumerate() {
            let (cost, reliability) = (pair[0], pair[1]);
            let in_range = cost.wrapping_sub(1) < 1_000 && reliability <= 60_000;
            good &= in_range || terminal == 0;
            self.cost[terminal & 63] = u32::from(cost);
            self.reliability[terminal & 63] = u32::from(reliability);
            self.first[terminal & 63] = 1 << terminal;
            self.empty[terminal & 63] = 0;
        }
        self.reliability[0] = u32::MAX;
        if !good {
            return None;
        }
        self.head[..self.nonterminals].fill(LAST);
        self.needs[..self.nonterminals].fill(0);
        self.cost[64..64 + self.nonterminals].fill(NONE);
        self.rules_of(
            rest,
            low_bits(usize::from(t)) & !1,
            low_bits(usize::from(n)),
        )
    }

    /// The rules' part of the shape. `terminals` and `nonterminals` are the symbols allowed.
    fn rules_of(&mut self, words: &[u16], terminals: u64, nonterminals: u64) -> Option<()> {
        let allowed = [terminals, nonterminals];
        let mut rest = words;
        for number in 0..self.count {
            let &[left, length, ref behind @ ..] = rest else {
                return None;
            };
            if usize::from(left) >= self.nonterminals || length > 8 {
                return None;
            }
            let (symbols, behind) = behind.split_at_checked(usize::from(length))?;
            rest = behind;
            let (mut right, mut named, mut inner, mut cost) = (0, 0, 0, 0);
            let mut bad = 0;
            for &symbol in symbols {
                let bit = 1 << (symbol & 63);
                bad |= bit & !allowed[usize::from(symbol >> 6 & 1)] | u64::from(symbol >> 7);
                right = right << 8 | u64::from(symbol);
                // All ones for a nonterminal.
                let upper = u64::from(symbol >> 6 & 1).wrapping_neg();
                inner |= bit & upper;
                named = named << (8 & upper) | u64::from(symbol) & upper;
                cost += self.cost[usize::from(symbol & 63)] & !upper as u32;
            }
            if bad != 0 {
                return None;
            }
            let k = usize::from(left & 63);
            self.rules[number & 255] = Rule {
                right,
                named,
                inner,
                first: 0,
                cost,
                next: self.head[k],
                left: left as u8,
                length: length as u8,
                empty: false,
            };
            self.head[k] = number as u16;
            self.needs[k] |= inner;
            if inner == 0 {
                self.cost[64 + k] = self.cost[64 + k].min(cost);
            }
        }
        rest.is_empty().then_some(())
    }
}
