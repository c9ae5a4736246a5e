//! The tables of a grammar, and its check behind the shape: refusals 6 to 9.
//!
//! Symbols are bytes: terminals 0..63, nonterminals 64..127. A right side is packed into a
//! u64 with its last symbol in the lowest byte, so that one store pushes it on the stack.

use super::entries::Entries;
use crate::answer::Refusal;

/// A cost that no sum of finite ones reaches: the nonterminal derives no string so far.
pub(super) const NONE: u32 = 1 << 28;
/// Finite costs over the limit are all kept as this one.
const OVER: u32 = 60_001;

/// One rule, and what the check finds out about it.
#[derive(Clone, Copy, Default)]
pub struct Rule {
    pub right: u64,
    /// The nonterminals of the right side, packed like it, and as a set.
    pub(super) named: u64,
    pub(super) inner: u64,
    /// FIRST of the right side.
    pub first: u64,
    /// The cost of the terminals of the right side.
    pub(super) cost: u32,
    /// The number of the nonterminal's next rule, or [`LAST`].
    pub next: u16,
    pub left: u8,
    pub length: u8,
    /// Whether the right side can be empty.
    pub(super) empty: bool,
}

/// Ends a nonterminal's list of rules.
pub const LAST: u16 = u16::MAX;

/// The tables of one grammar.
pub struct Tables {
    pub terminals: u16,
    pub(super) nonterminals: usize,
    pub opening: u16,
    pub closing: u16,
    pub unit: u16,
    /// The restart mark, or 0, which no token is.
    pub restart: u16,
    pub(super) count: usize,
    pub rules: [Rule; 256],
    /// The first rule in each nonterminal's list.
    pub head: [u16; 64],
    /// By symbol: cost, FIRST, and all ones where the symbol can be empty.
    pub cost: [u32; 128],
    pub first: [u64; 128],
    pub empty: [u64; 128],
    /// END's is over every cost of a stack.
    pub reliability: [u32; 64],
    /// Per nonterminal, which others its set is to hold.
    pub(super) needs: [u64; 64],
    follow: [u64; 64],
    pub entries: Entries,
}

impl Default for Tables {
    fn default() -> Tables {
        Tables {
            terminals: 0,
            nonterminals: 0,
            opening: 0,
            closing: 0,
            unit: 0,
            restart: 0,
            count: 0,
            rules: [Rule::default(); 256],
            head: [LAST; 64],
            cost: [0; 128],
            first: [0; 128],
            empty: [0; 128],
            reliability: [0; 64],
            needs: [0; 64],
            follow: [0; 64],
            entries: Entries::default(),
        }
    }
}

impl Tables {
    /// Checks grammar words; afterwards the tables are those of this grammar.
    pub fn check(&mut self, words: &[u16]) -> Result<(), Refusal> {
        self.shape(words).ok_or(5u16)?;
        if !self.all_reachable() {
            return Err(6);
        }
        self.find_costs();
        let costs = &self.cost[64..64 + self.nonterminals];
        let dearest = costs.iter().fold(0, |most, &cost| most.max(cost));
        if dearest >= NONE {
            return Err(7);
        }
        if dearest >= OVER {
            return Err(8);
        }
        let some_empty = self.find_first();
        if !self.firsts_differ() || some_empty && !self.follows_differ() {
            return Err(9);
        }
        Ok(())
    }

    /// Refusal 6: walks from START over what each nonterminal's rules name.
    fn all_reachable(&self) -> bool {
        let mut reached: u64 = 1;
        let mut open: u64 = 1;
        while open != 0 {
            let named = self.needs[open.trailing_zeros() as usize & 63];
            open &= open - 1;
            open |= named & !reached;
            reached |= named;
        }
        reached == low_bits(self.nonterminals)
    }

    /// Least costs, by rounds over the rules that name a nonterminal whose cost has changed
    /// since the rule was last looked at.
    fn find_costs(&mut self) {
        let mut changed = u64::MAX;
        while changed != 0 {
            let mut now = 0;
            for rule in self.rules[..self.count].iter().rev() {
                if rule.inner & (changed | now) == 0 {
                    continue;
                }
                let mut cost = rule.cost;
                let mut named = rule.named;
                while named != 0 {
                    cost += self.cost[named as usize & 127];
                    named >>= 8;
                }
                let own = 64 + usize::from(rule.left & 63);
                if cost < NONE && cost.min(OVER) < self.cost[own] {
                    self.cost[own] = cost.min(OVER);
                    now |= 1 << rule.left;
                }
            }
            changed = now;
        }
    }

    /// FIRST of every nonterminal and right side. A symbol can be empty where it costs 0,
    /// since every terminal costs at least 1. Answers whether some nonterminal can be empty.
    fn find_first(&mut self) -> bool {
        let n = self.nonterminals;
        let mut some_empty = 0;
        for symbol in 64..64 + n {
            let empty = if self.cost[symbol & 127] == 0 {
                u64::MAX
            } else {
                0
            };
            self.empty[symbol & 127] = empty;
            self.first[symbol & 127] = 0;
            some_empty |= empty;
        }
        self.needs[..n].fill(0);
        for rule in &mut self.rules[..self.count] {
            // The leading symbols up to the first that cannot be empty.
            let (mut terminal, mut named, mut empty) = (0, 0, u64::MAX);
            let mut length = u32::from(rule.length);
            while length > 0 && empty != 0 {
                length -= 1;
                let symbol = (rule.right >> (8 * length)) as usize & 127;
                if symbol >= 64 {
                    named |= 1 << (symbol & 63);
                } else {
                    terminal = 1 << symbol;
                }
                empty = self.empty[symbol];
            }
            rule.empty = empty != 0;
            rule.first = terminal;
            rule.inner = named;
            let k = usize::from(rule.left & 63);
            self.needs[k] |= named;
            self.first[64 + k] |= terminal;
        }
        close(&self.needs[..n], &mut self.first[64..64 + n]);
        some_empty != 0
    }

    /// Whether FIRST of the rules of each nonterminal are apart, and at most one of them can
    /// be empty; two that can share FOLLOW of their left side, which is never empty.
    fn firsts_differ(&mut self) -> bool {
        let mut seen = [0u64; 64];
        let (mut clash, mut empties) = (0, 0u64);
        for rule in &mut self.rules[..self.count] {
            let k = usize::from(rule.left & 63);
            let mut named = rule.inner;
            while named != 0 {
                rule.first |= self.first[64 + (named.trailing_zeros() as usize & 63)];
                named &= named - 1;
            }
            clash |= seen[k] & rule.first;
            seen[k] |= rule.first;
            if rule.empty {
                clash |= empties & 1 << k;
                empties |= 1 << k;
            }
        }
        clash == 0
    }

    /// Whether FOLLOW of each nonterminal that can be empty is apart from FIRST of its rules
    /// that cannot.
    fn follows_differ(&mut self) -> bool {
        let n = self.nonterminals;
        self.needs[..n].fill(0);
        self.follow[..n].fill(0);
        self.follow[0] = 1;
        let naming = |rule: &&Rule| rule.named != 0;
        for rule in self.rules[..self.count].iter().filter(naming) {
            // FIRST of what stands behind, and all ones where that can be empty.
            let (mut behind, mut empty) = (0, u64::MAX);
            let mut right = rule.right;
            while right != 0 {
                let symbol = right as usize & 127;
                right >>= 8;
                if symbol >= 64 {
                    self.follow[symbol & 63] |= behind;
                    self.needs[symbol & 63] |= empty & 1 << rule.left;
                }
                behind = behind & self.empty[symbol] | self.first[symbol];
                empty &= self.empty[symbol];
            }
        }
        close(&self.needs[..n], &mut self.follow[..n]);
        let mut clash = 0;
        for rule in &self.rules[..self.count] {
            let k = usize::from(rule.left & 63);
            if !rule.empty {
                clash |= self.empty[64 + k] & self.follow[k] & rule.first;
            }
        }
        clash == 0
    }
}

/// Makes each set hold the sets it needs, until nothing changes.
fn close(needs: &[u64], sets: &mut [u64]) {
    let mut changed = u64::MAX;
    while changed != 0 {
        let mut now = 0;
        for at in (0..needs.len().min(sets.len())).rev() {
            let mut needed = needs[at] & (changed | now);
            let old = sets[at];
            let mut new = old;
            while needed != 0 {
                new |= sets[needed.trailing_zeros() as usize];
                needed &= needed - 1;
            }
            sets[at] = new;
            now |= u64::from(new != old) << at;
        }
        changed = now;
    }
}

/// The lowest `count` bits set, 1 to 64 of them.
pub(super) fn low_bits(count: usize) -> u64 {
    u64::MAX >> (64 - count)
}
