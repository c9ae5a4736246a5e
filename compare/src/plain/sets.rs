//! What the conditions on a grammar and the parse speak of: reachable, cost, empty, FIRST,
//! FOLLOW and predict. Each is the textbook fixpoint: start with nothing, apply every rule
//! until nothing changes. The cheapest rules, of request (iii), are read off the costs.

use super::grammar::{is_nonterminal, Grammar, Rule, END, START};

/// A set of terminals.
#[derive(Clone, Copy, Debug, PartialEq, Eq)]
pub struct TerminalSet {
    member: [bool; 64],
}

impl TerminalSet {
    pub const EMPTY: TerminalSet = TerminalSet {
        member: [false; 64],
    };

    pub fn of(terminal: u16) -> TerminalSet {
        let mut set = TerminalSet::EMPTY;
        set.member[usize::from(terminal)] = true;
        set
    }

    pub fn contains(&self, terminal: u16) -> bool {
        self.member[usize::from(terminal)]
    }

    pub fn union(mut self, other: &TerminalSet) -> TerminalSet {
        for (mine, theirs) in self.member.iter_mut().zip(other.member) {
            *mine |= theirs;
        }
        self
    }

    pub fn meets(&self, other: &TerminalSet) -> bool {
        (0..64).any(|t| self.contains(t) && other.contains(t))
    }
}

/// The sets of one grammar, indexed by nonterminal number (symbol minus 64).
#[derive(Clone, Debug)]
pub struct Sets {
    /// "reachable from START"
    pub reachable: Vec<bool>,
    /// "that of its cheapest derivable terminal string"; nothing where none is derivable.
    pub cost: Vec<Option<u64>>,
    /// "the lowest-numbered rule that reaches it", where there is a cost.
    pub cheapest: Vec<Option<usize>>,
    /// Whether the empty string is derivable.
    pub empty: Vec<bool>,
    pub first: Vec<TerminalSet>,
    pub follow: Vec<TerminalSet>,
    /// "insert cost" of each terminal.
    insert_cost: Vec<u16>,
}

impl Sets {
    pub fn of(grammar: &Grammar) -> Sets {
        let n = usize::from(grammar.nonterminals);
        let mut sets = Sets {
            reachable: vec![false; n],
            cost: vec![None; n],
            cheapest: vec![None; n],
            empty: vec![false; n],
            first: vec![TerminalSet::EMPTY; n],
            follow: vec![TerminalSet::EMPTY; n],
            insert_cost: grammar.insert_cost.clone(),
        };
        sets.find_reachable(grammar);
        sets.find_cost(grammar);
        sets.find_cheapest(grammar);
        sets.find_empty(grammar);
        sets.find_first(grammar);
        sets.find_follow(grammar);
        sets
    }

    /// START is reachable; so is every nonterminal in a rule of a reachable one.
    fn find_reachable(&mut self, grammar: &Grammar) {
        self.reachable[index(START)] = true;
        until_stable(|| {
            let mut changed = false;
            for rule in &grammar.rules {
                for &symbol in rule.right.iter().filter(|&&s| is_nonterminal(s)) {
                    if self.reachable[index(rule.left)] && !self.reachable[index(symbol)] {
                        self.reachable[index(symbol)] = true;
                        changed = true;
                    }
                }
            }
            changed
        });
    }

    /// The cost of a nonterminal is the least cost of its right sides. Sums stay at the
    /// largest u64 instead of passing it, which is over 60,000 all the same.
    fn find_cost(&mut self, grammar: &Grammar) {
        until_stable(|| {
            let mut changed = false;
            for rule in &grammar.rules {
                if let Some(new) = self.cost_of(&rule.right) {
                    let old = self.cost[index(rule.left)];
                    if old.is_none_or(|old| new < old) {
                        self.cost[index(rule.left)] = Some(new);
                        changed = true;
                    }
                }
            }
            changed
        });
    }

    /// "The step that gives a nonterminal's cost now also gives the lowest-numbered rule that reaches it":
    /// the first whose right side costs as much as its left side, once all costs are found. While they
    /// still fall, a rule that will reach the cost may be dearer than another.
    fn find_cheapest(&mut self, grammar: &Grammar) {
        for (number, rule) in grammar.rules.iter().enumerate() {
            let k = index(rule.left);
            let reaches = self.cost[k].is_some() && self.cost_of(&rule.right) == self.cost[k];
            if reaches && self.cheapest[k].is_none() {
                self.cheapest[k] = Some(number);
            }
        }
    }

    /// A nonterminal can be empty when all symbols of one of its right sides can.
    fn find_empty(&mut self, grammar: &Grammar) {
        until_stable(|| {
            let mut changed = false;
            for rule in &grammar.rules {
                if !self.empty[index(rule.left)] && self.can_be_empty(&rule.right) {
                    self.empty[index(rule.left)] = true;
                    changed = true;
                }
            }
            changed
        });
    }

    /// FIRST of a nonterminal holds FIRST of its right sides.
    fn find_first(&mut self, grammar: &Grammar) {
        until_stable(|| {
            let mut changed = false;
            for rule in &grammar.rules {
                let old = self.first[index(rule.left)];
                let new = old.union(&self.first_of(&rule.right));
                self.first[index(rule.left)] = new;
                changed |= new != old;
            }
            changed
        });
    }

    /// "FOLLOW(START) holds END." In a rule A -> x B y, FOLLOW(B) holds FIRST(y), and
    /// FOLLOW(A) where y can be empty.
    fn find_follow(&mut self, grammar: &Grammar) {
        self.follow[index(START)] = TerminalSet::of(END);
        until_stable(|| {
            let mut changed = false;
            for rule in &grammar.rules {
                for (at, &symbol) in rule.right.iter().enumerate() {
                    if !is_nonterminal(symbol) {
                        continue;
                    }
                    let behind = &rule.right[at + 1..];
                    let old = self.follow[index(symbol)];
                    let mut new = old.union(&self.first_of(behind));
                    if self.can_be_empty(behind) {
                        new = new.union(&self.follow[index(rule.left)]);
                    }
                    self.follow[index(symbol)] = new;
                    changed |= new != old;
                }
            }
            changed
        });
    }

    /// "The predict set of a rule is FIRST of its right side, with FOLLOW of its left side
    /// added where the right side can be empty."
    pub fn predict(&self, rule: &Rule) -> TerminalSet {
        let first = self.first_of(&rule.right);
        if self.can_be_empty(&rule.right) {
            first.union(&self.follow[index(rule.left)])
        } else {
            first
        }
    }

    /// "The cost of a symbol list is the sum over its members"; nothing where some member
    /// derives no terminal string.
    pub fn cost_of(&self, symbols: &[u16]) -> Option<u64> {
        let mut sum: u64 = 0;
        for &symbol in symbols {
            let cost = if is_nonterminal(symbol) {
                self.cost[index(symbol)]?
            } else {
                u64::from(self.insert_cost[usize::from(symbol)])
            };
            sum = sum.saturating_add(cost);
        }
        Some(sum)
    }

    /// Whether a symbol list can be empty: all its members can.
    pub fn can_be_empty(&self, symbols: &[u16]) -> bool {
        symbols
            .iter()
            .all(|&symbol| is_nonterminal(symbol) && self.empty[index(symbol)])
    }

    /// FIRST of a symbol list: of each member whose members before it can all be empty.
    pub fn first_of(&self, symbols: &[u16]) -> TerminalSet {
        let mut set = TerminalSet::EMPTY;
        for &symbol in symbols {
            set = set.union(&self.first_of_symbol(symbol));
            if !self.can_be_empty(&[symbol]) {
                break;
            }
        }
        set
    }

    /// FIRST of one symbol; a terminal's holds that terminal.
    pub fn first_of_symbol(&self, symbol: u16) -> TerminalSet {
        if is_nonterminal(symbol) {
            self.first[index(symbol)]
        } else {
            TerminalSet::of(symbol)
        }
    }
}

/// The number of a nonterminal symbol.
fn index(nonterminal: u16) -> usize {
    usize::from(nonterminal - 64)
}

/// Repeats a round for as long as it reports a change.
fn until_stable(mut round: impl FnMut() -> bool) {
    while round() {}
}
