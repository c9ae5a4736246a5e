//! Whole steps: for a nonterminal on top and a token in its FIRST, all moves up to the match
//! at once.
//!
//! An entry is made when it is first met and serves for the rest of the parse. Moves that an
//! entry cannot hold are left to single steps.

use super::tables::{Tables, LAST};

/// The moves from a nonterminal on top to the match of a token.
#[derive(Clone, Copy, Default)]
#[repr(C, align(32))]
pub struct Entry {
    /// What stands in place of the top afterwards, at most seven symbols: the new top in the
    /// highest byte used, and the same with the new top in the lowest byte.
    pub memory: u64,
    pub window: u64,
    /// The rules listed on the way.
    pub rules: [u16; 4],
    /// Eight times the number of symbols in place of the top.
    pub bits: u8,
    /// How many rules are listed, how many moves are made.
    pub listed: u8,
    pub moves: u8,
    /// How far the stack grows on the way at most, the top's own place not counted.
    pub peak: u8,
}

/// The entries of one grammar and the pairs for which they stand ready.
pub struct Entries {
    /// By symbol: the tokens for which an entry is ready; none for terminals.
    pub ready: [u64; 128],
    /// By nonterminal number and token.
    all: Box<[Entry; 4096]>,
}

impl Default for Entries {
    fn default() -> Entries {
        let entries = vec![Entry::default(); 4096].into_boxed_slice();
        let Ok(all) = entries.try_into() else {
            unreachable!("4,096 entries")
        };
        Entries {
            ready: [0; 128],
            all,
        }
    }
}

impl Entries {
    /// The entry of a nonterminal and a token for which it is ready.
    #[inline(always)]
    pub fn at(&self, nonterminal: usize, token: usize) -> &Entry {
        &self.all[place(nonterminal, token)]
    }

    /// Forgets all entries.
    pub fn clear(&mut self) {
        self.ready.fill(0);
    }
}

#[inline(always)]
fn place(nonterminal: usize, token: usize) -> usize {
    (nonterminal << 6 | token) & 4095
}

impl Tables {
    /// The rule of a nonterminal for a token in its FIRST.
    pub fn rule_for(&self, nonterminal: usize, token: usize) -> usize {
        let mut number = self.head[nonterminal & 63];
        while number != LAST {
            let rule = &self.rules[usize::from(number) & 255];
            if rule.first >> token & 1 == 1 {
                return usize::from(number);
            }
            number = rule.next;
        }
        unreachable!("a token in FIRST of a nonterminal is in FIRST of a right side")
    }

    /// Makes the entry of a nonterminal and a token in its FIRST, if an entry can hold it.
    pub fn make_entry(&mut self, nonterminal: usize, token: usize) {
        let mut entry = Entry::default();
        // The symbols in place of the nonterminal, the top last.
        let mut stack = [0u8; 24];
        stack[0] = nonterminal as u8;
        let mut height = 1;
        loop {
            height -= 1;
            let top = usize::from(stack[height]);
            entry.moves += 1;
            if top == token {
                break;
            }
            if self.first[top] >> token & 1 == 0 {
                // Any other top can be empty.
                continue;
            }
            let number = self.rule_for(top, token);
            let rule = &self.rules[number];
            let length = usize::from(rule.length);
            if entry.listed == 4 || height + length > 16 {
                return;
            }
            stack[height..height + 8].copy_from_slice(&rule.right.to_le_bytes());
            height += length;
            entry.rules[usize::from(entry.listed)] = number as u16;
            entry.listed += 1;
            entry.peak = entry.peak.max(height as u8 - 1);
        }
        if height > 7 {
            return;
        }
        for &symbol in stack[..height].iter().rev() {
            entry.memory = entry.memory << 8 | u64::from(symbol);
        }
        for &symbol in &stack[..height] {
            entry.window = entry.window << 8 | u64::from(symbol);
        }
        entry.bits = 8 * height as u8;
        self.entries.all[place(nonterminal, token)] = entry;
        self.entries.ready[nonterminal & 127] |= 1 << token;
    }
}
