//! "Symbols and grammar words": refusal 5, and the grammar that well-shaped words mean. Request (vi) of
//! document 02 adds a second header: "Grammars get a seventh header word, the restart mark".

/// "Terminal 0 is END."
pub const END: u16 = 0;
/// "Symbol 64 is START."
pub const START: u16 = 64;

/// A rule with its left side as a symbol: "left side k names symbol 64 + k".
#[derive(Clone, Debug, PartialEq, Eq)]
pub struct Rule {
    pub left: u16,
    pub right: Vec<u16>,
}

impl Rule {
    /// Takes a rule from the words: "left side, length, symbols: 0..N-1, 0..8, symbols".
    fn from_words(
        rest: &mut impl Iterator<Item = u16>,
        terminals: u16,
        nonterminals: u16,
    ) -> Option<Rule> {
        let left = 64 + within(rest.next()?, 0, nonterminals - 1)?;
        let length = within(rest.next()?, 0, 8)?;
        let mut right = Vec::new();
        for _ in 0..length {
            let symbol = rest.next()?;
            // "A symbol is a terminal 0..T-1 or a nonterminal 64..64+N-1."
            // END "never stands in a rule".
            let is_terminal = symbol != END && symbol < terminals;
            let is_nonterminal = 64 <= symbol && symbol < 64 + nonterminals;
            if !is_terminal && !is_nonterminal {
                return None;
            }
            right.push(symbol);
        }
        Some(Rule { left, right })
    }
}

/// The content of well-shaped grammar words.
#[derive(Clone, Debug, PartialEq, Eq)]
pub struct Grammar {
    /// T, "terminals, END included".
    pub terminals: u16,
    /// N.
    pub nonterminals: u16,
    /// Opening and closing mark of a cycle, "or both 0 (no cycles)".
    pub opening: u16,
    pub closing: u16,
    /// "tick unit: 0 one ms, 1 ten ms". By 02 (viii) only old files have unit 1, and no pace comes from them.
    pub unit: u16,
    /// "the restart mark, 1..T-1, or 0 for none"; a header of six words has none.
    pub restart: u16,
    /// Insert cost and reliability of each terminal.
    pub insert_cost: Vec<u16>,
    pub reliability: Vec<u16>,
    /// "Rules are numbered from 0."
    pub rules: Vec<Rule>,
}

impl Grammar {
    /// The grammar of `words`, or nothing where "grammar words break the shape" (refusal 5).
    pub fn from_words(words: &[u16]) -> Option<Grammar> {
        let mut rest = words.iter().copied();
        // Words 0, 1, 2: T, N, P. 02 (vi): with a seventh header word "such grammars have T + 256 in word 0".
        let first = rest.next()?;
        let has_seven = first > 256;
        let terminals = within(if has_seven { first - 256 } else { first }, 1, 64)?;
        let nonterminals = within(rest.next()?, 1, 64)?;
        let count = within(rest.next()?, 1, 256)?;
        // Words 3, 4: "each 1..T-1, or both 0 (no cycles); they may be equal".
        let (opening, closing) = (rest.next()?, rest.next()?);
        let is_mark = |mark: u16| 1 <= mark && mark < terminals;
        if !(is_mark(opening) && is_mark(closing) || opening == 0 && closing == 0) {
            return None;
        }
        // Word 5. 02 (viii): "Old files with unit 1 can still be read, checked and parsed": the range stays.
        let unit = within(rest.next()?, 0, 1)?;
        // Word 6, by 02 (vi): "1..T-1, or 0 for none"; it "differs from the opening and closing marks unless
        // it is 0".
        let restart = if has_seven { rest.next()? } else { 0 };
        let differs = restart != opening && restart != closing;
        if restart != 0 && !(is_mark(restart) && differs) {
            return None;
        }
        // "then 2 for each terminal 0..T-1: insert cost, reliability"
        let (mut insert_cost, mut reliability) = (Vec::new(), Vec::new());
        for terminal in 0..terminals {
            // END: "its cost and reliability words are both 0"; others: "cost 1..1,000;
            // reliability 0..60,000".
            let (least, most, most_reliable) = match terminal {
                END => (0, 0, 0),
                _ => (1, 1_000, 60_000),
            };
            insert_cost.push(within(rest.next()?, least, most)?);
            reliability.push(within(rest.next()?, 0, most_reliable)?);
        }
        // "then P rules"
        let mut rules = Vec::new();
        for _ in 0..count {
            rules.push(Rule::from_words(&mut rest, terminals, nonterminals)?);
        }
        // "The words end with the last rule."
        if rest.next().is_some() {
            return None;
        }
        Some(Grammar {
            terminals,
            nonterminals,
            opening,
            closing,
            unit,
            restart,
            insert_cost,
            reliability,
            rules,
        })
    }

    /// All nonterminal symbols, START first.
    pub fn nonterminal_symbols(&self) -> impl Iterator<Item = u16> {
        64..64 + self.nonterminals
    }
}

/// Whether a symbol is a nonterminal.
pub fn is_nonterminal(symbol: u16) -> bool {
    symbol >= 64
}

/// The number itself where it is in the range, else nothing.
fn within(number: u16, least: u16, most: u16) -> Option<u16> {
    (least <= number && number <= most).then_some(number)
}
