//! The parse, refusals 10 to 12; what it does with a token in error stands in `repair`.

use super::stack::{Stack, Top};
use super::tables::Tables;
use crate::answer::{Parsed, Refusal, MOST_TOKENS};

/// "more than 256 symbols on the stack, END counted"
const HIGHEST: usize = 256;

/// Parses a log into the lent buffers.
pub fn parse(
    tables: &mut Tables,
    words: &[u16],
    tokens: &[u16],
    edits: &mut [u16],
    rules: &mut [u16],
) -> Result<Parsed, Refusal> {
    let answer = tables
        .check(words)
        .and_then(|()| run(tables, tokens, edits, rules));
    clear_behind(&answer, edits, rules);
    answer
}

/// Clears what stands behind the last word written, and everything after a refusal.
pub fn clear_behind(answer: &Result<Parsed, Refusal>, edits: &mut [u16], rules: &mut [u16]) {
    let (records, numbers) = match answer {
        Ok(parsed) => (parsed.edits as usize, parsed.rules as usize),
        Err(_) => (0, 0),
    };
    edits[3 * records..].fill(0);
    rules[numbers..].fill(0);
}

/// Runs a log on checked tables. Words behind the last one written are left undetermined.
pub fn run(
    tables: &mut Tables,
    tokens: &[u16],
    edits: &mut [u16],
    rules: &mut [u16],
) -> Result<Parsed, Refusal> {
    if !is_log(tables, tokens) {
        return Err(10);
    }
    tables.entries.clear();
    let (stack, top) = Stack::new();
    let mut state = State {
        tables,
        edits,
        rules,
        stack,
        top,
        moves: 0,
        records: 0,
        listed: 0,
    };
    state.log(tokens)?;
    Ok(Parsed {
        moves: state.moves,
        edits: state.records as u64,
        rules: state.listed as u64,
    })
}

/// Whether tokens are a log of the grammar whose tables these are; else 10 is given.
pub fn is_log(tables: &Tables, tokens: &[u16]) -> bool {
    tokens.len() <= MOST_TOKENS && in_range(tokens, tables.terminals)
}

/// Whether every token is in 1..T-1, without a branch for each.
fn in_range(tokens: &[u16], terminals: u16) -> bool {
    let most = tokens
        .iter()
        .fold(0, |most, &t| most.max(t.wrapping_sub(1)));
    tokens.is_empty() || most < terminals - 1
}

/// What stands after some moves.
pub(super) struct State<'a> {
    pub(super) tables: &'a mut Tables,
    pub(super) edits: &'a mut [u16],
    pub(super) rules: &'a mut [u16],
    pub(super) stack: Stack,
    pub(super) top: Top,
    pub(super) moves: u64,
    pub(super) records: usize,
    pub(super) listed: usize,
}

impl State<'_> {
    /// All moves of a log, END's included.
    fn log(&mut self, tokens: &[u16]) -> Result<(), Refusal> {
        let mut place = 0;
        loop {
            place = self.stretch(tokens, place);
            let Some(&token) = tokens.get(place) else {
                return self.end(tokens.len());
            };
            let token = usize::from(token & 63);
            match self.fits(token) {
                Some(top) => {
                    self.moves += (self.top.height() - top.height()) as u64;
                    self.top = top;
                    self.single_steps(token)?;
                    place += 1;
                }
                None => place = self.repair(tokens, place)?,
            }
        }
    }

    /// Goes on from a place as far as matches, ready entries and drops lead, and answers the
    /// place of the first token that asks for more.
    fn stretch(&mut self, tokens: &[u16], mut place: usize) -> usize {
        let tables = &*self.tables;
        // Kept out of memory for the length of the loop.
        let (mut top, mut moves, mut listed) = (self.top, self.moves, self.listed);
        while let Some(&token) = tokens.get(place) {
            let token = usize::from(token & 63);
            let mut here = top;
            let mut symbol = here.symbol();
            // Drops, if what they lead to is there.
            while tables.first[symbol] >> token & 1 == 0 && tables.empty[symbol] != 0 {
                here.down(&self.stack);
                symbol = here.symbol();
            }
            let dropped = (top.height() - here.height()) as u64;
            if symbol == token {
                here.down(&self.stack);
                moves += dropped + 1;
            } else if tables.entries.ready[symbol] >> token & 1 == 1 {
                let entry = tables.entries.at(symbol, token);
                let Some(room) = self.rules.get_mut(listed..listed + 4) else {
                    break;
                };
                if here.height() + usize::from(entry.peak) > HIGHEST {
                    break;
                }
                room.copy_from_slice(&entry.rules);
                listed += usize::from(entry.listed);
                moves += dropped + u64::from(entry.moves);
                let bits = u32::from(entry.bits);
                self.stack
                    .replace(&mut here, entry.memory, entry.window, bits);
            } else {
                break;
            }
            top = here;
            place += 1;
        }
        (self.top, self.moves, self.listed) = (top, moves, listed);
        place
    }

    /// The place on the stack where a token fits with only symbols above it that can be
    /// empty, or nothing where the token is not in FIRST of the stack.
    fn fits(&self, token: usize) -> Option<Top> {
        let mut at = self.top;
        loop {
            let symbol = at.symbol();
            if self.tables.first[symbol] >> token & 1 == 1 {
                return Some(at);
            }
            if self.tables.empty[symbol] == 0 {
                return None;
            }
            at.down(&self.stack);
        }
    }

    /// All moves from a top with the token in its FIRST to the match, one by one. The entry
    /// that was missing is made on the way.
    #[cold]
    #[inline(never)]
    fn single_steps(&mut self, token: usize) -> Result<(), Refusal> {
        if self.top.symbol() >= 64 {
            self.tables.make_entry(self.top.symbol(), token);
        }
        loop {
            let symbol = self.top.symbol();
            if symbol == token || self.tables.first[symbol] >> token & 1 == 0 {
                self.top.down(&self.stack);
                self.moves += 1;
                if symbol == token {
                    return Ok(());
                }
                continue;
            }
            let number = self.tables.rule_for(symbol, token);
            let rule = &self.tables.rules[number];
            if self.top.height() - 1 + usize::from(rule.length) > HIGHEST {
                return Err(11);
            }
            let Some(word) = self.rules.get_mut(self.listed) else {
                return Err(12);
            };
            *word = number as u16;
            self.listed += 1;
            self.moves += 1;
            self.stack.push(&mut self.top, rule.right, rule.length);
        }
    }

    /// The moves of END: it fits only at the bottom, by drops where all above can be empty,
    /// else by a correction.
    fn end(&mut self, place: usize) -> Result<(), Refusal> {
        match self.fits(0) {
            Some(_) => self.moves += self.top.height() as u64 - 1,
            None => self.pop_down_to(1, place as u16)?,
        }
        self.moves += 1;
        Ok(())
    }
}
