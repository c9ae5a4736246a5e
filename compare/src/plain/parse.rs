//! "Moves": the repairing parse, refusals 10 to 12, and the two lent buffers. Request (ii) of document
//! 02 overrules one of document 01's sentences here: "A popped symbol that can be empty becomes a drop
//! move, with no edit record."

use super::check::check;
use super::grammar::{is_nonterminal, Grammar, END, START};
use super::sets::Sets;
use crate::answer::{Parsed, Refusal, MOST_TOKENS};

/// "An edit record is three u16 words: kind (1 delete, 2 insert), place, symbol."
#[derive(Clone, Copy, Debug, PartialEq, Eq)]
pub struct Edit {
    pub kind: u16,
    pub place: u16,
    pub symbol: u16,
}

pub const DELETE: u16 = 1;
pub const INSERT: u16 = 2;

/// Parses a log and fills the two lent buffers.
pub fn parse(
    words: &[u16],
    tokens: &[u16],
    edits: &mut [u16],
    rules: &mut [u16],
) -> Result<Parsed, Refusal> {
    // "all words after the last one written are zero", and after a refusal all words.
    edits.fill(0);
    rules.fill(0);
    let (grammar, sets) = check(words)?;
    if !is_log(&grammar, tokens) {
        return Err(10);
    }
    let mut run = Run::new(&grammar, &sets, tokens, edits.len(), rules.len());
    run.finish()?;
    for (record, edit) in edits.chunks_mut(3).zip(&run.edits) {
        record.copy_from_slice(&[edit.kind, edit.place, edit.symbol]);
    }
    rules[..run.rules.len()].copy_from_slice(&run.rules);
    Ok(Parsed {
        moves: run.moves,
        edits: run.edits.len() as u64,
        rules: run.rules.len() as u64,
    })
}

/// How many edits and rules a parse lists with long buffers, up to its end or to the move
/// that refuses it. For the generators, which lend buffers around these numbers.
pub fn needed(words: &[u16], tokens: &[u16], long: usize) -> Parsed {
    let mut needed = Parsed {
        moves: 0,
        edits: 0,
        rules: 0,
    };
    if let Ok((grammar, sets)) = check(words) {
        if is_log(&grammar, tokens) {
            let mut run = Run::new(&grammar, &sets, tokens, long, long);
            // Refused or not, what was listed is what is asked for.
            let _ = run.finish();
            needed.edits = run.edits.len() as u64;
            needed.rules = run.rules.len() as u64;
        }
    }
    needed
}

/// "A log is n tokens, 0..4,096, each 1..T-1." Anything else is refusal 10.
pub fn is_log(grammar: &Grammar, tokens: &[u16]) -> bool {
    tokens.len() <= MOST_TOKENS && tokens.iter().all(|&t| 1 <= t && t < grammar.terminals)
}

/// What stands after some moves: the place, the stack, and what was listed so far.
struct Run<'a> {
    grammar: &'a Grammar,
    sets: &'a Sets,
    tokens: &'a [u16],
    /// The lengths of the two lent buffers.
    edit_words: usize,
    rule_words: usize,
    /// A1..Ad, the top first.
    stack: Vec<u16>,
    place: usize,
    moves: u64,
    edits: Vec<Edit>,
    rules: Vec<u16>,
}

impl<'a> Run<'a> {
    /// Before the first move: "The stack begins as START over END."
    fn new(
        grammar: &'a Grammar,
        sets: &'a Sets,
        tokens: &'a [u16],
        edit_words: usize,
        rule_words: usize,
    ) -> Run<'a> {
        Run {
            grammar,
            sets,
            tokens,
            edit_words,
            rule_words,
            stack: vec![START, END],
            place: 0,
            moves: 0,
            edits: Vec::new(),
            rules: Vec::new(),
        }
    }

    /// Moves until "the run ends when END is matched", or to the first move that meets
    /// refusal 11 or 12.
    fn finish(&mut self) -> Result<(), Refusal> {
        while !self.stack.is_empty() {
            let token = self.token(self.place);
            if self.sets.first_of(&self.stack).contains(token) {
                self.moves_to_match(token)?;
            } else {
                self.repair()?;
            }
        }
        Ok(())
    }

    /// The token of a place: "Behind it stands END, at place n."
    fn token(&self, place: usize) -> u16 {
        self.tokens.get(place).copied().unwrap_or(END)
    }

    /// "If t is in FIRST of the whole stack, read from its top, moves follow until t is
    /// matched."
    fn moves_to_match(&mut self, token: u16) -> Result<(), Refusal> {
        loop {
            let top = self.stack[0];
            if top == token {
                self.match_top();
                return Ok(());
            } else if is_nonterminal(top) && self.sets.first_of_symbol(top).contains(token) {
                self.expand(top, token)?;
            } else {
                self.drop_top();
            }
        }
    }

    /// "Top equal to t: match, one pop, next token."
    fn match_top(&mut self) {
        self.stack.remove(0);
        self.place += 1;
        self.moves += 1;
    }

    /// "expand by its one rule whose right side has t in FIRST; one pop, the right side is
    /// pushed, the rule number is listed"
    fn expand(&mut self, top: u16, token: u16) -> Result<(), Refusal> {
        let (number, rule) = (self.grammar.rules.iter().enumerate())
            .find(|(_, rule)| rule.left == top && self.sets.first_of(&rule.right).contains(token))
            .expect("a token in FIRST of a nonterminal is in FIRST of a right side");
        // Refusal 11: "an expand would leave more than 256 symbols on the stack, END
        // counted"; "an expand tests 11 first".
        if self.stack.len() - 1 + rule.right.len() > 256 {
            return Err(11);
        }
        // Refusal 12: "the next rule number ... does not fit".
        if self.rules.len() == self.rule_words {
            return Err(12);
        }
        self.stack.splice(0..1, rule.right.iter().copied());
        self.rules.push(number as u16);
        self.moves += 1;
        Ok(())
    }

    /// "Any other top can be empty: drop, one pop, nothing listed." A correction has such moves too, by
    /// request (ii).
    fn drop_top(&mut self) {
        let top = self.stack.remove(0);
        assert!(self.sets.can_be_empty(&[top]), "a dropped top can be empty");
        self.moves += 1;
    }

    /// "Otherwise t is in error and nothing has moved for it."
    fn repair(&mut self) -> Result<(), Refusal> {
        let (r, i) = self.search();
        // "Each token from the current place to r-1 is a delete move."
        while self.place < r {
            let place = self.place as u16;
            self.list_edit(DELETE, place, self.token(self.place))?;
            self.place += 1;
        }
        // 01: "Each of A1..Ai-1, top first, is an insert move, one pop each." 02 (ii): "01's rule is
        // wrong here. A popped symbol that can be empty becomes a drop move, with no edit record."
        // Here i counts from 0, so i symbols stand above the one that fits.
        for _ in 0..i {
            let top = self.stack[0];
            if self.sets.can_be_empty(&[top]) {
                self.drop_top();
            } else {
                self.insert_top(r as u16)?;
            }
        }
        // "Token r is then current."
        Ok(())
    }

    /// "an insert move, one pop"; "an insert names r".
    fn insert_top(&mut self, r: u16) -> Result<(), Refusal> {
        self.list_edit(INSERT, r, self.stack[0])?;
        self.stack.remove(0);
        Ok(())
    }

    /// "Take the least place r, from the current one to n, for which some i has token r in
    /// FIRST(Ai) and cost(A1..Ai-1) strictly below the reliability of token r. For that r
    /// take the least i." 02 (ii): "Costs, r and i stay as they are." The answer's i counts from 0.
    fn search(&self) -> (usize, usize) {
        for r in self.place..=self.tokens.len() {
            let token = self.token(r);
            for i in 0..self.stack.len() {
                let fits = self.sets.first_of_symbol(self.stack[i]).contains(token);
                if fits && self.cost_is_below_reliability(&self.stack[..i], token) {
                    return (r, i);
                }
            }
        }
        // "An r always exists, since END fits at the bottom."
        unreachable!("END fits at the bottom of the stack")
    }

    /// END's "reliability counts as unlimited".
    fn cost_is_below_reliability(&self, symbols: &[u16], token: u16) -> bool {
        let cost = self.sets.cost_of(symbols).expect("every symbol has a cost");
        token == END || cost < u64::from(self.grammar.reliability[usize::from(token)])
    }

    /// One delete or insert move with its record. "A record is written only where all three
    /// words fit"; else refusal 12, which by 02 (ii) speaks "of the shorter list": a drop asks for no
    /// room.
    fn list_edit(&mut self, kind: u16, place: u16, symbol: u16) -> Result<(), Refusal> {
        if 3 * (self.edits.len() + 1) > self.edit_words {
            return Err(12);
        }
        self.edits.push(Edit {
            kind,
            place,
            symbol,
        });
        self.moves += 1;
        Ok(())
    }
}
