//! The search for a token of use, and the delete, insert and drop moves of a correction.

use super::parse::State;
use crate::answer::Refusal;

const DELETE: u16 = 1;
const INSERT: u16 = 2;
/// After so many deletes in a row the useful tokens are found all at once.
const PATIENCE: usize = 2;

impl State<'_> {
    /// Deletes tokens until one is of use, pops what stands above where it fits, and
    /// answers its place.
    pub(super) fn repair(&mut self, tokens: &[u16], place: usize) -> Result<usize, Refusal> {
        // The tokens worth a search; all of them until some searches were in vain.
        let mut worth = u64::MAX;
        for (r, &token) in tokens.iter().enumerate().skip(place) {
            if worth >> (token & 63) & 1 == 1 {
                if let Some(height) = self.useful(usize::from(token & 63)) {
                    self.pop_down_to(height, r as u16)?;
                    return Ok(r);
                }
                if r == place + PATIENCE {
                    worth = self.all_useful();
                }
            }
            self.record(DELETE, r as u16, token)?;
        }
        // END is of use at the bottom, whatever stands above.
        self.pop_down_to(1, tokens.len() as u16)?;
        Ok(tokens.len())
    }

    /// The height of the highest place on the stack where a token fits and what stands above
    /// it costs less than the token's reliability.
    #[inline(always)]
    fn useful(&self, token: usize) -> Option<usize> {
        let reliability = self.tables.reliability[token];
        let mut cost = 0;
        let mut at = self.top;
        while cost < reliability {
            let symbol = at.symbol();
            if self.tables.first[symbol] >> token & 1 == 1 {
                return Some(at.height());
            }
            // END stands only at the bottom.
            if symbol == 0 {
                return None;
            }
            cost += self.tables.cost[symbol];
            at.down(&self.stack);
        }
        None
    }

    /// All tokens for which [`State::useful`] has an answer.
    #[cold]
    #[inline(never)]
    fn all_useful(&self) -> u64 {
        let (mut useful, mut seen, mut cost) = (0, 0, 0);
        let mut at = self.top;
        loop {
            let symbol = at.symbol();
            let mut new = self.tables.first[symbol] & !seen;
            seen |= new;
            while new != 0 {
                let token = new.trailing_zeros() as usize;
                useful |= u64::from(cost < self.tables.reliability[token]) << token;
                new &= new - 1;
            }
            if symbol == 0 {
                return useful;
            }
            cost += self.tables.cost[symbol];
            at.down(&self.stack);
        }
    }

    /// A move for each symbol above a height: a drop where it can be empty, by request (ii), else an
    /// insert.
    pub(super) fn pop_down_to(&mut self, height: usize, place: u16) -> Result<(), Refusal> {
        while self.top.height() > height {
            let symbol = self.top.symbol();
            if self.tables.empty[symbol] == 0 {
                self.record(INSERT, place, symbol as u16)?;
            } else {
                self.moves += 1;
            }
            self.top.down(&self.stack);
        }
        Ok(())
    }

    /// One delete or insert move with its record.
    #[inline(always)]
    fn record(&mut self, kind: u16, place: u16, symbol: u16) -> Result<(), Refusal> {
        let at = 3 * self.records;
        let Some(record) = self.edits.get_mut(at..at + 3) else {
            return Err(12);
        };
        record.copy_from_slice(&[kind, place, symbol]);
        self.records += 1;
        self.moves += 1;
        Ok(())
    }
}
