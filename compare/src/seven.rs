//! What the inputs of a run met whose grammar has the header of seven words, by request (vi) of document 02.

use crate::differ::Outcome;
use crate::generate::Input;
use crate::plain;

/// As many words as a parse lists at most, and more.
const AMPLE: usize = 70_000;

/// Counts of such inputs.
#[derive(Default)]
pub struct Seven {
    /// All of them.
    pub inputs: u64,
    /// Those whose grammar is accepted and has a restart mark other than 0.
    pub marked: u64,
    /// Reports that would have counted more cycles with 0 in place of the restart mark.
    pub unclean: u64,
}

impl Seven {
    /// Counts an input, if it is one. Reads and writes know of no header.
    pub fn count(&mut self, input: &Input, outcome: &Outcome) {
        let Some((257..=320, restart)) = header(input) else {
            return;
        };
        self.inputs += 1;
        // 1 to 9 are given before anything is asked of an accepted grammar, and all others behind it.
        let accepted = !matches!(outcome.answer, Err(1..=9));
        if !accepted || restart.is_none_or(|mark| mark == 0) {
            return;
        }
        self.marked += 1;
        if let (Input::Report { .. }, Ok(numbers)) = (input, &outcome.answer) {
            self.unclean += u64::from(cycles_without(input) > numbers[0]);
        }
    }

    /// The lines of a run, with names as wide as its own. Only a run with reports has the last one.
    pub fn print(&self, width: usize, reports: bool) {
        println!("{:>width$} {}", "seven words", self.inputs);
        println!("{:>width$} {}", "restart mark", self.marked);
        if reports {
            println!("{:>width$} {}", "restarted", self.unclean);
        }
    }
}

/// Word 0 and word 6 of an input's grammar, as far as there are such words.
fn header(input: &Input) -> Option<(u16, Option<u16>)> {
    match input {
        Input::Check { words }
        | Input::Costs { words, .. }
        | Input::Parse { words, .. }
        | Input::Marks { words, .. }
        | Input::Report { words, .. } => Some((*words.first()?, words.get(6).copied())),
        // Behind the block count stand the number and the use count of the first block.
        Input::Listing { input } | Input::MarkLines { input } => {
            let word = |at: usize| {
                let bytes = input.get(6 + 2 * at..)?.first_chunk::<2>()?;
                Some(u16::from_le_bytes(*bytes))
            };
            Some((word(0)?, word(6)))
        }
        Input::Read { .. } | Input::Write { .. } => None,
    }
}

/// The cycles of a report with 0 in place of the restart mark.
fn cycles_without(input: &Input) -> u64 {
    let Input::Report {
        words,
        tokens,
        ticks,
        ..
    } = input
    else {
        return 0;
    };
    let mut words = words.clone();
    words[6] = 0;
    let (mut edits, mut rules) = (vec![0; AMPLE], vec![0; AMPLE]);
    let report = plain::report(&words, tokens, ticks, &mut edits, &mut rules);
    report.map_or(0, |report| report.cycles)
}
