//! The pace report, refusal 16 among its others: one pass over the log beside its edits.

use super::parse::{clear_behind, is_log, run};
use super::tables::Tables;
use crate::answer::{Pace, Refusal, Report};

const DELETE: u16 = 1;

/// Runs the parse into the lent buffers and reports the pace.
pub fn report(
    tables: &mut Tables,
    words: &[u16],
    tokens: &[u16],
    ticks: &[u32],
    edits: &mut [u16],
    rules: &mut [u16],
) -> Result<Report, Refusal> {
    let answer = tables.check(words).and_then(|()| {
        if ticks.len() != tokens.len() {
            Err(10)
        } else if tables.unit == 1 {
            // Nothing is timed in ten ms, and nothing is moved for it.
            Err(if is_log(tables, tokens) { 16 } else { 10 })
        } else {
            run(tables, tokens, edits, rules)
        }
    });
    clear_behind(&answer, edits, rules);
    let records = 3 * answer?.edits as usize;
    let (cycles, ms) = cycles(tables, tokens, ticks, &edits[..records]);
    let pace = if cycles == 0 {
        Pace::Idle
    } else {
        Pace::Mean(ms as f64 / cycles as f64)
    };
    Ok(Report { cycles, ms, pace })
}

/// Count and ticks of the clean cycles. Edits stand in the order of their places, so the log
/// falls into stretches without edits and single places with some.
fn cycles(tables: &Tables, tokens: &[u16], ticks: &[u32], edits: &[u16]) -> (u64, u64) {
    let mut count = Count {
        opening: tables.opening,
        closing: tables.closing,
        restart: tables.restart,
        open: None,
        cycles: 0,
        sum: 0,
    };
    if count.opening == 0 {
        return (0, 0);
    }
    let mut place = 0;
    let mut records = edits.chunks_exact(3).peekable();
    while let Some(record) = records.next() {
        let edited = usize::from(record[1]);
        count.stretch(&tokens[place..edited], &ticks[place..edited]);
        // Every cycle open before this place is touched by the edit.
        count.open = None;
        let mut kept = record[0] != DELETE;
        while let Some(more) = records.next_if(|more| usize::from(more[1]) == edited) {
            kept &= more[0] != DELETE;
        }
        place = edited;
        if !kept {
            place += 1;
        } else if edited < tokens.len() {
            // An insert before a kept token: the token may open a cycle, not close one.
            if tokens[edited] == count.opening {
                count.open = Some(ticks[edited]);
            }
            place += 1;
        }
    }
    let rest = place.min(tokens.len());
    count.stretch(&tokens[rest..], &ticks[rest..]);
    (count.cycles, count.sum)
}

/// The cycles counted so far, and the tick of the opening mark that stands last, if no other
/// kept mark, no kept restart mark and no edit has come since.
struct Count {
    opening: u16,
    closing: u16,
    restart: u16,
    open: Option<u32>,
    cycles: u64,
    sum: u64,
}

impl Count {
    /// Counts along kept tokens without edits.
    fn stretch(&mut self, tokens: &[u16], ticks: &[u32]) {
        for (&token, &tick) in tokens.iter().zip(ticks) {
            if token == self.closing {
                if let Some(opened) = self.open {
                    self.cycles += 1;
                    self.sum += u64::from(tick.wrapping_sub(opened));
                }
                self.open = None;
            }
            // A cycle with a restart inside is not clean, and its closing mark closes nothing.
            if token == self.restart {
                self.open = None;
            }
            if token == self.opening {
                self.open = Some(tick);
            }
        }
    }
}
