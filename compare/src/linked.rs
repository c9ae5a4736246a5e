//! The proved implementation, linked: the static library's functions as the benchmark calls them.
//! `bench` builds with the feature `linked` and says where the library is.

use crate::answer::{Implementation, Marked, Pace, Parsed, Refusal, Report};
use crate::library::{is_refusal, IDLE};

extern "C" {
    fn odhrashup_read(
        bytes: *const u8,
        bytes_len: usize,
        words: *mut u16,
        words_len: usize,
        counts: *mut u64,
        counts_len: usize,
    ) -> u32;
    fn odhrashup_write(
        words: *const u16,
        words_len: usize,
        bytes: *mut u8,
        bytes_len: usize,
        counts: *mut u64,
        counts_len: usize,
    ) -> u32;
    fn odhrashup_check(words: *const u16, words_len: usize) -> u32;
    fn odhrashup_costs(
        words: *const u16,
        words_len: usize,
        costs: *mut u16,
        costs_len: usize,
        rules: *mut u16,
        rules_len: usize,
        counts: *mut u64,
        counts_len: usize,
    ) -> u32;
    fn odhrashup_parse(
        words: *const u16,
        words_len: usize,
        log: *const u16,
        log_len: usize,
        edits: *mut u16,
        edits_len: usize,
        rules: *mut u16,
        rules_len: usize,
        counts: *mut u64,
        counts_len: usize,
    ) -> u32;
    fn odhrashup_marks(
        words: *const u16,
        words_len: usize,
        log: *const u16,
        log_len: usize,
        edits: *mut u16,
        edits_len: usize,
        rules: *mut u16,
        rules_len: usize,
        tokens: *mut u16,
        tokens_len: usize,
        counts: *mut u64,
        counts_len: usize,
    ) -> u32;
    fn odhrashup_pace(
        words: *const u16,
        words_len: usize,
        log: *const u16,
        log_len: usize,
        ticks: *const u32,
        ticks_len: usize,
        edits: *mut u16,
        edits_len: usize,
        rules: *mut u16,
        rules_len: usize,
        counts: *mut u64,
        counts_len: usize,
        mean: *mut f64,
        mean_len: usize,
    ) -> u32;
}

/// The proved implementation. Every slice is passed with its own length, which is all that the
/// library asks.
pub struct Linked;

/// The answer, or the refusal that a status is.
fn outcome<A>(status: u32, answer: A) -> Result<A, Refusal> {
    if is_refusal(status) {
        Err(status as Refusal)
    } else {
        Ok(answer)
    }
}

impl Implementation for Linked {
    fn name(&self) -> &'static str {
        "proved"
    }

    fn read(&self, file: &[u8], words: &mut [u16]) -> Result<usize, Refusal> {
        let mut counts = [0];
        let status = unsafe {
            odhrashup_read(
                file.as_ptr(),
                file.len(),
                words.as_mut_ptr(),
                words.len(),
                counts.as_mut_ptr(),
                counts.len(),
            )
        };
        outcome(status, counts[0] as usize)
    }

    fn write(&self, words: &[u16], bytes: &mut [u8]) -> Result<usize, Refusal> {
        let mut counts = [0];
        let status = unsafe {
            odhrashup_write(
                words.as_ptr(),
                words.len(),
                bytes.as_mut_ptr(),
                bytes.len(),
                counts.as_mut_ptr(),
                counts.len(),
            )
        };
        outcome(status, counts[0] as usize)
    }

    fn check(&self, words: &[u16]) -> Result<(), Refusal> {
        outcome(unsafe { odhrashup_check(words.as_ptr(), words.len()) }, ())
    }

    fn costs(&self, words: &[u16], costs: &mut [u16], rules: &mut [u16]) -> Result<usize, Refusal> {
        let mut counts = [0];
        let status = unsafe {
            odhrashup_costs(
                words.as_ptr(),
                words.len(),
                costs.as_mut_ptr(),
                costs.len(),
                rules.as_mut_ptr(),
                rules.len(),
                counts.as_mut_ptr(),
                counts.len(),
            )
        };
        outcome(status, counts[0] as usize)
    }

    fn parse(
        &self,
        words: &[u16],
        tokens: &[u16],
        edits: &mut [u16],
        rules: &mut [u16],
    ) -> Result<Parsed, Refusal> {
        let mut counts = [0; 3];
        let status = unsafe {
            odhrashup_parse(
                words.as_ptr(),
                words.len(),
                tokens.as_ptr(),
                tokens.len(),
                edits.as_mut_ptr(),
                edits.len(),
                rules.as_mut_ptr(),
                rules.len(),
                counts.as_mut_ptr(),
                counts.len(),
            )
        };
        let [moves, edits, rules] = counts;
        outcome(
            status,
            Parsed {
                moves,
                edits,
                rules,
            },
        )
    }

    fn marks(
        &self,
        words: &[u16],
        tokens: &[u16],
        edits: &mut [u16],
        rules: &mut [u16],
        marks: &mut [u16],
    ) -> Result<Marked, Refusal> {
        let mut counts = [0; 4];
        let status = unsafe {
            odhrashup_marks(
                words.as_ptr(),
                words.len(),
                tokens.as_ptr(),
                tokens.len(),
                edits.as_mut_ptr(),
                edits.len(),
                rules.as_mut_ptr(),
                rules.len(),
                marks.as_mut_ptr(),
                marks.len(),
                counts.as_mut_ptr(),
                counts.len(),
            )
        };
        let [moves, edits, rules, tokens] = counts;
        let parsed = Parsed {
            moves,
            edits,
            rules,
        };
        outcome(status, Marked { parsed, tokens })
    }

    fn report(
        &self,
        words: &[u16],
        tokens: &[u16],
        ticks: &[u32],
        edits: &mut [u16],
        rules: &mut [u16],
    ) -> Result<Report, Refusal> {
        let (mut counts, mut mean) = ([0; 2], [0.0]);
        let status = unsafe {
            odhrashup_pace(
                words.as_ptr(),
                words.len(),
                tokens.as_ptr(),
                tokens.len(),
                ticks.as_ptr(),
                ticks.len(),
                edits.as_mut_ptr(),
                edits.len(),
                rules.as_mut_ptr(),
                rules.len(),
                counts.as_mut_ptr(),
                counts.len(),
                mean.as_mut_ptr(),
                mean.len(),
            )
        };
        let [cycles, ms] = counts;
        let pace = if status == IDLE {
            Pace::Idle
        } else {
            Pace::Mean(mean[0])
        };
        outcome(status, Report { cycles, ms, pace })
    }
}
