//! The proved implementation, behind its C interface: a driver process that links the static
//! library answers calls, the program `test_sweep` prints listings, and the program `test_mark_lines` the
//! lines of `print_marks`. Processes and not a link, since the library is for x86-64 and may have to run
//! under an emulator. `run` builds them and names their commands in `ODHRASHUP_DRIVER`,
//! `ODHRASHUP_LISTINGS` and `ODHRASHUP_MARK_LINES`.

mod asked;

use crate::answer::{Implementation, Marked, Pace, Parsed, Prints, Refusal, Report};
use asked::{Asked, COUNTS};
use std::cell::RefCell;

/// The status of an idle station.
pub(crate) const IDLE: u32 = 1_000;

/// The proved implementation.
pub struct Library {
    driver: RefCell<Asked>,
    listings: RefCell<Asked>,
    /// Nothing where the environment names no such process.
    mark_lines: Option<RefCell<Asked>>,
}

impl Library {
    /// It, where the environment names the driver and the listings.
    pub fn from_environment() -> Option<Library> {
        Some(Library {
            driver: RefCell::new(Asked::named("ODHRASHUP_DRIVER")?),
            listings: RefCell::new(Asked::named("ODHRASHUP_LISTINGS")?),
            mark_lines: Asked::named("ODHRASHUP_MARK_LINES").map(RefCell::new),
        })
    }
}

/// Whether a status is the number of a refusal: those of 01 and of requests (i), (iii), (iv) and (viii).
pub(crate) fn is_refusal(status: u32) -> bool {
    matches!(status, 1..=16 | 23)
}

/// A refusal carries no counts and no mean; without one the counts behind those given are zero.
fn outcome(
    status: u32,
    counts: [u64; COUNTS],
    mean: f64,
    used: usize,
) -> Result<[u64; COUNTS], Refusal> {
    if is_refusal(status) {
        assert_eq!(
            (counts, mean.to_bits()),
            ([0; COUNTS], 0),
            "a refusal leaves zeros"
        );
        return Err(status as Refusal);
    }
    assert!(
        counts[used..].iter().all(|&count| count == 0),
        "zeros behind the counts"
    );
    Ok(counts)
}

impl Implementation for Library {
    fn name(&self) -> &'static str {
        "proved"
    }

    fn read(&self, file: &[u8], words: &mut [u16]) -> Result<usize, Refusal> {
        let mut driver = self.driver.borrow_mut();
        driver.put_u32(0);
        driver.put_u32(file.len());
        driver.put_u32(words.len());
        driver.put(file);
        driver.put_u16s(words);
        driver.ask();
        let (status, counts, mean) = driver.head();
        driver.get_u16s(words);
        outcome(status, counts, mean, 1).map(|counts| counts[0] as usize)
    }

    fn write(&self, words: &[u16], bytes: &mut [u8]) -> Result<usize, Refusal> {
        let mut driver = self.driver.borrow_mut();
        driver.put_u32(4);
        driver.put_u32(words.len());
        driver.put_u32(bytes.len());
        driver.put_u16s(words);
        driver.put(bytes);
        driver.ask();
        let (status, counts, mean) = driver.head();
        driver.get_bytes(bytes);
        outcome(status, counts, mean, 1).map(|counts| counts[0] as usize)
    }

    fn check(&self, words: &[u16]) -> Result<(), Refusal> {
        let mut driver = self.driver.borrow_mut();
        driver.put_u32(1);
        driver.put_u32(words.len());
        driver.put_u16s(words);
        driver.ask();
        let (status, counts, mean) = driver.head();
        outcome(status, counts, mean, 0).map(|_| ())
    }

    fn costs(&self, words: &[u16], costs: &mut [u16], rules: &mut [u16]) -> Result<usize, Refusal> {
        let mut driver = self.driver.borrow_mut();
        driver.put_u32(5);
        for size in [words.len(), costs.len(), rules.len()] {
            driver.put_u32(size);
        }
        for list in [words, costs, rules] {
            driver.put_u16s(list);
        }
        driver.ask();
        let (status, counts, mean) = driver.head();
        driver.get_u16s(costs);
        driver.get_u16s(rules);
        outcome(status, counts, mean, 1).map(|counts| counts[0] as usize)
    }

    fn parse(
        &self,
        words: &[u16],
        tokens: &[u16],
        edits: &mut [u16],
        rules: &mut [u16],
    ) -> Result<Parsed, Refusal> {
        let mut driver = self.driver.borrow_mut();
        driver.put_u32(2);
        for size in [words.len(), tokens.len(), edits.len(), rules.len()] {
            driver.put_u32(size);
        }
        for list in [words, tokens, edits, rules] {
            driver.put_u16s(list);
        }
        driver.ask();
        let (status, counts, mean) = driver.head();
        driver.get_u16s(edits);
        driver.get_u16s(rules);
        outcome(status, counts, mean, 3).map(|[moves, edits, rules, _]| Parsed {
            moves,
            edits,
            rules,
        })
    }

    fn marks(
        &self,
        words: &[u16],
        tokens: &[u16],
        edits: &mut [u16],
        rules: &mut [u16],
        marks: &mut [u16],
    ) -> Result<Marked, Refusal> {
        let mut driver = self.driver.borrow_mut();
        driver.put_u32(6);
        let lists = [words, tokens, edits, rules, marks];
        for list in lists {
            driver.put_u32(list.len());
        }
        for list in lists {
            driver.put_u16s(list);
        }
        driver.ask();
        let (status, counts, mean) = driver.head();
        for list in [edits, rules, marks] {
            driver.get_u16s(list);
        }
        outcome(status, counts, mean, 4).map(|[moves, edits, rules, tokens]| Marked {
            parsed: Parsed {
                moves,
                edits,
                rules,
            },
            tokens,
        })
    }

    fn report(
        &self,
        words: &[u16],
        tokens: &[u16],
        ticks: &[u32],
        edits: &mut [u16],
        rules: &mut [u16],
    ) -> Result<Report, Refusal> {
        let mut driver = self.driver.borrow_mut();
        driver.put_u32(3);
        for size in [
            words.len(),
            tokens.len(),
            ticks.len(),
            edits.len(),
            rules.len(),
        ] {
            driver.put_u32(size);
        }
        driver.put_u16s(words);
        driver.put_u16s(tokens);
        let ticks: Vec<u8> = ticks.iter().flat_map(|tick| tick.to_le_bytes()).collect();
        driver.put(&ticks);
        driver.put_u16s(edits);
        driver.put_u16s(rules);
        driver.ask();
        let (status, counts, mean) = driver.head();
        driver.get_u16s(edits);
        driver.get_u16s(rules);
        let [cycles, ms, ..] = outcome(status, counts, mean, 2)?;
        let pace = if status == IDLE {
            assert!(mean.is_nan(), "an idle station has no mean");
            Pace::Idle
        } else {
            Pace::Mean(mean)
        };
        Ok(Report { cycles, ms, pace })
    }
}

impl Prints for Library {
    fn listing(&self, input: &[u8]) -> String {
        let mut listings = self.listings.borrow_mut();
        listings.put_u32(input.len());
        listings.put(input);
        listings.ask();
        listings.lines(|line| line.starts_with("pace ") || line.starts_with("refused "))
    }

    fn mark_lines(&self, input: &[u8]) -> String {
        let process = self.mark_lines.as_ref().expect("asked where it is there");
        let mut process = process.borrow_mut();
        process.put_u32(input.len());
        process.put(input);
        process.ask();
        process.lines(|line| line.starts_with("marks ") || line.starts_with("refused "))
    }

    fn has_mark_lines(&self) -> bool {
        self.mark_lines.is_some()
    }
}
