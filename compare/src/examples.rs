//! The bench examples of document 01 and its further claims, with the records that request (ii) of
//! document 02 leaves them, in [`empty_parts`] more examples of that request, in [`writing`] those of
//! request (i), in [`cheapest`] those of request (iii), in [`marks`] those of request (iv), in [`restarts`]
//! those of request (vi), and in [`units`] those of request (viii). The expected results are written by hand from the
//! documents, never taken from a program.

pub mod cheapest;
pub mod empty_parts;
pub mod marks;
pub mod restarts;
pub mod units;
pub mod writing;

use crate::answer::{Pace, Prints};
use crate::generate::families::bench_g;
use crate::generate::file::{file_of, standard_input};
use crate::generate::Draft;
use cheapest::eights;

/// One example with everything that is expected of it.
pub struct Example {
    pub name: &'static str,
    pub words: Vec<u16>,
    pub tokens: Vec<u16>,
    pub ticks: Vec<u32>,
    /// The listing, to the letter.
    pub listing: String,
    /// The parser's refusal, or the edit records and the rule numbers.
    pub lists: Result<Lists, u16>,
    /// The report's refusal, or the mean in ms, nothing when idle.
    pub pace: Result<Option<f64>, u16>,
}

/// What the two buffers hold.
pub struct Lists {
    pub edits: Vec<[u16; 3]>,
    pub rules: Vec<u16>,
}

const DELETE: u16 = 1;
const INSERT: u16 = 2;

/// An example that is parsed. Ticks not given are 0.
fn parsed(
    name: &'static str,
    draft: &Draft,
    tokens: &[u16],
    (moves, rules): (u64, &[u16]),
    edits: &[[u16; 3]],
) -> Example {
    let mut listing = format!(
        "ok tokens {} moves {moves} edits {} rules {}\n",
        tokens.len(),
        edits.len(),
        rules.len()
    );
    for [kind, place, symbol] in edits {
        let kind = if *kind == DELETE { "delete" } else { "insert" };
        listing.push_str(&format!("{kind} {place} {symbol}\n"));
    }
    listing.push_str("pace idle\n");
    Example {
        name,
        words: draft.words(),
        tokens: tokens.to_vec(),
        ticks: vec![0; tokens.len()],
        listing,
        lists: Ok(Lists {
            edits: edits.to_vec(),
            rules: rules.to_vec(),
        }),
        pace: Ok(None),
    }
}

/// An example that is refused.
fn refused(name: &'static str, draft: &Draft, tokens: &[u16], number: u16) -> Example {
    Example {
        name,
        words: draft.words(),
        tokens: tokens.to_vec(),
        ticks: vec![0; tokens.len()],
        listing: format!("refused {number}\n"),
        lists: Err(number),
        pace: Err(number),
    }
}

impl Example {
    /// The example with one clean cycle of `ms` in place of idle.
    fn with_cycle(self, ticks: &[u32], ms: u64) -> Example {
        self.with_cycles(ticks, 1, ms)
    }

    /// The example with so many clean cycles, of `ms` together, in place of idle.
    fn with_cycles(self, ticks: &[u32], cycles: u64, ms: u64) -> Example {
        let mut example = self.timed(ticks);
        let pace = format!("pace cycles {cycles} ms {ms}\n");
        example.listing = example.listing.replace("pace idle\n", &pace);
        example.pace = Ok(Some(ms as f64 / cycles as f64));
        example
    }

    /// The example whose report and listing are refused with 16.
    fn without_pace(mut self) -> Example {
        self.pace = Err(16);
        self.listing = "refused 16\n".to_string();
        self
    }

    /// The example with these ticks.
    fn timed(mut self, ticks: &[u32]) -> Example {
        self.ticks = ticks.to_vec();
        self
    }
}

/// All examples: cases 1 to 12 in order, then the further claims, then those of request (ii), then those of requests
/// (vi) and (viii). By (ii) "cases 3, 4, 6, 7 and 12 lose their records for 67 and 64", and "move counts" stay.
pub fn all() -> Vec<Example> {
    let g = bench_g();
    let with_reliability_of_4 = |reliability| {
        let mut draft = bench_g();
        draft.terminals[4].1 = reliability;
        draft
    };
    let nested = Draft::new(3, 1, &[(0, &[1, 64, 2]), (0, &[])]);
    let case_3_edits = [[INSERT, 2, 3]];
    let case_5 = |name| {
        let edits = [[INSERT, 1, 66], [INSERT, 1, 4]];
        parsed(name, &g, &[1, 1, 2, 3, 4], (15, &[0, 2, 0, 2, 3]), &edits)
    };
    let case_6_edits = [[DELETE, 2, 4], [INSERT, 3, 3], [INSERT, 3, 4]];
    let case_7_edits = [[DELETE, 3, 5], [INSERT, 4, 4]];
    // 253 tokens of 1: START and 253 closers wait when END comes. START is dropped.
    let all_inserted = [[INSERT, 253, 2]; 253];
    let mut examples = vec![
        parsed("case-01", &g, &[], (2, &[]), &[]),
        parsed("case-02", &g, &[1, 2, 3, 4], (10, &[0, 2, 3]), &[]).with_cycle(&[0; 4], 0),
        parsed("case-03", &g, &[1, 2, 4], (10, &[0, 2, 3]), &case_3_edits),
        parsed("case-04", &g, &[4], (3, &[]), &[[DELETE, 0, 4]]),
        case_5("case-05").with_cycle(&[0; 5], 0),
        parsed(
            "case-06",
            &with_reliability_of_4(5),
            &[1, 2, 4],
            (11, &[0, 2, 3]),
            &case_6_edits,
        ),
        parsed(
            "case-07",
            &g,
            &[1, 2, 3, 5],
            (11, &[0, 2, 3]),
            &case_7_edits,
        ),
        parsed("case-08", &g, &[1, 2, 3, 4], (10, &[0, 2, 3]), &[])
            .with_cycle(&[4_294_967_196, 0, 0, 904], 1_004),
        refused(
            "case-09",
            &Draft::new(2, 1, &[(0, &[64, 1]), (0, &[])]),
            &[],
            9,
        ),
        refused("case-10", &Draft::new(2, 1, &[(0, &[64])]), &[], 7),
        refused("case-11", &Draft::new(2, 2, &[(0, &[]), (1, &[1])]), &[], 6),
        parsed(
            "case-12",
            &Draft::new(2, 1, &[(0, &[])]),
            &[1],
            (3, &[]),
            &[[DELETE, 0, 1]],
        ),
        // "For case 5 below with ticks 100, 250, 400, 900, 1250 it prints exactly"
        case_5("case-05-printed").with_cycle(&[100, 250, 400, 900, 1_250], 1_000),
        // "In case 6 a reliability of 6 gives case 3's edits."
        parsed(
            "case-06-reliability-6",
            &with_reliability_of_4(6),
            &[1, 2, 4],
            (10, &[0, 2, 3]),
            &case_3_edits,
        ),
        // "253 tokens of 1 are accepted and 254 refused with 11": 253 expands and matches,
        // a drop and 253 inserts, END matched.
        parsed(
            "nested-253",
            &nested,
            &[1; 253],
            (506 + 254 + 1, &[0; 253]),
            &all_inserted,
        ),
        refused("nested-254", &nested, &[1; 254], 11),
        // "START costs 59,968 and passes; cost 938 gives 60,032 and refusal 8": START, which
        // cannot be empty, is inserted before END, END is matched.
        parsed("cost-937", &eights(937), &[], (2, &[]), &[[INSERT, 0, 64]]),
        refused("cost-938", &eights(938), &[], 8),
    ];
    examples.extend(empty_parts::all());
    examples.extend(restarts::all());
    examples.extend(units::all());
    examples
}

/// The listing that document 01 prints in full, for the example "case-05-printed".
pub const CASE_5_PRINTED: &str = "\
ok tokens 5 moves 15 edits 2 rules 5
insert 1 66
insert 1 4
pace cycles 1 ms 1000
";

/// Runs all examples on an implementation and tells what differs from the document.
pub fn failures(implementation: &dyn Prints) -> Vec<String> {
    let mut failures = Vec::new();
    for example in all() {
        let mut expect = |what: &str, good: bool| {
            if !good {
                failures.push(format!("{}: {what}", example.name));
            }
        };
        let input = standard_input(&example.words, &example.tokens, &example.ticks);
        let listing = implementation.listing(&input);
        expect("listing", listing == example.listing);

        let file = file_of(&example.words);
        let mut words = vec![9; 300];
        let read = implementation.read(&file, &mut words);
        let mut expected = example.words.clone();
        expected.resize(300, 0);
        expect("read", read == Ok(example.words.len()) && words == expected);

        let (mut edits, mut rules) = (vec![9; 1_000], vec![9; 1_000]);
        let parsed = implementation.parse(&example.words, &example.tokens, &mut edits, &mut rules);
        expect(
            "parse",
            parsed.err() == example.lists.as_ref().err().copied(),
        );
        let lists = example.lists.as_ref().ok();
        let expected = expected_buffers(lists, 1_000);
        expect("edits", edits == expected.0);
        expect("rules", rules == expected.1);

        let (mut edits, mut rules) = (vec![7; 1_000], vec![7; 1_000]);
        let report = implementation.report(
            &example.words,
            &example.tokens,
            &example.ticks,
            &mut edits,
            &mut rules,
        );
        let expected = expected_buffers(lists.filter(|_| example.pace.is_ok()), 1_000);
        expect("edits of the report", edits == expected.0);
        expect("rules of the report", rules == expected.1);
        let pace = report.map(|report| match report.pace {
            Pace::Mean(mean) => Some(mean),
            Pace::Idle => None,
        });
        expect("pace", pace == example.pace);
    }
    failures
}

/// Every word of the two buffers after an example, without lists after a refusal.
fn expected_buffers(lists: Option<&Lists>, length: usize) -> (Vec<u16>, Vec<u16>) {
    let (mut edits, mut rules) = match lists {
        Some(lists) => (lists.edits.concat(), lists.rules.clone()),
        None => (Vec::new(), Vec::new()),
    };
    edits.resize(length, 0);
    rules.resize(length, 0);
    (edits, rules)
}

#[cfg(test)]
mod tests {
    use super::*;
    use crate::{plain::Plain, tuned::Tuned};

    #[test]
    fn both_implementations_meet_every_example() {
        assert_eq!(failures(&Plain), Vec::<String>::new());
        assert_eq!(failures(&Tuned::default()), Vec::<String>::new());
        assert_eq!(writing::failures(&Plain), Vec::<String>::new());
        assert_eq!(writing::failures(&Tuned::default()), Vec::<String>::new());
        assert_eq!(cheapest::failures(&Plain), Vec::<String>::new());
        assert_eq!(cheapest::failures(&Tuned::default()), Vec::<String>::new());
        assert_eq!(marks::failures(&Plain), Vec::<String>::new());
        assert_eq!(marks::failures(&Tuned::default()), Vec::<String>::new());
        assert_eq!(units::failures(&Plain), Vec::<String>::new());
        assert_eq!(units::failures(&Tuned::default()), Vec::<String>::new());
    }

    #[test]
    fn the_listing_of_case_5_is_the_documents_own() {
        let examples = all();
        let example = examples.iter().find(|e| e.name == "case-05-printed");
        assert_eq!(example.expect("it is there").listing, CASE_5_PRINTED);
    }
}
