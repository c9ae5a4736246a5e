//! The examples of request (iv) of document 02: repaired logs in marks alone, and what `print_marks` prints. All
//! is worked out by hand.

mod printed;

pub use printed::{printed, printed_case_5};

use super::cheapest::eights;
use super::empty_parts::reliable;
use super::{DELETE, INSERT};
use crate::answer::{Marked, Parsed, Prints, Refusal};
use crate::generate::families::{bench_g, bench_g1, bench_h};
use crate::generate::Draft;

/// A log, the lengths of the three buffers, and what is expected.
pub struct Marks {
    pub name: &'static str,
    pub words: Vec<u16>,
    pub tokens: Vec<u16>,
    pub edit_room: usize,
    pub rule_room: usize,
    pub mark_room: usize,
    pub answer: Result<Given, Refusal>,
}

/// The moves, and what the three buffers hold.
#[derive(Clone)]
pub struct Given {
    pub moves: u64,
    pub edits: Vec<[u16; 3]>,
    pub rules: Vec<u16>,
    pub marks: Vec<u16>,
}

/// An example that is given, in edit and rule buffers of some length and a token buffer that just suffices.
fn given(
    name: &'static str,
    draft: &Draft,
    tokens: &[u16],
    (moves, rules): (u64, &[u16]),
    edits: &[[u16; 3]],
    marks: &[u16],
) -> Marks {
    Marks {
        name,
        words: draft.words(),
        tokens: tokens.to_vec(),
        edit_room: 900,
        rule_room: 300,
        mark_room: marks.len(),
        answer: Ok(Given {
            moves,
            edits: edits.to_vec(),
            rules: rules.to_vec(),
            marks: marks.to_vec(),
        }),
    }
}

/// An example that is refused.
fn refused(
    name: &'static str,
    draft: &Draft,
    tokens: &[u16],
    (edit_room, mark_room): (usize, usize),
    refusal: Refusal,
) -> Marks {
    Marks {
        name,
        words: draft.words(),
        tokens: tokens.to_vec(),
        edit_room,
        rule_room: 300,
        mark_room,
        answer: Err(refusal),
    }
}

/// 64 -> 1 65 2, and 65 is one of two tokens in this order, each of cost 1; the 1 and the 2 are reliable.
pub fn either(first: u16, second: u16) -> Draft {
    let rules: [(u16, &[u16]); 3] = [(0, &[1, 65, 2]), (1, &[first]), (1, &[second])];
    reliable(Draft::new(5, 2, &rules), &[1, 2], 9)
}

/// "With 64 -> 1 64 2 and 64 -> empty."
pub fn nested() -> Draft {
    Draft::new(3, 1, &[(0, &[1, 64, 2]), (0, &[])])
}

/// G with another reliability of the 4.
fn with_reliability_of_4(reliability: u16) -> Draft {
    reliable(bench_g(), &[4], reliability)
}

/// All of them.
pub fn all() -> Vec<Marks> {
    let g = bench_g();
    let full = [1, 2, 3, 4];
    let case_3 = [[INSERT, 2, 3]];
    let case_6 = [[DELETE, 2, 4], [INSERT, 3, 3], [INSERT, 3, 4]];
    let case_7 = [[DELETE, 3, 5], [INSERT, 4, 4]];
    let only_empty = Draft::new(2, 1, &[(0, &[])]);
    let mut examples = vec![
        // Nothing, and a token buffer of 0 words is enough.
        given("case 1", &g, &[], (2, &[]), &[], &[]),
        given("case 4", &g, &[4], (3, &[]), &[[DELETE, 0, 4]], &[]),
        given(
            "case 12",
            &only_empty,
            &[1],
            (3, &[]),
            &[[DELETE, 0, 1]],
            &[],
        ),
        given("case 2", &g, &full, (10, &[0, 2, 3]), &[], &full),
        given("case 3", &g, &[1, 2, 4], (10, &[0, 2, 3]), &case_3, &full),
        given(
            "case 6",
            &with_reliability_of_4(5),
            &[1, 2, 4],
            (11, &[0, 2, 3]),
            &case_6,
            &full,
        ),
        given(
            "case 7",
            &g,
            &[1, 2, 3, 5],
            (11, &[0, 2, 3]),
            &case_7,
            &full,
        ),
        case_5(),
        refused(
            "case 9",
            &Draft::new(2, 1, &[(0, &[64, 1]), (0, &[])]),
            &[],
            (0, 0),
            9,
        ),
        refused("case 10", &Draft::new(2, 1, &[(0, &[64])]), &[], (0, 0), 7),
        refused(
            "case 11",
            &Draft::new(2, 2, &[(0, &[]), (1, &[1])]),
            &[],
            (0, 0),
            6,
        ),
        given(
            "eights",
            &eights(937),
            &[],
            (2, &[]),
            &[[INSERT, 0, 64]],
            &[1; 64],
        ),
        refused("eights, 63 words", &eights(937), &[], (900, 63), 15),
        refused("eights over 60,000", &eights(938), &[], (900, 64), 8),
        // Expand, match 1; 65 is inserted; match 2, END.
        given(
            "either",
            &either(3, 4),
            &[1, 2],
            (5, &[0]),
            &[[INSERT, 1, 65]],
            &[1, 3, 2],
        ),
        given(
            "turned",
            &either(4, 3),
            &[1, 2],
            (5, &[0]),
            &[[INSERT, 1, 65]],
            &[1, 4, 2],
        ),
    ];
    // 253 expands and matches, START dropped, 253 inserts, END matched.
    let brackets = [[1; 253], [2; 253]].concat();
    let inserts = [[INSERT, 253, 2]; 253];
    examples.extend([
        given(
            "nested",
            &nested(),
            &[1; 253],
            (761, &[0; 253]),
            &inserts,
            &brackets,
        ),
        refused("nested, 505 words", &nested(), &[1; 253], (900, 505), 15),
        refused("nested, 254 of 1", &nested(), &[1; 254], (900, 0), 11),
        refused("case 3, 2 edit words", &g, &[1, 2, 4], (2, 0), 12),
        refused("case 3, 3 words", &g, &[1, 2, 4], (900, 3), 15),
        refused("a token 7", &g, &[1, 7], (0, 0), 10),
        restarted(),
        refused("H, a token 5", &bench_h(), &[1, 5], (0, 0), 10),
        // G1 of request (viii): nothing is timed here.
        given(
            "G1",
            &bench_g1(),
            &[1, 2, 4],
            (10, &[0, 2, 3]),
            &case_3,
            &full,
        ),
    ]);
    examples
}

/// Case 5: 66 and 4 are missing before place 1.
fn case_5() -> Marks {
    given(
        "case 5",
        &bench_g(),
        &[1, 1, 2, 3, 4],
        (15, &[0, 2, 0, 2, 3]),
        &[[INSERT, 1, 66], [INSERT, 1, 4]],
        &[1, 2, 3, 4, 1, 2, 3, 4],
    )
}

/// H of request (vi): 66 is dropped and a 3 is missing before place 1. A restart is a mark like any other.
fn restarted() -> Marks {
    given(
        "H",
        &bench_h(),
        &[1, 1, 4, 3],
        (14, &[0, 3, 0, 3, 5]),
        &[[INSERT, 1, 3]],
        &[1, 3, 1, 4, 3],
    )
}

impl Marks {
    /// The answer, and every word of the three buffers afterwards.
    pub fn expected(&self) -> (Result<Marked, Refusal>, [Vec<u16>; 3]) {
        let rooms = [self.edit_room, self.rule_room, self.mark_room];
        let (answer, mut buffers) = match &self.answer {
            Ok(given) => {
                let parsed = Parsed {
                    moves: given.moves,
                    edits: given.edits.len() as u64,
                    rules: given.rules.len() as u64,
                };
                let tokens = given.marks.len() as u64;
                let buffers = [
                    given.edits.concat(),
                    given.rules.clone(),
                    given.marks.clone(),
                ];
                (Ok(Marked { parsed, tokens }), buffers)
            }
            Err(refusal) => (Err(*refusal), Default::default()),
        };
        for (buffer, room) in buffers.iter_mut().zip(rooms) {
            buffer.resize(room, 0);
        }
        (answer, buffers)
    }
}

/// Runs all examples on an implementation, and tells what differs from the request.
pub fn failures(implementation: &dyn Prints) -> Vec<String> {
    let mut failures = Vec::new();
    for example in all() {
        let rooms = [example.edit_room, example.rule_room, example.mark_room];
        let [mut edits, mut rules, mut marks] = rooms.map(|room| vec![170; room]);
        let (words, tokens) = (&example.words, &example.tokens);
        let answer = implementation.marks(words, tokens, &mut edits, &mut rules, &mut marks);
        let (expected, buffers) = example.expected();
        for (what, good) in [
            ("the answer", answer == expected),
            ("the edits", edits == buffers[0]),
            ("the rules", rules == buffers[1]),
            ("the marks", marks == buffers[2]),
        ] {
            if !good {
                failures.push(format!("{}: {what}", example.name));
            }
        }
    }
    if implementation.has_mark_lines() {
        for (number, (input, expected)) in printed().iter().enumerate() {
            if implementation.mark_lines(input) != *expected {
                failures.push(format!("printed marks {number}"));
            }
        }
    }
    failures
}
