//! The examples of request (viii) of document 02, "The hundredths unit goes": calls of the report, inputs of the
//! printing program and lists for the writer, beside examples that are parsed and not timed. All is worked out by hand.

use super::writing::{self, Writing};
use super::{parsed, refused, Example, INSERT};
use crate::answer::{Prints, Refusal};
use crate::generate::families::{bench_g, bench_g1, bench_h, in_hundredths};
use crate::generate::file::standard_input;
use crate::generate::Draft;

/// A call of the report that is refused.
pub struct Refused {
    pub name: &'static str,
    pub words: Vec<u16>,
    pub tokens: Vec<u16>,
    pub ticks: Vec<u32>,
    /// The lengths of the edit and the rule buffer.
    pub rooms: [usize; 2],
    pub refusal: Refusal,
}

/// "With 64 -> 1 64 2 and 64 -> empty", and unit 1.
fn nested() -> Draft {
    in_hundredths(Draft::new(3, 1, &[(0, &[1, 64, 2]), (0, &[])]))
}

/// G1 without its last word.
fn cut() -> Vec<u16> {
    let mut words = bench_g1().words();
    words.pop();
    words
}

/// What the parser takes or refuses as with unit 0, and the report and the printing program refuse with 16.
pub fn all() -> Vec<Example> {
    let g1 = bench_g1();
    let mut shapeless = refused("unit-1-cut", &g1, &[1], 5);
    shapeless.words = cut();
    vec![
        parsed("unit-1", &g1, &[1, 2, 3, 4], (10, &[0, 2, 3]), &[]).without_pace(),
        parsed("unit-1-empty-log", &g1, &[], (2, &[]), &[]).without_pace(),
        // Case 3: no cycle is clean.
        parsed(
            "unit-1-case-03",
            &g1,
            &[1, 2, 4],
            (10, &[0, 2, 3]),
            &[[INSERT, 2, 3]],
        )
        .without_pace(),
        // Without marks.
        parsed("unit-1-no-marks", &nested(), &[1, 2], (5, &[0]), &[]).without_pace(),
        // The parser refuses 254 of 1 with 11.
        refused("unit-1-nested-254", &nested(), &[1; 254], 11).without_pace(),
        parsed(
            "unit-1-seven-words",
            &in_hundredths(bench_h()),
            &[1, 4, 3],
            (9, &[0, 3, 5]),
            &[],
        )
        .without_pace(),
        refused("unit-1-token-7", &g1, &[7], 10),
        shapeless,
    ]
}

/// Calls of the report in buffers of other lengths, and with ticks of another number.
pub fn reports() -> Vec<Refused> {
    let g1 = bench_g1().words();
    let call = |name, tokens: &[u16], rooms, refusal| Refused {
        name,
        words: g1.clone(),
        tokens: tokens.to_vec(),
        ticks: vec![0; tokens.len()],
        rooms,
        refusal,
    };
    let mut calls = vec![
        call("1 2 3 4", &[1, 2, 3, 4], [40, 40], 16),
        call("an empty log", &[], [40, 40], 16),
        call("1 without room", &[1], [0, 0], 16),
        call("an empty log without room", &[], [0, 0], 16),
        call("7", &[7], [40, 40], 10),
        call("7 without room", &[7], [0, 0], 10),
    ];
    for (name, ticks, rooms) in [
        ("1 without a tick", 0, [40, 40]),
        ("1 without a tick and without room", 0, [0, 0]),
        ("1 with two ticks", 2, [40, 40]),
    ] {
        let mut call = call(name, &[1], rooms, 10);
        call.ticks = vec![0; ticks];
        calls.push(call);
    }
    let mut shapeless = call("without the last word", &[1], [40, 40], 5);
    shapeless.words = cut();
    calls.push(shapeless);
    for (name, rooms) in [("254 of 1", [900, 300]), ("254 of 1 without room", [0, 0])] {
        let mut deep = call(name, &[1; 254], rooms, 16);
        deep.words = nested().words();
        calls.push(deep);
    }
    // With unit 0 the first rule number does not fit.
    let mut with_0 = call("unit 0, 1 without room", &[1], [0, 0], 12);
    with_0.words = bench_g().words();
    calls.push(with_0);
    calls
}

/// Standard inputs and what the printing program prints for them.
pub fn printed() -> Vec<(Vec<u8>, &'static str)> {
    let g1 = bench_g1().words();
    let mut list = Vec::new();
    // "A last entry cut short counts under refusal 10": an entry, and up to five bytes more.
    for more in 0..6 {
        let mut input = standard_input(&g1, &[1], &[0]);
        input.extend(vec![0; more]);
        let text = if more == 0 {
            "refused 16\n"
        } else {
            "refused 10\n"
        };
        list.push((input, text));
    }
    list.push((standard_input(&g1, &[], &[]), "refused 16\n"));
    list.push((standard_input(&cut(), &[], &[]), "refused 5\n"));
    let deep = nested().words();
    list.push((standard_input(&deep, &[1; 254], &[0; 254]), "refused 16\n"));
    list
}

/// What the writer takes and refuses. 7 4 6 1 4 weighs 35 + 28 + 54 + 11 + 52 = 180, each word used 3, and word 5
/// counts 15 times its low byte and 16 times its high one.
pub fn writings() -> Vec<Writing> {
    let list = |sixth: &[u16]| [&[7, 4, 6, 1, 4], sixth].concat();
    let refused = |name, words, room, refusal| Writing {
        name,
        words,
        room,
        answer: Err(refusal),
    };
    let written = writing::written;
    vec![
        written("7 4 6 1 4", &list(&[]), 512, &[(5, 195)]),
        refused("7 4 6 1 4 1", list(&[1]), 512, 16),
        refused("7 4 6 1 4 1 in nothing", list(&[1]), 0, 16),
        refused("0 0 0 0 0 1", vec![0, 0, 0, 0, 0, 1], 512, 16),
        refused("2783 of 1", vec![1; 2_783], 5_632, 16),
        written("7 4 6 1 4 2", &list(&[2]), 512, &[(6, 228)]),
        written("7 4 6 1 4 257", &list(&[257]), 512, &[(6, 229)]),
        refused("7 4 6 1 4 0 in 511", list(&[0]), 511, 14),
        refused("2784 of 1", vec![1; 2_784], 6_144, 13),
        // A list of the seven words of a header; G and H with unit 1.
        refused("263 4 6 1 4 1 2", vec![263, 4, 6, 1, 4, 1, 2], 512, 16),
        written("1 alone", &[1], 512, &[(1, 8)]),
        refused("G1", bench_g1().words(), 512, 16),
        refused("H with unit 1", in_hundredths(bench_h()).words(), 512, 16),
    ]
}

/// Runs all but [`all`] on an implementation, and tells what differs from the request.
pub fn failures(implementation: &dyn Prints) -> Vec<String> {
    let mut failures = Vec::new();
    for call in reports() {
        let [mut edits, mut rules] = call.rooms.map(|room| vec![170; room]);
        let (words, tokens, ticks) = (&call.words, &call.tokens, &call.ticks);
        let answer = implementation.report(words, tokens, ticks, &mut edits, &mut rules);
        if answer != Err(call.refusal) || edits.iter().chain(&rules).any(|&word| word != 0) {
            failures.push(format!("report of {}: {answer:?}", call.name));
        }
    }
    for (number, (input, text)) in printed().iter().enumerate() {
        if implementation.listing(input) != *text {
            failures.push(format!("printed with unit 1: {number}"));
        }
    }
    failures.extend(writing::failures_of(writings(), implementation));
    failures
}

/// How many examples [`failures`] runs.
pub fn count() -> usize {
    reports().len() + printed().len() + writings().len()
}
