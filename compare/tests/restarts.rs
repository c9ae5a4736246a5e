//! Request (vi) of document 02 on many inputs: which cycles are left, by a count of its own, and that a header of
//! seven words without a restart mark, and every old header, answer as they did.

use compare::answer::{Implementation, Prints};
use compare::differ::outcome;
use compare::generate::{restarts, Draft, Header, Input, Random, Source};
use compare::plain::{self, Plain};
use compare::tuned::Tuned;

const DELETE: u16 = 1;

/// The first and the last place of each cycle without an edit, in the order of the log, and whether a kept restart
/// mark stands between.
fn cycles(draft: &Draft, log: &[u16], edits: &[u16]) -> Vec<(usize, usize, bool)> {
    let records: Vec<&[u16]> = edits
        .chunks(3)
        .take_while(|record| record[0] != 0)
        .collect();
    let kept = |place: &usize| {
        let deletes = |r: &&[u16]| r[0] == DELETE && usize::from(r[1]) == *place;
        !records.iter().any(deletes)
    };
    let places: Vec<usize> = (0..log.len()).filter(kept).collect();
    let mut cycles = Vec::new();
    let mut open = None;
    let mut restarted = false;
    for place in places {
        if log[place] == draft.closing {
            if let Some(a) = open.take() {
                let edited = |r: &&[u16]| (a + 1..=place).contains(&usize::from(r[1]));
                if !records.iter().any(edited) {
                    cycles.push((a, place, restarted));
                }
            }
        }
        if log[place] == draft.opening {
            (open, restarted) = (Some(place), false);
        }
        restarted |= Some(log[place]) == draft.restart;
    }
    cycles
}

/// "A kept restart mark strictly between a and b makes a cycle unclean", and nothing else changes.
#[test]
fn restarts_inside_make_cycles_unclean() {
    let source = Source::new(61);
    let mut random = Random::new(62);
    let tuned = Tuned::default();
    let (mut clean, mut unclean, mut beside) = (0, 0, 0);
    for index in 0..4_000 {
        let mut draft = restarts::draft(&mut random);
        // No pace comes from unit 1.
        draft.unit = 0;
        let words = draft.words();
        if draft.opening == 0 || plain::check(&words).is_err() {
            continue;
        }
        // Logs of other inputs, as tokens of this grammar.
        let Input::Report { tokens, .. } = source.unchained(index, Header::Seven) else {
            continue;
        };
        let token = |token: &u16| 1 + token % (draft.t() - 1);
        let log: Vec<u16> = tokens.iter().take(200).map(token).collect();
        let ticks = restarts::ticks(&mut random, &words, &log);
        let (mut edits, mut rules) = (vec![0; 9_000], vec![0; 9_000]);
        let report = Plain.report(&words, &log, &ticks, &mut edits, &mut rules);
        let Ok(report) = report else {
            continue;
        };
        let all = cycles(&draft, &log, &edits);
        let left: Vec<_> = all.iter().filter(|cycle| !cycle.2).collect();
        let time =
            |cycle: &&(usize, usize, bool)| u64::from(ticks[cycle.1].wrapping_sub(ticks[cycle.0]));
        assert_eq!(report.cycles, left.len() as u64, "{words:?} {log:?}");
        assert_eq!(report.ms, left.iter().map(time).sum::<u64>());
        let found = tuned.report(&words, &log, &ticks, &mut edits, &mut rules);
        assert_eq!(found, Ok(report));
        clean += left.len();
        unclean += all.len() - left.len();
        beside += usize::from(!left.is_empty() && left.len() < all.len());
    }
    assert!(
        clean > 300 && unclean > 100 && beside > 30,
        "{clean} clean, {unclean} unclean, {beside} logs with both"
    );
}

/// The words with the other header, where the restart mark is 0.
fn other_header(words: &[u16]) -> Option<Vec<u16>> {
    let (&first, rest) = words.split_first()?;
    let mut other = words.to_vec();
    match first {
        1..=64 if rest.len() >= 5 => {
            other[0] += 256;
            other.insert(6, 0);
        }
        257..=320 if words.get(6) == Some(&0) => {
            other[0] -= 256;
            other.remove(6);
        }
        _ => return None,
    }
    Some(other)
}

/// The input with the other header, where that says the same.
fn with_other_header(input: &Input) -> Option<Input> {
    let mut other = input.clone();
    match &mut other {
        Input::Check { words }
        | Input::Costs { words, .. }
        | Input::Parse { words, .. }
        | Input::Marks { words, .. }
        | Input::Report { words, .. } => *words = other_header(words)?,
        _ => return None,
    }
    Some(other)
}

/// "Old words mean what they meant", and "0 for none".
#[test]
fn without_a_restart_mark_both_headers_answer_alike() {
    let source = Source::new(63);
    let all: [Box<dyn Prints>; 2] = [Box::new(Plain), Box::<Tuned>::default()];
    let (mut looked, mut accepted) = (0, 0);
    for index in 0..1_500 {
        for input in [source.input(index), source.desk(index), source.marks(index)] {
            let Some(other) = with_other_header(&input) else {
                continue;
            };
            for implementation in &all {
                let (one, two) = (
                    outcome(implementation.as_ref(), &input),
                    outcome(implementation.as_ref(), &other),
                );
                assert_eq!(one, two, "{input:?}");
                accepted += usize::from(one.answer.is_ok());
            }
            looked += 1;
        }
    }
    assert!(looked > 2_500 && accepted > 2_000, "{looked}, {accepted}");
}

/// "A grammar check made for 01 refuses them with 5": word 0 alone tells which header stands there.
#[test]
fn word_0_alone_tells_the_header() {
    let source = Source::new(64);
    for index in 0..20_000 {
        let Input::Check { words } = source.input(index) else {
            continue;
        };
        let in_range = words
            .first()
            .is_some_and(|w| matches!(w, 1..=64 | 257..=320));
        if !in_range {
            assert_eq!(Plain.check(&words), Err(5));
        }
    }
}
