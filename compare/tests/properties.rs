//! What documents 01 and 02 say of every parse, tried on the plain implementation.

use compare::generate::log::{damaged, noise, Sampler};
use compare::generate::{Random, Source};
use compare::plain::{self, Grammar, Sets, START};

const DELETE: u16 = 1;

/// Parses with ample buffers: the edit records and the number of moves, or the refusal.
fn parse(words: &[u16], tokens: &[u16]) -> Result<(Vec<[u16; 3]>, u64), u16> {
    let (mut edits, mut rules) = (vec![0; 70_000], vec![0; 70_000]);
    let parsed = plain::parse(words, tokens, &mut edits, &mut rules)?;
    let records = edits.chunks(3).take(parsed.edits as usize);
    let records = records.map(|r| [r[0], r[1], r[2]]).collect();
    Ok((records, parsed.moves))
}

/// "The repaired log is the log without deleted tokens and with inserted symbols put before
/// place r."
fn repaired(tokens: &[u16], edits: &[[u16; 3]]) -> Vec<u16> {
    let mut log = Vec::new();
    for place in 0..=tokens.len() {
        let here = edits.iter().filter(|edit| usize::from(edit[1]) == place);
        let mut deleted = false;
        for &[kind, _, symbol] in here {
            if kind == DELETE {
                assert_eq!(symbol, tokens[place], "a delete names its token");
                assert!(!deleted, "a token is deleted once");
                deleted = true;
            } else {
                assert!(!deleted, "no insert at a deleted place");
                log.push(symbol);
            }
        }
        if place < tokens.len() && !deleted {
            log.push(tokens[place]);
        }
    }
    log
}

/// Whether START derives a log. No correction is asked, so that one that leaves no record is no excuse.
fn is_derivable(grammar: &Grammar, sets: &Sets, log: &[u16]) -> bool {
    // The top is the last.
    let mut stack = vec![START];
    for &token in log {
        loop {
            let Some(top) = stack.pop() else {
                return false;
            };
            if top == token {
                break;
            }
            let fits = |rule: &&plain::Rule| {
                rule.left == top && sets.first_of(&rule.right).contains(token)
            };
            match grammar.rules.iter().find(fits) {
                Some(rule) => stack.extend(rule.right.iter().rev()),
                None if sets.can_be_empty(&[top]) => {}
                None => return false,
            }
        }
    }
    sets.can_be_empty(&stack)
}

/// "It yields a correct log whenever each inserted nonterminal is replaced by any terminal
/// string it derives", and a correct log has no edits. Request (ii): with the shorter list too.
#[test]
fn repaired_logs_are_correct() {
    let source = Source::new(11);
    let mut random = Random::new(12);
    let (mut edited, mut replaced) = (0, 0);
    for round in 0..3_000 {
        let draft = &source.stock()[round % source.stock().len()];
        let sampler = Sampler::new(draft);
        let words = draft.words();
        let (grammar, sets) = plain::check(&words).expect("an accepted grammar");
        let correct = sampler.string(&mut random, 64, 40, 100);
        let tokens = match round % 3 {
            0 => damaged(&mut random, &correct, draft.t(), 100),
            1 => damaged(&mut random, &correct, draft.t(), 400),
            _ => noise(&mut random, draft.t(), 25),
        };
        let Ok((edits, moves)) = parse(&words, &tokens) else {
            continue;
        };
        edited += usize::from(!edits.is_empty());
        let listed = (tokens.len() + edits.len()) as u64;
        assert!(moves > listed / 2, "moves count all kinds");
        let mut log = Vec::new();
        for symbol in repaired(&tokens, &edits) {
            replaced += usize::from(symbol >= 64);
            log.extend(sampler.string(&mut random, symbol, 3, 20));
        }
        assert!(is_derivable(&grammar, &sets, &log), "{words:?} {tokens:?}");
        let was_derivable = is_derivable(&grammar, &sets, &tokens);
        assert_eq!(edits.is_empty(), was_derivable, "{words:?} {tokens:?}");
        match parse(&words, &log) {
            Ok((again, _)) => assert!(again.is_empty(), "{words:?} {tokens:?}"),
            // Too long or too deep by the strings put in.
            Err(number) => assert!(number == 10 || number == 11),
        }
    }
    assert!(
        edited > 1_000 && replaced > 1_000,
        "enough repairs to look at"
    );
}

/// A correct log passes without edits.
#[test]
fn sampled_logs_have_no_edits() {
    let source = Source::new(21);
    let mut random = Random::new(22);
    for round in 0..2_000 {
        let draft = &source.stock()[round % source.stock().len()];
        let log = Sampler::new(draft).string(&mut random, 64, 60, 150);
        match parse(&draft.words(), &log) {
            Ok((edits, _)) => assert!(edits.is_empty()),
            Err(number) => assert!(number == 10 || number == 11),
        }
    }
}
