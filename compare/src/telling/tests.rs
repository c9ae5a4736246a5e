//! The inputs are what their comments say.

use super::*;
use crate::plain;

fn listed(input: &[u8]) -> String {
    let listing = plain::listing(input);
    listing.lines().next().expect("a line").to_string()
}

/// The numbers that the comments claim, worked out by hand.
#[test]
fn the_inputs_stand_where_they_should() {
    let lines: Vec<String> = inputs().iter().map(|input| listed(input)).collect();
    let edits = [
        "ok tokens 1371 moves 10930 edits 8191 rules 1366",
        "ok tokens 1370 moves 10930 edits 8192 rules 1366",
        "refused 12",
    ];
    assert_eq!(lines[..3], edits);
    assert!(lines[3].ends_with(" rules 16384"), "{}", lines[3]);
    assert_eq!(lines[4..6], ["refused 12", "refused 12"]);
    assert!(lines[6].ends_with(" rules 16321"), "{}", lines[6]);
    assert_eq!(lines[7], "ok tokens 800 moves 65602 edits 0 rules 8800");
    assert!(lines[8].starts_with("ok tokens 4095 "));
    assert!(lines[9].starts_with("ok tokens 4096 "));
    assert_eq!(lines[10..12], ["refused 10", "refused 10"]);
    for line in &lines[12..21] {
        assert!(line.ends_with(" edits 0 rules 64"), "{line}");
    }
    assert!(lines[21].starts_with("ok tokens 4096 "));
    assert_eq!(lines[22], "refused 10");
    assert_eq!(lines[23..26], ["refused 5"; 3]);
    for (first, tokens) in [(26, large_log(&large(2_694)).len()), (34, 0)] {
        assert_eq!(lines[first..first + 2], ["refused 1", "refused 5"]);
        assert!(lines[first + 2].starts_with(&format!("ok tokens {tokens} ")));
        assert_eq!(lines[first + 3..first + 8], ["refused 1"; 5]);
    }
}

#[test]
fn grammars_have_the_words_they_should() {
    for words in [965, 1_772, 2_694] {
        assert_eq!(large(words).words().len(), words);
    }
    assert_eq!(inputs().iter().map(Vec::len).max(), Some(30_216));
}

#[test]
fn the_calls_stand_where_they_should() {
    let edits: Vec<usize> = parses()[..6].iter().map(|call| parsed(call).1).collect();
    // A delete and three inserts, or two inserts.
    assert_eq!(edits, [4, 4, 4, 4, 2, 4]);
    let refusals: Vec<u16> = parses()[6..].iter().map(|call| parsed(call).0).collect();
    assert_eq!(refusals[..4], [12, 0, 0, 0]);
    assert_eq!(refusals[4..8], [12, 12, 0, 0]);
    assert_eq!(refusals[8..12], [12, 12, 11, 11]);
    assert_eq!(refusals[12..16], [12, 12, 11, 11]);
    assert_eq!(refusals[16..21], [0, 8, 8, 0, 8]);
    assert_eq!(refusals[21..28], [10; 7]);
    assert_eq!(refusals[28..30], [0, 10]);
}

/// The last calls of request (ii) ask for room: one word less than the records take, just as many, and three more.
/// The moves are counted by hand; a drop is one as an insert is.
#[test]
fn room_is_tested_over_the_shorter_list() {
    let all = empties::calls();
    let (_, calls) = all.split_at(all.len() - 12);
    for (calls, answer) in calls.chunks(3).zip([
        // Six for each 1 4 2, and START dropped and END matched behind them.
        (3 * 6 + 2, 3),
        // One more for the 3, and its expand.
        (2 * 6 + 1 + 2, 2),
        (7, 1),
        // An expand and a match for each 1, four pops for each of them and one of START, END matched.
        (63 * 2 + 63 * 4 + 1 + 1, 63),
    ]) {
        let answers: Vec<Option<(u64, u64)>> = calls.iter().map(counted).collect();
        assert_eq!(answers, [None, Some(answer), Some(answer)]);
    }
}

/// The moves and records of a call; nothing where it is refused with 12.
fn counted(call: &Call) -> Option<(u64, u64)> {
    let (mut edits, mut rules) = (vec![0; call.edit_room], vec![0; call.rule_room]);
    let answer = plain::parse(&call.words, &call.tokens, &mut edits, &mut rules);
    assert!(answer.is_ok() || answer == Err(12));
    answer.ok().map(|parsed| (parsed.moves, parsed.edits))
}

/// The refusal of a call, 0 for none, and its number of edits.
fn parsed(call: &Call) -> (u16, usize) {
    let (mut edits, mut rules) = (vec![0; call.edit_room], vec![0; call.rule_room]);
    match plain::parse(&call.words, &call.tokens, &mut edits, &mut rules) {
        Ok(parsed) => (0, parsed.edits as usize),
        Err(refusal) => (refusal, 0),
    }
}
