//! Calls, inputs and lists shaped for request (viii), "The hundredths unit goes": each tells apart wrong readings of
//! when the report and the printing program give 16, behind and before which other refusals, of who still takes unit 1,
//! and in `lists` of what the writer refuses.

mod lists;

pub use lists::writes;

use super::grammars::{costly_part, long_chain, marks as any_order, nested, ones, six_behind};
use super::restarts::with_six;
use super::{desks::Call as DeskCall, marks::Call as MarkCall, Call};
use crate::examples::marks::either;
use crate::generate::families::{bench_g, bench_g1, bench_h, in_hundredths};
use crate::generate::file::standard_input;
use crate::generate::Draft;

/// H with another restart mark.
fn bench_h_with(restart: u16) -> Draft {
    Draft {
        restart: Some(restart),
        ..bench_h()
    }
}

/// 1, 2 and 3 in any order: the 2 opens, the 3 closes, and the 1 is the restart mark.
fn restart_1() -> Draft {
    let mut draft = Draft::new(4, 1, &[(0, &[2, 64]), (0, &[1, 64]), (0, &[3, 64])]);
    draft.rules.push((0, Vec::new()));
    (draft.opening, draft.closing, draft.restart) = (2, 3, Some(1));
    draft
}

/// Ticks that rise, and tell every pair apart.
fn rising(count: usize) -> Vec<u32> {
    (1..=count as u32)
        .map(|place| place * place * 100)
        .collect()
}

fn call(words: &[u16], log: &[u16]) -> Call {
    Call {
        words: words.to_vec(),
        ..Call::new(&bench_g1(), log)
    }
}

// ---- Calls of the parser and of the report

/// The calls that `test_parse` stores. `test_pace` and `test_sweep` store them too.
pub fn calls() -> Vec<Call> {
    let mut calls = accepted();
    calls.extend(in_turn());
    calls.extend(refused_before());
    calls.extend(no_logs());
    calls.extend(deep());
    calls.extend(short());
    calls.extend(other_words());
    calls
}

/// The calls that `test_pace` stores beside them.
pub fn reports() -> Vec<Call> {
    let mut calls = timed();
    calls.extend(no_ticks());
    calls.extend(too_long());
    calls
}

/// The parser refuses unit 1; the report gives 16 only where there are marks of cycles, tokens,
/// edits or none, or with one of the headers; it gives an idle station; what the parse would list is left.
fn accepted() -> Vec<Call> {
    let logs: [(Draft, &[&[u16]]); 7] = [
        (
            bench_g(),
            &[
                &[],
                &[1],
                &[4],
                &[2, 3],
                &[1, 2, 3, 4],
                &[1, 2, 4],
                &[1, 1, 2, 3, 4],
                &[5, 1, 2, 3, 4, 6],
            ],
        ),
        (bench_h(), &[&[], &[1, 2, 3], &[1, 4, 3], &[1, 1, 4, 3]]),
        (with_six(bench_h()), &[&[1, 2, 3], &[1, 4, 3], &[3]]),
        (bench_h_with(0), &[&[], &[1, 4, 3]]),
        (ones(), &[&[], &[1], &[1, 1, 1]]),
        (Draft::new(1, 1, &[(0, &[])]), &[&[]]),
        (restart_1(), &[&[], &[2, 3], &[2, 1, 3]]),
    ];
    let mut calls = Vec::new();
    for (draft, logs) in logs {
        for log in logs {
            calls.push(Call::new(&in_hundredths(draft.clone()), log));
        }
    }
    calls
}

/// The unit of the grammar before: the same log with either unit, and with either header.
fn in_turn() -> Vec<Call> {
    let drafts = [bench_g(), bench_g1(), bench_g(), bench_g1(), bench_g1()];
    let turned = [bench_h(), in_hundredths(bench_h()), with_six(bench_h())];
    let cycle = |draft: &Draft| Call::new(draft, &[1, 2, 3, 4]);
    let restarted = |draft: &Draft| Call::new(draft, &[1, 2, 3]);
    let drafts = drafts.iter().map(cycle);
    drafts.chain(turned.iter().map(restarted)).collect()
}

/// Refused by each of 5 to 9: words that break the shape in a place behind the unit or before it, an unreachable
/// nonterminal, an endless one, one over 60,000, and rules that share a token. A unit that is not 1 is still 5.
fn refused_words() -> Vec<Vec<u16>> {
    let g1 = bench_g1().words();
    let mut list = vec![
        g1[..6].to_vec(),
        g1[..7].to_vec(),
        g1[..g1.len() - 1].to_vec(),
        [&g1[..], &[0]].concat(),
    ];
    for (place, word) in [(0, 65), (1, 0), (2, 0), (3, 7), (4, 0), (6, 1), (8, 0)] {
        let mut words = g1.clone();
        words[place] = word;
        list.push(words);
    }
    for unit in [2, 3, 255, 256, 257, 65_535] {
        let mut words = g1.clone();
        words[5] = unit;
        list.push(words);
    }
    // The seventh word is the opening mark, or T.
    for restart in [1, 5] {
        list.push(in_hundredths(bench_h_with(restart)).words());
    }
    let drafts = [
        Draft::new(5, 2, &[(0, &[]), (1, &[1])]),
        Draft::new(5, 1, &[(0, &[64])]),
        costly_part(1, 8, 938),
        Draft::new(5, 1, &[(0, &[64, 1]), (0, &[])]),
    ];
    for draft in drafts {
        list.push(in_hundredths(draft.clone()).words());
        let seven = Draft {
            restart: Some(0),
            ..draft
        };
        list.push(in_hundredths(seven).words());
    }
    list
}

/// 16 before each of 5 to 9: a good log, and one with a token out of range and without room.
fn refused_before() -> Vec<Call> {
    let mut calls = Vec::new();
    for words in refused_words() {
        calls.push(call(&words, &[1]));
        calls.push(call(&words, &[1, 99]).lent(0, 0));
    }
    calls
}

/// 16 before 10: a token out of range, first, last and alone, in buffers with room and without.
fn no_logs() -> Vec<Call> {
    let mut calls = Vec::new();
    for log in [
        &[0][..],
        &[7],
        &[64],
        &[65_535],
        &[1, 2, 3, 4, 7],
        &[0, 1, 2, 3, 4],
        &[1, 2, 0, 3, 4],
    ] {
        calls.push(Call::new(&bench_g1(), log));
        calls.push(Call::new(&bench_g1(), log).lent(0, 0));
        calls.push(Call::new(&in_hundredths(bench_h()), log));
    }
    calls.push(Call::new(
        &in_hundredths(Draft::new(1, 1, &[(0, &[])])),
        &[1],
    ));
    calls
}

/// 16 behind 11, which the parser gives: the expand for token 254 would leave 257 symbols.
fn deep() -> Vec<Call> {
    let mut calls = Vec::new();
    for tokens in [253, 254, 300] {
        for (edits, rules) in [(3 * 253, 254), (3 * 253, 253), (3 * 253, 252), (0, 0)] {
            let draft = in_hundredths(nested());
            calls.push(Call::new(&draft, &vec![1; tokens]).lent(edits, rules));
        }
    }
    calls
}

/// 16 behind 12, which the parser gives: a record or a rule number that does not fit, at once or at the end.
fn short() -> Vec<Call> {
    let mut calls = Vec::new();
    for (edits, rules) in [(0, 0), (0, 5), (6, 0), (5, 5), (6, 4), (6, 5), (7, 6)] {
        let call = Call::new(&bench_g1(), &[1, 1, 2, 3, 4]);
        calls.push(call.lent(edits, rules));
    }
    for edits in [0, 2, 3] {
        calls.push(Call::new(&bench_g1(), &[4]).lent(edits, 0));
    }
    for rules in [0, 2, 3] {
        calls.push(Call::new(&in_hundredths(bench_h()), &[1, 2, 3]).lent(0, rules));
    }
    calls.push(Call::new(&bench_g1(), &[]).lent(0, 0));
    calls
}

/// Another word taken for the unit: unit 0, and a 1 as T, N or P, as either mark, or as the restart mark, which is word
/// 6; and unit 0 and no other 1.
fn other_words() -> Vec<Call> {
    let mut calls = vec![
        Call::new(&Draft::new(1, 1, &[(0, &[])]), &[]),
        Call::new(&Draft::new(2, 1, &[(0, &[])]), &[1]),
    ];
    for (opening, closing) in [(1, 2), (2, 1), (1, 1), (2, 2)] {
        calls.push(Call::new(&any_order(opening, closing, 0), &[1, 2, 1, 2]));
    }
    for log in [&[2, 3][..], &[2, 1, 3], &[]] {
        calls.push(Call::new(&restart_1(), log));
        calls.push(Call::new(&with_six(restart_1()), log));
    }
    calls
}

/// 16 only where a cycle is there, is clean, or has a time other than 0; only in room for what the parse lists. Logs
/// with none, one and several cycles, with other ticks, with marks in every order, and without marks.
fn timed() -> Vec<Call> {
    let mut calls = Vec::new();
    let logs: [&[u16]; 9] = [
        &[],
        &[1],
        &[2],
        &[3],
        &[1, 2],
        &[2, 1],
        &[1, 3, 2],
        &[1, 2, 1, 2],
        &[1, 2, 3, 1, 1, 2, 2],
    ];
    for (opening, closing) in [(1, 2), (1, 1), (0, 0)] {
        for log in logs {
            for ticks in [rising(log.len()), vec![0; log.len()]] {
                for unit in [0, 1] {
                    let call = Call::new(&any_order(opening, closing, unit), log);
                    calls.push(call.timed(&ticks).lent(40, 9));
                }
            }
        }
    }
    // Times that pass 32 bits when they are multiplied, and a sum that does.
    for ticks in [[0, 429_496_730], [5, 4], [0, u32::MAX]] {
        for unit in [0, 1] {
            calls.push(Call::new(&any_order(1, 2, unit), &[1, 2]).timed(&ticks));
        }
    }
    // Restarts inside, beside and nowhere.
    for log in [&[1, 2, 3][..], &[1, 4, 3], &[4, 1, 3, 4], &[1, 4, 3, 1, 3]] {
        for draft in [bench_h(), bench_h_with(0), bench_h_with(2)] {
            let call = Call::new(&in_hundredths(draft), log);
            calls.push(call.timed(&rising(log.len())).lent(9, 9));
        }
    }
    calls
}

/// 16 before 10, which the report gives for ticks of another number: fewer, more and none, whatever the room; with a
/// token out of range; and behind 5 to 9.
fn no_ticks() -> Vec<Call> {
    let ticks = rising(9);
    let mut calls = Vec::new();
    for count in 0..=6 {
        for rooms in [(40, 40), (0, 0)] {
            let call = Call::new(&bench_g1(), &[1, 2, 3, 4]).timed(&ticks[..count]);
            calls.push(call.lent(rooms.0, rooms.1));
        }
    }
    for (log, count) in [
        (&[][..], 1),
        (&[], 2),
        (&[1], 0),
        (&[1], 2),
        (&[7], 0),
        (&[0], 2),
    ] {
        calls.push(Call::new(&bench_g1(), log).timed(&ticks[..count]));
        calls.push(Call::new(&in_hundredths(bench_h()), log).timed(&ticks[..count]));
        calls.push(Call::new(&in_hundredths(ones()), log).timed(&ticks[..count]));
    }
    calls.push(Call::new(&in_hundredths(nested()), &[1; 254]).timed(&ticks));
    for words in refused_words() {
        calls.push(call(&words, &[1]).timed(&ticks[..3]));
    }
    calls
}

/// 16 before 10, for more than 4,096 tokens.
fn too_long() -> Vec<Call> {
    let call = |tokens| Call::new(&in_hundredths(ones()), &vec![1; tokens]).lent(0, 0);
    [4_095, 4_096, 4_097].map(call).to_vec()
}

// ---- The other programs

/// The inputs that `test_sweep` stores: more is printed than `refused 16`; 16 before 10 for a last entry cut short;
/// a parse run first, which meets 11 or 12.
pub fn inputs() -> Vec<Vec<u8>> {
    let mut inputs = Vec::new();
    for call in timed().iter().filter(|call| call.words[5] == 1) {
        let ticks = rising(call.tokens.len());
        let input = standard_input(&call.words, &call.tokens, &ticks);
        if !inputs.contains(&input) {
            inputs.push(input);
        }
    }
    inputs.extend(cuts());
    inputs.push(longest());
    // 8,193 records, and one more rule number than there is room for; as many as there is room for.
    for twos in [3, 4] {
        let log = [vec![1], vec![2; twos], vec![1; 1_365]].concat();
        inputs.push(input(&in_hundredths(six_behind()), &log));
    }
    for log in [vec![1; 256], [vec![1; 256], vec![2]].concat()] {
        inputs.push(input(&in_hundredths(long_chain()), &log));
    }
    inputs
}

fn input(draft: &Draft, log: &[u16]) -> Vec<u8> {
    standard_input(&draft.words(), log, &rising(log.len()))
}

/// 4,095 cycles of 4,294,967,295 ms, the most that a report has: 4,096 equal marks, and a counter that falls by one at
/// each. A count or a sum of fewer bits.
fn longest() -> Vec<u8> {
    let log = vec![1; 4_096];
    let ticks: Vec<u32> = (0..4_096).rev().collect();
    standard_input(&any_order(1, 1, 0).words(), &log, &ticks)
}

/// The last entry cut short, of a log that is good, that has a token out of range, that meets 11, and of words that are
/// refused.
fn cuts() -> Vec<Vec<u8>> {
    let mut inputs = Vec::new();
    for draft in [bench_g1(), in_hundredths(bench_h())] {
        for log in [&[1, 2, 3, 4][..], &[7]] {
            let whole = input(&draft, log);
            for less in 1..6 {
                inputs.push(whole[..whole.len() - less].to_vec());
            }
        }
    }
    let mut deep = input(&in_hundredths(nested()), &[1; 255]);
    deep.pop();
    inputs.push(deep);
    for words in refused_words().iter().step_by(2) {
        let mut cut = standard_input(words, &[1], &[5]);
        cut.pop();
        inputs.push(cut);
    }
    inputs
}

/// The calls that `test_desk` stores: unit 1 refused, before 5 to 9 or before 23.
pub fn desks() -> Vec<DeskCall> {
    let mut calls = Vec::new();
    for draft in [
        bench_g1(),
        in_hundredths(bench_h()),
        in_hundredths(nested()),
    ] {
        let n = usize::from(draft.nonterminals);
        for (costs, rules) in [(n, n), (64, 64), (n - 1, n), (n, 0), (0, 0)] {
            calls.push((draft.words(), costs, rules));
        }
    }
    for words in refused_words() {
        calls.push((words, 4, 4));
    }
    calls
}

/// The calls that `test_marks` stores: unit 1 refused, before each of 5 to 12 or before 15. `test_mark_lines` stores
/// their words and logs.
pub fn marks() -> Vec<MarkCall> {
    let mut calls = Vec::new();
    let mut put = |draft: Draft, log: &[u16], rooms: [usize; 3]| {
        calls.push((in_hundredths(draft).words(), log.to_vec(), rooms));
    };
    for marks in [0, 2, 3, 9] {
        put(either(3, 4), &[1, 2], [9, 9, marks]);
        put(bench_h(), &[1, 1, 4], [90, 40, marks]);
    }
    put(either(3, 4), &[1, 2], [2, 9, 9]);
    put(either(3, 4), &[1, 2], [9, 0, 9]);
    put(either(3, 4), &[1, 5], [9, 9, 9]);
    put(nested(), &[1; 254], [0, 300, 9]);
    put(nested(), &[1, 1, 2], [90, 9, 9]);
    put(ones(), &[], [0, 0, 0]);
    for words in refused_words().into_iter().step_by(2) {
        calls.push((words, vec![1], [9, 9, 9]));
    }
    calls
}

/// The inputs of `print_marks` beside those: the last entry cut short.
pub fn mark_inputs() -> Vec<Vec<u8>> {
    let whole = input(&bench_g1(), &[1, 2, 4]);
    let mut inputs: Vec<Vec<u8>> = (1..6)
        .map(|less| whole[..whole.len() - less].to_vec())
        .collect();
    inputs.push(whole);
    inputs
}

#[cfg(test)]
mod tests;
