//! Inputs of `print_marks`, each to tell a wrong reading apart.

use super::{calls, thousands, thousands_log};
use crate::examples::empty_parts::reliable;
use crate::examples::marks::printed_case_5;
use crate::generate::families::bench_g;
use crate::generate::file::standard_input;
use crate::generate::Draft;
use crate::telling::grammars::{large, large_log, long_chain, ones, six_behind};

/// The inputs that `test_mark_lines` stores behind the printed examples and the seeded ones.
pub fn inputs() -> Vec<Vec<u8>> {
    let mut inputs = cuts();
    inputs.extend(lent());
    inputs.extend(behind());
    inputs.extend(counts());
    inputs.extend(crate::telling::units::mark_inputs());
    // What the function tells apart, the program does too; buffers of other lengths it does not lend.
    for (words, log, _) in calls() {
        if words.is_empty() || log.len() > 300 {
            continue;
        }
        let input = standard_input(&words, &log, &ticks(log.len()));
        if !inputs.contains(&input) {
            inputs.push(input);
        }
    }
    inputs
}

/// Ticks that tell every place apart, with a wrap and numbers of every length.
fn ticks(count: usize) -> Vec<u32> {
    let tick = |place: u32| 7_u32.wrapping_sub(place.wrapping_mul(1_000_003) / 3);
    (0..count as u32).map(tick).collect()
}

fn input(draft: &Draft, log: &[u16]) -> Vec<u8> {
    standard_input(&draft.words(), log, &ticks(log.len()))
}

/// A cut input taken for a shorter one, or refused with another number: case 5 cut in the count, around the end of
/// its block, and at every byte of its entries.
fn cuts() -> Vec<Vec<u8>> {
    let (whole, _) = printed_case_5();
    let sizes = [0, 1, 2, 3, 100, 511, 512, 513].into_iter();
    sizes
        .chain(514..whole.len())
        .map(|size| whole[..size].to_vec())
        .collect()
}

/// Other sizes lent: 65,536 marks fit and 65,537 do not; 8,192 records fit and 8,193 do not; 16,384 rule numbers fit
/// and one more does not; the longest grammar. 4,096 tokens are taken and 4,097 are not.
fn lent() -> Vec<Vec<u8>> {
    let mut inputs = Vec::new();
    for marks in [65_535, 65_536, 65_537, 65_541] {
        inputs.push(input(&thousands(), &thousands_log(marks)));
    }
    for twos in [4, 3] {
        let log = [vec![1], vec![2; twos], vec![1; 1_365]].concat();
        inputs.push(input(&six_behind(), &log));
    }
    inputs.push(input(&long_chain(), &[1; 256]));
    inputs.push(input(&long_chain(), &[vec![1; 256], vec![2]].concat()));
    let draft = large(2_694);
    inputs.push(input(&draft, &large_log(&draft)));
    inputs.push(input(&draft, &large_log(&draft)[1..]));
    let mut words = draft.words();
    words.resize(2_783, 0);
    inputs.push(standard_input(&words, &[1], &[1]));
    for tokens in [4_096, 4_097] {
        inputs.push(input(&ones(), &vec![1; tokens]));
    }
    // 2,048 times 66 is missing: 8,192 marks, half of them added.
    inputs.push(input(&bench_g(), &[1, 4].repeat(2_048)));
    inputs
}

/// A block count over 11 taken as 11, or by its low byte. 10 is a count, and the eleventh block is then read as
/// entries.
fn counts() -> Vec<Vec<u8>> {
    let draft = large(2_694);
    let whole = input(&draft, &large_log(&draft));
    let counted = |count: u16| [&count.to_le_bytes(), &whole[2..]].concat();
    [0, 10, 12, 256 + 11, 65_535].map(counted).to_vec()
}

/// A 1 and six of 65 behind it, any number of times, where 65 is 12 tokens of 2.
fn six_long_ones() -> Draft {
    let rules: [(u16, &[u16]); 4] = [
        (0, &[1, 65, 65, 65, 65, 65, 65, 64]),
        (0, &[]),
        (1, &[66; 4]),
        (2, &[2; 3]),
    ];
    reliable(Draft::new(3, 3, &rules), &[1], 60_000)
}

/// [`thousands`], and 71, any number of 4 and as many 5 behind it, in place of the 4.
fn thousands_and_deep() -> Draft {
    let mut draft = thousands();
    draft.rules[1].1 = vec![71, 1, 64];
    draft.rules.push((7, vec![4, 71, 5]));
    draft.rules.push((7, Vec::new()));
    draft.terminals.push((1, 0));
    draft.nonterminals = 8;
    draft
}

/// 15 before 10, 11 or 12, each where both apply; and 15 alone.
fn behind() -> Vec<Vec<u8>> {
    let mut inputs = Vec::new();
    // The last entry cut short; a last token out of range.
    let mut cut = input(&thousands(), &[2, 3, 2, 3, 2, 3, 4]);
    for _ in 0..6 {
        inputs.push(cut.clone());
        cut.pop();
    }
    for token in [0, 5, 65_535] {
        inputs.push(input(&thousands(), &[2, 3, 2, 3, 2, 3, token]));
    }
    // 12 by the record number 8,193; one symbol less to insert is 15.
    for ones in [1_367, 1_366, 1_365, 900] {
        inputs.push(input(&six_long_ones(), &vec![1; ones]));
    }
    // The expand of the last 4 leaves 256 symbols, or would leave one more.
    for fours in [251, 252] {
        let log = [vec![2, 3, 2, 3, 2, 3], vec![4; fours]].concat();
        inputs.push(input(&thousands_and_deep(), &log));
    }
    inputs
}
