//! Inputs shaped by hand for the programs in the gate. Each stands here because a wrong reading of
//! the documents, named in the comment above it, gives another answer on it. The answers themselves
//! come from the plain implementation, as for every stored input. `altered` shows that each wrong
//! reading is noticed.

pub mod desks;
mod empties;
pub mod grammars;
pub mod lists;
pub mod marks;
pub mod restarts;
pub mod texts;
pub mod units;

use crate::generate::families::bench_g;
use crate::generate::file::standard_input;
use crate::generate::Draft;
use grammars::{
    costly_part, far, large, large_log, long_chain, many_drops, marks, nested, ones, six_behind,
};

/// A call of the parser or, with the ticks, of the report, and the lengths of the two buffers.
#[derive(Clone)]
pub struct Call {
    pub words: Vec<u16>,
    pub tokens: Vec<u16>,
    pub ticks: Vec<u32>,
    pub edit_room: usize,
    pub rule_room: usize,
}

impl Call {
    /// A call in buffers of some length, all ticks 0.
    fn new(draft: &Draft, tokens: &[u16]) -> Call {
        Call {
            words: draft.words(),
            tokens: tokens.to_vec(),
            ticks: vec![0; tokens.len()],
            edit_room: 40,
            rule_room: 40,
        }
    }

    fn lent(mut self, edit_room: usize, rule_room: usize) -> Call {
        (self.edit_room, self.rule_room) = (edit_room, rule_room);
        self
    }

    fn timed(mut self, ticks: &[u32]) -> Call {
        self.ticks = ticks.to_vec();
        self
    }
}

// ---- Calls of the parser

/// The calls that `test_parse` stores. `test_pace` stores them too, and `test_sweep` their grammars
/// and logs.
pub fn parses() -> Vec<Call> {
    let mut calls = Vec::new();
    // A prefix cost cut to 16 bits: 80,000 would be 14,464 and below a reliability of 60,000, 65,536
    // would be 0 and below 1, and 131,072 too. 59,904 is below 60,000 and is inserted; 60,000 is not.
    for (symbols, cost, reliability) in [
        (5, 1_000, 60_000),
        (5, 1_000, 14_465),
        (8, 512, 1),
        (8, 512, 60_000),
        (6, 624, 60_000),
        (6, 625, 60_000),
    ] {
        calls.push(Call::new(&far(symbols, cost, reliability), &[2, 3, 1]));
    }
    // 12 given before 11: the expand for token 254 would leave 257 symbols, and with 253 words no rule
    // number fits either. Also END not counted under 11, a full stack refused, a rule too few or too many.
    // 253 tokens take 253 records, and START, which is dropped, asks for no room.
    for tokens in [252, 253, 254, 255] {
        for rules in [251, 252, 253, 254] {
            calls.push(Call::new(&nested(), &vec![1; tokens]).lent(3 * 253, rules));
        }
    }
    // 8 given for START only: here START costs 0. 60,032 and 65,536 are over 60,000, the second also where
    // a cost is cut to 16 bits; 59,968 is not.
    for (eights, symbols, cost) in [(2, 1, 937), (1, 8, 938), (3, 2, 64)] {
        calls.push(Call::new(&costly_part(eights, symbols, cost), &[1]));
    }
    // 6 x 4 x 5 x 500 is 60,000, and one symbol of cost 1 more is over it.
    let mut exact = costly_part(2, 5, 500);
    exact.rules[2].1 = vec![66; 6];
    exact.rules[3].1 = vec![67; 4];
    calls.push(Call::new(&exact, &[1]));
    exact.rules[2].1.push(1);
    calls.push(Call::new(&exact, &[1]));
    // Token 0, END's own number, taken as a token; a token T.
    for log in [
        &[0][..],
        &[0, 1],
        &[1, 0],
        &[1, 0, 1],
        &[1, 2],
        &[1, 64],
        &[65_535],
    ] {
        calls.push(Call::new(&ones(), log));
    }
    // 4,097 tokens accepted.
    for tokens in [4_096, 4_097] {
        calls.push(Call::new(&ones(), &vec![1; tokens]).lent(0, 4_096));
    }
    calls.extend(empties::calls());
    calls.extend(restarts::calls());
    calls.extend(units::calls());
    calls
}

// ---- Calls of the report

/// The calls that `test_pace` stores.
pub fn reports() -> Vec<Call> {
    let mut calls = parses();
    calls.extend(means());
    calls.extend(cycles());
    calls.extend(tick_counts());
    calls.extend(empties::reports());
    calls.extend(restarts::reports());
    calls.extend(units::reports());
    calls
}

/// A mean by whole division, in 32 bits, by the reciprocal of the count, as a mean of means, of times
/// in ten ms; a sum in 32 bits; a time past the wrap.
fn means() -> Vec<Call> {
    let mut calls = Vec::new();
    let times: [&[u32]; 12] = [
        &[1],
        &[0, 0, 1],
        &[1, 0, 1],
        &[30, 30, 29],
        &[1, 2, 4, 8, 16, 32, 64],
        &[1; 49],
        &[7; 49],
        &[16_777_217],
        &[16_777_217, 16_777_216],
        &[33_554_433, 1, 1],
        &[4_294_967_295; 3],
        &[4_000_000_000, 7, 4_294_967_295, 1, 1, 3_999_999_999, 2],
    ];
    for times in times {
        let mut log = Vec::new();
        let (mut ticks, mut tick) = (Vec::new(), 4_294_000_000_u32);
        for time in times {
            log.extend([1, 2]);
            ticks.push(tick);
            tick = tick.wrapping_add(*time);
            ticks.push(tick);
            tick = tick.wrapping_add(5);
        }
        let call = Call::new(&marks(1, 2, 0), &log).timed(&ticks);
        calls.push(call.lent(4, log.len() + 3));
    }
    calls
}

/// Every log of at most four tokens out of the two marks and a token that is deleted: a second
/// opening mark takes over, a second closing mark closes nothing, equal marks share their ends, and
/// an edit spoils from behind the opening mark to the closing mark. The ticks tell every pair apart.
fn cycles() -> Vec<Call> {
    let ticks = [10, 110, 1_210, 13_310];
    let mut logs: Vec<Vec<u16>> = vec![Vec::new()];
    let mut from = 0;
    while logs[from].len() < 4 {
        for token in 1..=3 {
            let mut log = logs[from].clone();
            log.push(token);
            logs.push(log);
        }
        from += 1;
    }
    let mut calls = Vec::new();
    for (opening, closing) in [(1, 2), (2, 1), (1, 1)] {
        for log in &logs {
            let call = Call::new(&marks(opening, closing, 0), log);
            calls.push(call.timed(&ticks[..log.len()]).lent(30, 6));
        }
    }
    calls
}

/// More ticks than tokens, or fewer; 10 given before 9 or behind 11.
fn tick_counts() -> Vec<Call> {
    let ticks = [100, 250, 400, 900, 1_250, 1_300, 1_400, 1_500];
    let mut calls = Vec::new();
    for count in 0..=8 {
        let call = Call::new(&bench_g(), &[1, 2, 3, 4]).timed(&ticks[..count]);
        calls.push(call.lent(7, 9));
    }
    for count in 0..=2 {
        calls.push(Call::new(&bench_g(), &[]).timed(&ticks[..count]));
    }
    let shared = Draft::new(2, 1, &[(0, &[64, 1]), (0, &[])]);
    calls.push(Call::new(&shared, &[1]).timed(&ticks[..2]));
    calls.push(Call::new(&nested(), &[1; 254]).timed(&ticks));
    calls
}

// ---- Inputs of the printing program

/// The inputs that `test_sweep` stores.
pub fn inputs() -> Vec<Vec<u8>> {
    let mut inputs = Vec::new();
    let mut put = |draft: &Draft, log: &[u16]| {
        let ticks: Vec<u32> = (0..log.len() as u32).map(|place| 7 * place).collect();
        inputs.push(standard_input(&draft.words(), log, &ticks));
    };
    // 24,576 edit words: 8,191 and 8,192 records fit and 8,193 do not. 1,366 of 1 need 8,196, and each 2
    // behind the first 1 takes one away. START is dropped at the end: it does not count under 12.
    for twos in [5, 4, 3] {
        let mut log = vec![1];
        log.extend(vec![2; twos]);
        log.extend(vec![1; 1_365]);
        put(&six_behind(), &log);
    }
    // 16,384 rule words: 256 of 1 take them all, and one 2 more does not fit, wherever it stands.
    let mut log = vec![1; 256];
    put(&long_chain(), &log);
    log.push(2);
    put(&long_chain(), &log);
    log.swap(0, 256);
    put(&long_chain(), &log);
    put(&long_chain(), &log[..256]);
    // Moves counted in 16 bits: 800 x 82 + 2 = 65,602.
    put(&many_drops(), &[1; 800]);
    // 4,097 tokens accepted.
    for tokens in [4_095, 4_096, 4_097, 4_098] {
        put(&ones(), &vec![1; tokens]);
    }
    // Grammars of 8 to 11 blocks, the last block with one word and full; 2,694 words are the most that a
    // grammar with a header of six words has.
    for words in [
        1_772, 2_024, 2_025, 2_277, 2_278, 2_530, 2_531, 2_693, 2_694,
    ] {
        let draft = large(words);
        put(&draft, &large_log(&draft));
    }
    // The longest input that is not refused, and one token more.
    let draft = large(2_694);
    for tokens in [4_096, 4_097] {
        let mut log = large_log(&draft);
        log.resize(tokens, 1);
        put(&draft, &log);
    }
    // 2,783 words for the grammar: the longest file is read, and its words break the shape (5, not 4).
    for count in [2_695, 2_782, 2_783] {
        let mut words = draft.words();
        words.resize(count, 0);
        inputs.push(standard_input(&words, &[1], &[1]));
    }
    // A block count over 11 taken as 11, or by its low byte: eleven good blocks with more than a block of
    // entries behind them, and the same blocks alone. 10 is a count, and the eleventh block is then read
    // as entries.
    let whole = standard_input(&draft.words(), &large_log(&draft), &[5; 1_000]);
    for end in [whole.len(), 2 + 11 * 512] {
        for count in [0_u16, 10, 11, 12, 13, 256 + 11, 11 * 256, 65_535] {
            let mut input = whole[..end].to_vec();
            input[..2].copy_from_slice(&count.to_le_bytes());
            inputs.push(input);
        }
    }
    // What the parser tells apart, the program does too; buffers of other lengths it does not lend.
    for call in parses().iter().filter(|call| call.tokens.len() < 4_000) {
        let ticks = vec![0; call.tokens.len()];
        let input = standard_input(&call.words, &call.tokens, &ticks);
        if !inputs.contains(&input) {
            inputs.push(input);
        }
    }
    inputs.extend(restarts::inputs());
    inputs.extend(units::inputs());
    inputs
}

#[cfg(test)]
mod tests;
