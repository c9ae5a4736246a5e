//! Logs for request (iv) of document 02, with three buffers for each: logs where nonterminals are missing, and such
//! whose strings are long.

use super::draft::Draft;
use super::input::{Input, Source};
use super::random::Random;
use super::restarts::Header;
use super::{buffers, grammar, log, ties};
use crate::plain;

/// Edits and rules of every log are fewer, and a result that is longer is not lent enough.
const AMPLE: usize = 70_000;

impl Source {
    /// Log number `index` for request (iv) and three buffers, full of old content; they do not depend on those
    /// before them.
    pub fn marks(&self, index: u64) -> Input {
        self.marks_with(index, self.header(index))
    }

    /// The same with this header.
    pub fn marks_with(&self, index: u64, header: Header) -> Input {
        // Away from the inputs, the lists and the grammars for the desk of the same number.
        let mut random = Random::at(self.seed().rotate_left(48), index);
        let random = &mut random;
        let (words, tokens) = self.words_and_faulty_log(random, header);
        let [edits, rules, marks] = needed(&words, &tokens);
        Input::Marks {
            edits: room(random, edits, 6),
            rules: room(random, rules, 6),
            marks: room(random, marks, 2),
            words,
            tokens,
        }
    }

    /// Standard input number `index` of `print_marks`.
    pub fn mark_input(&self, index: u64) -> Vec<u8> {
        self.mark_input_with(index, self.header(!index))
    }

    /// The same with this header.
    pub fn mark_input_with(&self, index: u64, header: Header) -> Vec<u8> {
        let mut random = Random::at(self.seed().rotate_left(40), index);
        let random = &mut random;
        let (words, tokens) = self.words_and_faulty_log(random, header);
        self.as_input(random, words, tokens)
    }

    /// What the parser is tried on, or a grammar whose tokens are reliable, so that nonterminals are inserted.
    fn words_and_faulty_log(&self, random: &mut Random, header: Header) -> (Vec<u16>, Vec<u16>) {
        let mut draft = match random.below(16) {
            0..=3 => return self.words_and_log(random, header),
            4..=9 => self.stock()[random.below(self.stock().len())].clone(),
            10 | 11 => ties::ladder(random),
            12 => ties::wide(random),
            13 => {
                let (t, n) = (random.range(2, 9), random.range(2, 8));
                grammar::accepted(random, t, n, 20)
            }
            _ => return long_log(random, header),
        };
        header.put(random, &mut draft);
        if random.chance(1, 2) {
            ties::even(random, &mut draft);
        }
        let reliability = random.pick(&[3, 30, 300, 60_000, 60_000]);
        for terminal in draft.terminals.iter_mut().skip(1) {
            if random.chance(3, 4) {
                terminal.1 = reliability;
            }
        }
        let words = draft.words();
        let mut tokens = self.log(random, &draft, plain::check(&words).is_ok());
        if random.chance(1, 2) {
            // Much is missing, and what is left fits.
            let kept = random.range(1, 9);
            tokens.retain(|_| random.chance(kept, 10));
        }
        (words, tokens)
    }
}

/// How many edit, rule and result words a log takes, up to its end or to the move that refuses it.
pub fn needed(words: &[u16], tokens: &[u16]) -> [usize; 3] {
    let (parsed, marks) = match plain::needed_marks(words, tokens, AMPLE) {
        Ok(marked) => (marked.parsed, marked.tokens as usize),
        Err(_) => (plain::needed(words, tokens, AMPLE), 0),
    };
    let (edits, rules) = (3 * parsed.edits as usize, parsed.rules as usize);
    [edits, rules, marks.min(AMPLE)]
}

/// A buffer around the words that are wanted; in one of `parts` draws it may be too short.
fn room(random: &mut Random, needed: usize, parts: usize) -> Vec<u16> {
    if random.chance(1, parts) {
        buffers::around(random, needed)
    } else {
        buffers::ample(random, needed)
    }
}

/// A grammar of [`long_part`] and a log in which that part is missing at some places.
fn long_log(random: &mut Random, header: Header) -> (Vec<u16>, Vec<u16>) {
    let mut draft = long_part(random);
    header.put(random, &mut draft);
    let words = draft.words();
    // How long one of them is.
    let one = plain::needed_marks(&words, &[2, 3], AMPLE).map_or(2, |marked| marked.tokens);
    let most = (AMPLE / one.max(50) as usize).clamp(1, 40);
    let mut tokens = Vec::new();
    for _ in 0..random.range(1, most) {
        tokens.extend([2, 3]);
        tokens.extend(vec![4; random.pick(&[0, 0, 1, 2, 30])]);
    }
    if random.chance(1, 3) {
        tokens = log::damaged(random, &tokens, draft.t(), 60);
    }
    (words, tokens)
}

/// Between 2 and 3 stands 65, any number of times, with any number of 4 beside them. 65 has up to eight of the next
/// nonterminal and so on, tokens and empty parts between them; each may also be a token of its own that costs as
/// much, or one more or less.
pub fn long_part(random: &mut Random) -> Draft {
    let levels = random.word(1, 6);
    let rules: [(u16, &[u16]); 3] = [(0, &[2, 65, 3, 64]), (0, &[4, 64]), (0, &[])];
    // Behind the levels a nonterminal that is a 6 or empty, and one that is only ever empty.
    let (perhaps, nothing) = (65 + levels, 66 + levels);
    let mut draft = Draft::new(7, 3 + levels, &rules);
    draft.rules.push((perhaps - 64, vec![6]));
    draft.rules.push((perhaps - 64, Vec::new()));
    draft.rules.push((nothing - 64, Vec::new()));
    ties::even(random, &mut draft);
    draft.terminals[3].1 = 60_000;
    let most = random.pick(&[3, 5, 8, 8]);
    let mut cost: u64 = 0;
    for level in (1..=levels).rev() {
        let mut right = Vec::new();
        let mut sum = 0;
        let length = random.range(most / 2, most);
        while right.len() < length {
            if level < levels && (right.is_empty() || random.chance(7, 8)) {
                right.push(65 + level);
                sum += cost;
                continue;
            }
            // What can be empty stands before a token, so that no two rules share it.
            let empty = random.pick(&[None, None, None, Some(perhaps), Some(nothing)]);
            let empty = empty.filter(|_| right.len() + 1 < length);
            let token = random.pick(&[1, 4, 5]);
            right.extend(empty);
            right.push(token);
            sum += u64::from(draft.terminals[usize::from(token)].0);
        }
        cost = sum;
        draft.rules.push((level, right));
        let own = cost + random.pick(&[0, 0, 1, 1, 1, 2]);
        if random.chance(1, 6) && (2..=1_000).contains(&own) {
            draft.rules.push((level, vec![draft.t()]));
            draft.terminals.push((own as u16 - 1, 0));
            cost = cost.min(own - 1);
        }
    }
    // Both stand somewhere, so that they are reachable.
    draft.rules.push((0, vec![5, perhaps, nothing, 1, 64]));
    grammar::shuffle(random, &mut draft.rules);
    draft
}

#[cfg(test)]
mod tests {
    use super::*;

    #[test]
    fn long_parts_are_long() {
        let mut random = Random::new(1);
        let (mut accepted, mut longest) = (0, 0);
        for _ in 0..300 {
            let words = long_part(&mut random).words();
            match plain::needed_marks(&words, &[2, 3], AMPLE) {
                Ok(marked) => {
                    accepted += 1;
                    longest = longest.max(marked.tokens);
                }
                Err(refusal) => assert_eq!(refusal, 8),
            }
        }
        assert!(accepted > 200 && longest > 20_000, "{accepted}, {longest}");
    }
}
