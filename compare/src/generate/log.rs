//! Logs: correct ones sampled from a grammar, damaged ones, noise, and ticks.

use super::draft::Draft;
use super::random::Random;

/// Derives correct logs of one accepted grammar.
pub struct Sampler {
    rules: Vec<(u16, Vec<u16>)>,
    /// The rules of each nonterminal.
    choices: Vec<Vec<usize>>,
    /// For each nonterminal, the rule at the root of a lowest derivation tree.
    lowest: Vec<usize>,
}

impl Sampler {
    pub fn new(draft: &Draft) -> Sampler {
        let n = usize::from(draft.nonterminals);
        let mut choices = vec![Vec::new(); n];
        for (number, (left, _)) in draft.rules.iter().enumerate() {
            choices[usize::from(*left)].push(number);
        }
        // A nonterminal gets its rule in the first round in which all symbols of the right
        // side have theirs: rounds are heights.
        let mut lowest: Vec<Option<usize>> = vec![None; n];
        while lowest.iter().any(Option::is_none) {
            let before = lowest.clone();
            for (number, (left, right)) in draft.rules.iter().enumerate() {
                let known = |&s: &u16| s < 64 || before[usize::from(s) - 64].is_some();
                let slot = &mut lowest[usize::from(*left)];
                if slot.is_none() && right.iter().all(known) {
                    *slot = Some(number);
                }
            }
            assert!(before != lowest, "every nonterminal derives some string");
        }
        Sampler {
            rules: draft.rules.clone(),
            choices,
            lowest: lowest.into_iter().flatten().collect(),
        }
    }

    /// A string derived from `symbol`, of about `target` tokens where the grammar allows it,
    /// by random rules until then and by lowest ones after. At most `height` symbols wait.
    pub fn string(
        &self,
        random: &mut Random,
        symbol: u16,
        target: usize,
        height: usize,
    ) -> Vec<u16> {
        let mut log = Vec::new();
        let mut stack = vec![symbol];
        while let Some(top) = stack.pop() {
            if top < 64 {
                log.push(top);
                continue;
            }
            let k = usize::from(top) - 64;
            let grow = log.len() + stack.len() < target && stack.len() + 8 < height;
            let mut rule = self.lowest[k];
            if grow {
                rule = random.pick(&self.choices[k]);
                // A log shall not end long before its target because of one empty draw.
                if stack.len() < 2 && log.len() + 10 < target && self.is_short(rule) {
                    rule = random.pick(&self.choices[k]);
                }
                if stack.len() < 2 && log.len() + 10 < target && self.is_short(rule) {
                    rule = self.longest(k);
                }
            }
            stack.extend(self.rules[rule].1.iter().rev());
        }
        log
    }

    /// A correct log of exactly `length` tokens, for a grammar whose START is a list.
    pub fn exact(&self, random: &mut Random, length: usize) -> Vec<u16> {
        loop {
            let target = length - random.below(length / 8 + 1);
            let log = self.string(random, 64, target, 200);
            if log.len() == length {
                return log;
            }
        }
    }

    fn is_short(&self, rule: usize) -> bool {
        self.rules[rule].1.iter().all(|&s| s < 64)
    }

    fn longest(&self, k: usize) -> usize {
        let nonterminals = |&&rule: &&usize| {
            let right = &self.rules[rule].1;
            (right.iter().filter(|&&s| s >= 64).count(), right.len())
        };
        *self.choices[k]
            .iter()
            .max_by_key(nonterminals)
            .expect("a rule")
    }
}

/// Damages about `parts` of 1,000 places: marks deleted, doubled, swapped, replaced, added.
pub fn damaged(random: &mut Random, log: &[u16], t: u16, parts: usize) -> Vec<u16> {
    let mut answer: Vec<u16> = Vec::new();
    for &token in log {
        if t < 2 || !random.chance(parts, 1_000) {
            answer.push(token);
            continue;
        }
        match random.below(5) {
            0 => {}
            1 => answer.extend([token, token]),
            2 => {
                let before = answer.pop();
                answer.push(token);
                answer.extend(before);
            }
            3 => answer.push(random.word(1, t - 1)),
            _ => answer.extend([random.word(1, t - 1), token]),
        }
    }
    answer
}

/// `count` tokens drawn from 1..T-1; none where T is 1.
pub fn noise(random: &mut Random, t: u16, count: usize) -> Vec<u16> {
    if t < 2 {
        return Vec::new();
    }
    (0..count).map(|_| random.word(1, t - 1)).collect()
}

/// `count` ticks: a running counter that wraps, equal ones, or any.
pub fn ticks(random: &mut Random, count: usize) -> Vec<u32> {
    let (kind, step) = (random.below(4), random.range(1, 3_000));
    let mut tick = match random.below(3) {
        0 => 0,
        1 => u32::MAX.wrapping_sub(random.below(1 + count * step / 2) as u32),
        _ => random.bits() as u32,
    };
    (0..count)
        .map(|_| {
            match kind {
                0 => {}
                1 => tick = random.bits() as u32,
                2 => tick = random.pick(&[0, 1, u32::MAX, u32::MAX - 1, 1 << 31]),
                _ => tick = tick.wrapping_add(random.below(step) as u32),
            }
            tick
        })
        .collect()
}
