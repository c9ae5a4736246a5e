//! The examples of request (iii) of document 02: cost and cheapest rule of each nonterminal, worked out by
//! hand.

use crate::answer::{Implementation, Refusal};
use crate::generate::families::{bench_g, bench_g1, bench_h};
use crate::generate::Draft;

/// A grammar, the lengths of the two buffers, and what is expected of the desk.
pub struct Cheapest {
    pub name: &'static str,
    pub words: Vec<u16>,
    pub cost_room: usize,
    pub rule_room: usize,
    /// Costs and rules, or the refusal.
    pub answer: Result<(Vec<u16>, Vec<u16>), Refusal>,
}

fn given(name: &'static str, draft: &Draft, costs: &[u16], rules: &[u16]) -> Cheapest {
    Cheapest {
        name,
        words: draft.words(),
        cost_room: 64,
        rule_room: 64,
        answer: Ok((costs.to_vec(), rules.to_vec())),
    }
}

fn refused(
    name: &'static str,
    draft: &Draft,
    (cost_room, rule_room): (usize, usize),
    refusal: Refusal,
) -> Cheapest {
    Cheapest {
        name,
        words: draft.words(),
        cost_room,
        rule_room,
        answer: Err(refusal),
    }
}

/// 64 -> 65; 64 -> 1; 65 -> 2, with this cost of the 2. The first rule is known only once 65 has a cost.
pub fn late_tie(cost: u16) -> Draft {
    let mut draft = Draft::new(3, 2, &[(0, &[65]), (0, &[1]), (1, &[2])]);
    draft.terminals[2].0 = cost;
    draft
}

/// START is eight of 65, and 65 is eight tokens of this cost.
pub fn eights(cost: u16) -> Draft {
    let mut draft = Draft::new(2, 2, &[(0, &[65; 8]), (1, &[1; 8])]);
    draft.terminals[1].0 = cost;
    draft
}

/// 64 -> 2 65 costs 2, which is known once 66 and 65 have costs, and 64 -> 3 3 costs 2 too.
pub fn through_others() -> Draft {
    let rules: [(u16, &[u16]); 5] = [
        (0, &[1, 1, 1]),
        (0, &[2, 65]),
        (0, &[3, 3]),
        (1, &[66]),
        (2, &[4]),
    ];
    Draft::new(5, 3, &rules)
}

/// Each of 64 nonterminals is eight of the next, and the last is empty.
pub fn empty_eights() -> Draft {
    let mut draft = Draft::new(2, 64, &[]);
    for k in 0..63 {
        draft.rules.push((k, vec![65 + k; 8]));
    }
    draft.rules.push((63, Vec::new()));
    draft
}

/// 64 -> 64; 64 -> 1: both rules begin with the 1.
pub fn shared() -> Draft {
    Draft::new(2, 1, &[(0, &[64]), (0, &[1])])
}

/// All of them.
pub fn all() -> Vec<Cheapest> {
    let g = bench_g();
    let numbers: Vec<u16> = (0..64).collect();
    let mut examples = vec![
        // 66 is pole and crimp, 3 + 5; 65 is start, 66 and done, 20 + 8 + 4.
        given("G", &g, &[0, 32, 8, 0], &[1, 2, 3, 5]),
        given("late tie", &late_tie(1), &[1, 1], &[0, 2]),
        given("no tie", &late_tie(2), &[1, 2], &[1, 2]),
        given("through others", &through_others(), &[2, 1, 1], &[1, 3, 4]),
        given("eights", &eights(937), &[59_968, 7_496], &[0, 1]),
        given("empty eights", &empty_eights(), &[0; 64], &numbers),
        refused("G, 3 and 64", &g, (3, 64), 23),
        refused("G, 64 and 3", &g, (64, 3), 23),
    ];
    for rooms in [(0, 0), (0, 64), (64, 0), (1, 1), (64, 64)] {
        examples.push(refused("shared", &shared(), rooms, 9));
    }
    // 65 is a 1 and a 3, 20 + 4.
    examples.push(given("H", &bench_h(), &[0, 24, 0], &[2, 3, 6]));
    // The desk knows nothing of the unit.
    examples.push(given("G1", &bench_g1(), &[0, 32, 8, 0], &[1, 2, 3, 5]));
    examples
}

impl Cheapest {
    /// The answer, and every word of both buffers afterwards.
    pub fn expected(&self) -> (Result<usize, Refusal>, Vec<u16>, Vec<u16>) {
        let (answer, mut costs, mut rules) = match &self.answer {
            Ok((costs, rules)) => (Ok(costs.len()), costs.clone(), rules.clone()),
            Err(refusal) => (Err(*refusal), Vec::new(), Vec::new()),
        };
        costs.resize(self.cost_room, 0);
        rules.resize(self.rule_room, 0);
        (answer, costs, rules)
    }
}

/// Runs all examples on an implementation, and tells what differs from the request.
pub fn failures(implementation: &dyn Implementation) -> Vec<String> {
    let mut failures = Vec::new();
    for example in all() {
        let (mut costs, mut rules) = (vec![170; example.cost_room], vec![170; example.rule_room]);
        let answer = implementation.costs(&example.words, &mut costs, &mut rules);
        let expected = example.expected();
        for (what, good) in [
            ("the answer", answer == expected.0),
            ("the costs", costs == expected.1),
            ("the rules", rules == expected.2),
        ] {
            if !good {
                failures.push(format!("{}: {what}", example.name));
            }
        }
    }
    failures
}
