//! Single sentences of request (iii) of document 02, each with an answer worked out by hand, on every
//! implementation.

use compare::answer::Prints;
use compare::generate::families::bench_g;
use compare::generate::Draft;
use compare::{examples, implementations};

/// Runs a test on every implementation.
fn each(test: impl Fn(&dyn Prints)) {
    for implementation in implementations::all() {
        test(implementation.as_ref());
    }
}

#[test]
fn every_implementation_meets_the_examples() {
    each(|on| assert_eq!(examples::cheapest::failures(on), Vec::<String>::new()));
}

/// "then 23 when either buffer is shorter than N"; longer ones have "zeros behind".
#[test]
fn either_buffer_must_have_n_words() {
    each(|on| {
        let words = bench_g().words();
        for (cost_room, rule_room) in [
            (4, 4),
            (4, 5),
            (5, 4),
            (9, 4),
            (4, 9),
            (70, 70),
            (3, 4),
            (4, 3),
            (3, 3),
            (3, 70),
            (70, 3),
            (0, 0),
            (0, 4),
            (4, 0),
        ] {
            let (mut costs, mut rules) = (vec![7; cost_room], vec![7; rule_room]);
            let answer = on.costs(&words, &mut costs, &mut rules);
            let mut expected = (vec![0; cost_room], vec![0; rule_room]);
            if cost_room < 4 || rule_room < 4 {
                assert_eq!(answer, Err(23), "{cost_room} and {rule_room}");
            } else {
                assert_eq!(answer, Ok(4), "{cost_room} and {rule_room}");
                expected.0[..4].copy_from_slice(&[0, 32, 8, 0]);
                expected.1[..4].copy_from_slice(&[1, 2, 3, 5]);
            }
            assert_eq!((costs, rules), expected);
        }
    });
}

/// "5 to 9, then 23": each grammar breaks one condition more than the one before, from the last on, and the
/// buffers are too short for all of them.
#[test]
fn the_lowest_refusal_is_given_whatever_the_buffers() {
    each(|on| {
        let refused = |draft: &Draft| {
            let found = [(0, 0), (0, 9), (9, 0), (9, 9)].map(|(cost_room, rule_room)| {
                let (mut costs, mut rules) = (vec![7; cost_room], vec![7; rule_room]);
                let answer = on.costs(&draft.words(), &mut costs, &mut rules);
                assert!(costs.iter().chain(&rules).all(|&w| w == 0) || answer.is_ok());
                answer.err()
            });
            assert_eq!(found[0], found[1]);
            assert_eq!(found[0], found[2]);
            (found[0], found[3])
        };
        assert_eq!(refused(&Draft::new(2, 1, &[(0, &[1])])), (Some(23), None));
        let mut draft = Draft::new(2, 1, &[(0, &[1]), (0, &[1])]);
        assert_eq!(refused(&draft), (Some(9), Some(9)));
        // 65, 66 and 67 cost 8,000, 64,000 and 512,000.
        draft.nonterminals = 4;
        draft.terminals[1].0 = 1_000;
        draft.rules.push((1, vec![1; 8]));
        draft.rules.push((2, vec![65; 8]));
        draft.rules.push((3, vec![66; 8]));
        draft.rules.push((0, vec![1, 67]));
        assert_eq!(refused(&draft), (Some(8), Some(8)));
        draft.nonterminals = 5;
        draft.rules.push((0, vec![1, 68]));
        assert_eq!(refused(&draft), (Some(7), Some(7)));
        draft.nonterminals = 6;
        assert_eq!(refused(&draft), (Some(6), Some(6)));
        draft.unit = 2;
        assert_eq!(refused(&draft), (Some(5), Some(5)));
    });
}

/// "The lowest-numbered rule", among all rules, wherever they stand.
#[test]
fn the_lowest_number_of_all_rules_is_given() {
    each(|on| {
        // 66 is 3 or 4; 65 is 2, or 66 behind nothing; 64 is 1 1, or 65 and a 1. All tokens cost 1.
        let rules: [(u16, &[u16]); 6] = [
            (2, &[3]),
            (0, &[65, 1]),
            (1, &[66]),
            (2, &[4]),
            (0, &[1, 1]),
            (1, &[2]),
        ];
        let words = Draft::new(5, 3, &rules).words();
        let (mut costs, mut rules) = ([7; 4], [7; 5]);
        assert_eq!(on.costs(&words, &mut costs, &mut rules), Ok(3));
        assert_eq!((costs, rules), ([2, 1, 1, 0], [1, 2, 0, 0, 0]));
    });
}
