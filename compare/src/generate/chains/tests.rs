//! The chains are what their comments say.

use super::*;
use crate::answer::Implementation;
use crate::plain;
use crate::tuned::Tuned;

#[test]
fn fixed_chains_are_accepted() {
    for n in [2, 8, 16, 32, 64] {
        for draft in [down(n), up(n), follow_down(n), follow_up(n)] {
            assert!(plain::check(&draft.words()).is_ok(), "{draft:?}");
            assert_eq!(draft.nonterminals, n);
        }
        assert_eq!(mentions(&down(n)), usize::from(n) - 1);
        assert_eq!(mentions(&follow_up(n)), 2 * (usize::from(n) - 1));
    }
    assert_eq!(up(64).rules[0], (0, vec![127]));
    assert_eq!(up(64).rules[63], (63, vec![126]));
    assert_eq!(up(64).rules[1], (1, vec![1]));
    let (_, sets) = plain::check(&follow_up(64).words()).expect("accepted");
    assert!((3..64).all(|token| sets.follow[1].contains(token)));
}

/// Every verdict but 5 is met often, also at full size, and both implementations agree.
#[test]
fn chains_meet_every_verdict_of_their_rules() {
    let mut random = Random::new(5);
    let tuned = Tuned::default();
    let (mut met, mut full) = ([0; 10], [0; 10]);
    for _ in 0..3_000 {
        let draft = any(&mut random);
        let words = draft.words();
        let verdict = plain::check(&words).err();
        assert_eq!(tuned.check(&words).err(), verdict, "{draft:?}");
        let number = usize::from(verdict.unwrap_or(0));
        met[number] += 1;
        full[number] += usize::from(draft.rules.len() == 256);
    }
    assert_eq!(met[5], 0, "{met:?}");
    for number in [0, 6, 7, 8, 9] {
        assert!(met[number] >= 60, "{met:?}");
        assert!(full[number] >= 10, "{full:?}");
    }
}

/// A grammar in other numbers has the same verdict, and with the new tokens the same logs.
#[test]
fn mixed_grammars_are_the_same_grammars() {
    let mut random = Random::new(6);
    let g = crate::generate::families::bench_g();
    for _ in 0..50 {
        let (mixed, tokens) = mixed(&mut random, &g);
        let log = [1, 2, 5, 6, 3, 4].map(|token: usize| tokens[token]);
        let mut lent = [(); 2].map(|()| vec![9; 40]);
        let [edits, rules] = &mut lent;
        let parsed = plain::parse(&mixed.words(), &log, edits, rules).expect("a correct log");
        assert_eq!(parsed.edits, 0);
    }
    for _ in 0..300 {
        let draft = any(&mut random);
        let other = mixed(&mut random, &draft).0;
        let [one, two] = [draft, other].map(|draft| plain::check(&draft.words()).err());
        assert_eq!(one, two);
    }
}
