//! The grammars are what their comments say.

use super::*;
use crate::plain;

fn answer(draft: &Draft) -> Result<(Vec<u16>, Vec<u16>), u16> {
    let n = usize::from(draft.nonterminals);
    let (mut costs, mut rules) = (vec![9; n], vec![9; n]);
    plain::costs(&draft.words(), &mut costs, &mut rules)?;
    Ok((costs, rules))
}

/// The numbers that the comments claim, worked out by hand.
#[test]
fn the_grammars_are_what_their_comments_say() {
    for chain in late_chains() {
        let (costs, _) = answer(&chain).expect("accepted");
        assert_eq!(costs, [1; 7]);
    }
    let firsts = late_chains()
        .iter()
        .map(|c| answer(c).unwrap().1[0])
        .collect::<Vec<_>>();
    assert_eq!(firsts, [0, 0, 0, 11]);
    let falls: Vec<_> = falling()[..3].iter().map(|d| answer(d).unwrap()).collect();
    assert_eq!(falls[0], (vec![6; 4], vec![1, 3, 5, 6]));
    assert_eq!(falls[1], (vec![7; 4], vec![1, 3, 4, 6]));
    assert_eq!(falls[2], (vec![3; 6], vec![1, 4, 5, 6, 7, 8]));
    for (cheap, draft) in numbers()[1..4].iter().enumerate() {
        let rules: Vec<u16> = (0..64).map(|k| 4 * k + 1 + cheap as u16).collect();
        assert_eq!(answer(draft), Ok((vec![1; 64], rules)));
    }
    let (costs, rules) = answer(&numbers()[0]).expect("accepted");
    assert_eq!(costs[54..], [9, 9, 8, 7, 6, 5, 4, 3, 2, 1]);
    assert_eq!(rules[54..57], [4 * 54 + 1, 4 * 55, 4 * 56]);
    assert_eq!(answer(&numbers()[4]).unwrap().1[0], 252);
    assert_eq!(
        answer(&widths()[0]),
        Ok((vec![8, 8_193, 1_193], vec![1, 2, 3]))
    );
    let full: Vec<_> = widths()
        .iter()
        .rev()
        .take(3)
        .map(|d| answer(d).map(|a| a.0[0]))
        .collect();
    assert_eq!(full, [Err(8), Ok(60_000), Ok(59_992)]);
}

#[test]
fn each_refusal_is_there() {
    let mut met = [0; 24];
    for (words, costs, rules) in costs() {
        let answer = plain::costs(&words, &mut vec![9; costs], &mut vec![9; rules]);
        met[usize::from(answer.err().unwrap_or(0))] += 1;
    }
    for number in [0, 5, 6, 7, 8, 9, 23] {
        assert!(met[number] >= 10, "{number}: {met:?}");
    }
}
