//! What the programs in the gate have stored is what the plain implementation answers today, and the
//! tuned one agrees with it on the inputs that are shaped to tell wrong readings apart.

use compare::answer::{Implementation, Prints};
use compare::plain::Plain;
use compare::tuned::Tuned;
use compare::{stored, telling};
use std::fs;
use std::path::Path;

#[test]
fn the_stored_answers_are_those_of_the_plain_implementation() {
    let crates = Path::new(env!("CARGO_MANIFEST_DIR")).join("../crates");
    for stored in stored::all(&crates).expect("the files of the test programs") {
        assert!(stored.inputs > 0, "{}", stored.program);
        assert_eq!(stored.different, 0, "{}", stored.program);
    }
}

#[test]
fn plain_and_tuned_agree_on_the_stored_grammars() {
    let crates = Path::new(env!("CARGO_MANIFEST_DIR")).join("../crates");
    let stdin = fs::read(crates.join("test_check/stdin")).expect("the stored grammars");
    let tuned = Tuned::default();
    for (case, words) in stored::checked(&stdin) {
        assert_eq!(Plain.check(&words), tuned.check(&words), "case {case}");
    }
}

#[test]
fn plain_and_tuned_agree_on_the_telling_inputs() {
    let tuned = Tuned::default();
    for call in telling::reports() {
        let lent = || (vec![9; call.edit_room], vec![9; call.rule_room]);
        let (mut one, mut two) = (lent(), lent());
        let plain = Plain.parse(&call.words, &call.tokens, &mut one.0, &mut one.1);
        assert_eq!(
            plain,
            tuned.parse(&call.words, &call.tokens, &mut two.0, &mut two.1)
        );
        assert_eq!(one, two);
        let (mut one, mut two) = (lent(), lent());
        let (words, tokens, ticks) = (&call.words, &call.tokens, &call.ticks);
        let plain = Plain.report(words, tokens, ticks, &mut one.0, &mut one.1);
        assert_eq!(
            plain,
            tuned.report(words, tokens, ticks, &mut two.0, &mut two.1)
        );
        assert_eq!(one, two);
    }
    for input in telling::inputs() {
        assert_eq!(Plain.listing(&input), tuned.listing(&input));
    }
    for (words, costs, rules) in telling::desks::costs() {
        let lent = || (vec![9; costs], vec![9; rules]);
        let (mut one, mut two) = (lent(), lent());
        let plain = Plain.costs(&words, &mut one.0, &mut one.1);
        assert_eq!(plain, tuned.costs(&words, &mut two.0, &mut two.1));
        assert_eq!(one, two);
    }
    for (words, tokens, rooms) in telling::marks::calls() {
        let lent = || rooms.map(|room| vec![9; room]);
        let ([mut a, mut b, mut c], [mut d, mut e, mut f]) = (lent(), lent());
        let plain = Plain.marks(&words, &tokens, &mut a, &mut b, &mut c);
        let found = tuned.marks(&words, &tokens, &mut d, &mut e, &mut f);
        assert_eq!(plain, found);
        assert_eq!((a, b, c), (d, e, f));
    }
    for input in telling::marks::inputs() {
        assert_eq!(Plain.mark_lines(&input), tuned.mark_lines(&input));
    }
    let lists = telling::lists::writes().into_iter();
    for (words, room) in lists.chain(telling::lists::telling_sums()) {
        let (mut one, mut two) = (vec![9; room], vec![9; room]);
        assert_eq!(Plain.write(&words, &mut one), tuned.write(&words, &mut two));
        assert_eq!(one, two);
    }
}
