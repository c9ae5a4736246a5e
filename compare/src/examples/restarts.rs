//! The examples of request (vi) of document 02, "Ticks after a controller restart". Every move is worked out by
//! hand.

use super::{parsed, refused, Example, INSERT};
use crate::generate::families::bench_h;
use crate::generate::Draft;

/// The words of H, to the letter.
pub const H: [u16; 42] = [
    261, 3, 7, 1, 3, 0, 4, //
    0, 0, 20, 60, 3, 9, 4, 40, 1, 2, //
    0, 2, 65, 64, 0, 2, 4, 64, 0, 0, 1, 3, 1, 66, 3, 2, 2, 2, 66, 2, 2, 4, 66, 2, 0,
];

/// What the listing of a 1, a restart and a 3 is, to the letter.
pub const IDLE_PRINTED: &str = "ok tokens 3 moves 9 edits 0 rules 3\npace idle\n";

/// H with another word in place of the restart mark.
fn with_restart(restart: u16) -> Draft {
    Draft {
        restart: Some(restart),
        ..bench_h()
    }
}

/// The example with another word 0 or another one of the header.
fn with_word(mut example: Example, place: usize, word: u16) -> Example {
    example.words[place] = word;
    example
}

/// 64 -> empty over END alone, with this restart mark: words 257 1 1 0 0 0 m 0 0 0 0.
fn only_end(restart: u16) -> Draft {
    let mut draft = Draft::new(1, 1, &[(0, &[])]);
    draft.restart = Some(restart);
    draft
}

/// A 1, a restart and a 3: two expands and a match, an expand and a match, a drop and a match, START dropped and
/// END matched.
fn one_restart(name: &'static str, draft: &Draft) -> Example {
    parsed(name, draft, &[1, 4, 3], (9, &[0, 3, 5]), &[])
}

/// All of them.
pub fn all() -> Vec<Example> {
    let h = bench_h();
    let ticks = [100, 0, 30];
    let long = (18, &[0, 3, 4, 1, 0, 3, 4][..]);
    let mut examples = vec![
        parsed("restart-none", &h, &[1, 2, 3], (9, &[0, 3, 4]), &[]).with_cycle(&[0, 10, 30], 30),
        one_restart("restart-inside", &h).timed(&ticks),
        // Without a restart mark the nonsense is timed.
        one_restart("restart-word-0", &with_restart(0)).with_cycle(&ticks, 4_294_967_226),
        parsed("restart-between", &h, &[1, 2, 3, 4, 1, 2, 3], long, &[]).with_cycles(
            &[100, 110, 130, 0, 5, 10, 25],
            2,
            50,
        ),
        parsed(
            "restart-first-of-two",
            &h,
            &[1, 2, 4, 2, 3, 1, 3],
            (18, &[0, 3, 4, 5, 4, 0, 3]),
            &[],
        )
        .with_cycle(&[900, 950, 0, 40, 60, 70, 95], 25),
        // The second 1 takes over: 66 is dropped and the 3 inserted before it.
        parsed(
            "restart-beside-an-edit",
            &h,
            &[1, 1, 4, 3],
            (14, &[0, 3, 0, 3, 5]),
            &[[INSERT, 1, 3]],
        )
        .timed(&[5, 9, 0, 2]),
        // The 2 is the restart mark, and the 4 is none.
        one_restart("restart-word-2", &with_restart(2)).with_cycle(&[100, 110, 130], 30),
        parsed(
            "restart-word-2-inside",
            &with_restart(2),
            &[1, 2, 3],
            (9, &[0, 3, 4]),
            &[],
        )
        .timed(&[0, 10, 30]),
    ];
    for (name, mark) in [
        ("restart-word-1", 1),
        ("restart-word-3", 3),
        ("restart-word-5", 5),
        ("restart-word-65535", 65_535),
    ] {
        examples.push(refused(name, &with_restart(mark), &[1, 4, 3], 5));
    }
    for (name, first) in [
        ("restart-first-5", 5),
        ("restart-first-256", 256),
        ("restart-first-321", 321),
    ] {
        let example = refused(name, &h, &[1, 4, 3], 5);
        examples.push(with_word(example, 0, first));
    }
    examples.extend([
        parsed("restart-end-alone", &only_end(0), &[], (2, &[]), &[]),
        refused("restart-end-alone-1", &only_end(1), &[], 5),
        refused("restart-token-5", &h, &[1, 5, 3], 10),
    ]);
    examples
}

#[cfg(test)]
mod tests {
    use super::*;

    #[test]
    fn the_words_and_the_listing_are_the_requests_own() {
        assert_eq!(bench_h().words(), H);
        assert_eq!(only_end(0).words(), [257, 1, 1, 0, 0, 0, 0, 0, 0, 0, 0]);
        let examples = all();
        let example = examples.iter().find(|e| e.name == "restart-inside");
        assert_eq!(example.expect("it is there").listing, IDLE_PRINTED);
    }
}
