//! Single sentences of documents 01 and 02, each with an answer worked out by hand, on every
//! implementation.

use compare::answer::{Pace, Parsed, Prints};
use compare::examples::empty_parts::two_parts;
use compare::generate::families::bench_g;
use compare::generate::file::file_of;
use compare::generate::Draft;
use compare::implementations;

/// Runs a test on every implementation.
fn each(test: impl Fn(&dyn Prints)) {
    for implementation in implementations::all() {
        test(implementation.as_ref());
    }
}

/// Count, sum and mean of the report for a log.
fn report(on: &dyn Prints, draft: &Draft, log: &[u16], ticks: &[u32]) -> (u64, u64, f64) {
    let (mut edits, mut rules) = (vec![0; 99], vec![0; 99]);
    let report = on.report(&draft.words(), log, ticks, &mut edits, &mut rules);
    let report = report.expect("not refused");
    let mean = match report.pace {
        Pace::Idle => -1.0,
        Pace::Mean(mean) => mean,
    };
    (report.cycles, report.ms, mean)
}

/// Writes a block's check anew.
fn seal(block: &mut [u8]) {
    let weighted = |(i, &byte): (usize, &u8)| (i + 1) * usize::from(byte);
    let sum: usize = block[..510].iter().enumerate().map(weighted).sum();
    block[510..].copy_from_slice(&((sum % 65_521) as u16).to_le_bytes());
}

#[test]
fn a_file_is_read_and_each_refusal_of_it_comes_in_order() {
    each(|on| {
        // 254 words: one full block and one word in the second.
        let words: Vec<u16> = (1..=254).collect();
        let good = file_of(&words);
        assert_eq!(good.len(), 1_024);
        let mut lent = vec![7; 256];
        assert_eq!(on.read(&good, &mut lent), Ok(254));
        assert_eq!((&lent[..254], &lent[254..]), (&words[..], &[0, 0][..]));

        let refused = |file: &[u8], length: usize| {
            let mut lent = vec![7; length];
            let answer = on.read(file, &mut lent);
            assert!(answer.is_ok() || lent.iter().all(|&word| word == 0));
            answer.err()
        };
        assert_eq!(refused(&good, 254), None);
        assert_eq!(refused(&good, 253), Some(4));
        assert_eq!(refused(&[], 254), Some(1));
        assert_eq!(refused(&good[..1_023], 254), Some(1));
        assert_eq!(refused(&[0; 12 * 512], 254), Some(1));
        // An unused word in block 1: 3, before 4; with a wrong check in block 0: 2, before 3.
        let mut bad = good.clone();
        bad[512 + 509] = 1;
        seal(&mut bad[512..]);
        assert_eq!(refused(&bad, 0), Some(3));
        bad[510] ^= 1;
        assert_eq!(refused(&bad, 0), Some(2));
        // Fewer words than 253 in a block that is not the last; no words in the last.
        let mut bad = good.clone();
        bad[2] = 252;
        (bad[508], bad[509]) = (0, 0);
        seal(&mut bad[..512]);
        assert_eq!(refused(&bad, 254), Some(3));
        let mut bad = good.clone();
        (bad[512 + 2], bad[512 + 4]) = (0, 0);
        seal(&mut bad[512..]);
        assert_eq!(refused(&bad, 254), Some(3));
    });
}

#[test]
fn a_check_that_is_not_reduced_is_wrong() {
    each(|on| {
        // A full block whose sum is 3 more than a multiple of 65,521:
        // 3 x 253 + (508 + 509 + 510) x 128 + 351 x 1 = 196,566 = 3 x 65,521 + 3.
        let mut file = file_of(&[0; 253]);
        file[507..510].fill(128);
        file[350] = 1;
        seal(&mut file);
        assert_eq!(u16::from_le_bytes([file[510], file[511]]), 3);
        let mut lent = vec![7; 253];
        assert_eq!(on.read(&file, &mut lent), Ok(253));
        file[510..].copy_from_slice(&65_524u16.to_le_bytes());
        assert_eq!(on.read(&file, &mut lent), Err(2));
    });
}

#[test]
fn equal_marks_close_one_cycle_and_open_the_next() {
    each(|on| {
        let mut draft = Draft::new(3, 1, &[(0, &[1, 64]), (0, &[2, 64]), (0, &[])]);
        (draft.opening, draft.closing) = (1, 1);
        let answer = report(on, &draft, &[1, 2, 1, 1, 2], &[5, 6, 15, 16, 99]);
        assert_eq!(answer, (2, 11, 5.5));
    });
}

#[test]
fn an_edit_before_the_opening_mark_is_no_matter() {
    each(|on| {
        // The first 4 is deleted at place 0; the cycle runs from 1 to 4.
        let answer = report(on, &bench_g(), &[4, 1, 2, 3, 4], &[0, u32::MAX, 0, 0, 2]);
        assert_eq!(answer, (1, 3, 3.0));
    });
}

#[test]
fn edits_inside_a_cycle_spoil_it_and_leave_the_next_clean() {
    each(|on| {
        // The 5 at place 3 is deleted; the second cycle is clean.
        let log = [1, 2, 3, 5, 4, 1, 2, 3, 4];
        let ticks = [0, 1, 2, 3, 4, 5, 6, 7, 10];
        assert_eq!(report(on, &bench_g(), &log, &ticks), (1, 5, 5.0));
    });
}

#[test]
fn an_expand_tests_11_before_12() {
    each(|on| {
        let words = Draft::new(3, 1, &[(0, &[1, 64, 2]), (0, &[])]).words();
        for (room, refusal) in [(252, 12), (253, 11), (254, 11)] {
            let (mut edits, mut rules) = (vec![7; 999], vec![7; room]);
            let answer = on.parse(&words, &[1; 254], &mut edits, &mut rules);
            assert_eq!(answer, Err(refusal), "{room} rule words");
            assert!(edits.iter().chain(&rules).all(|&word| word == 0));
        }
    });
}

#[test]
fn a_record_is_written_only_where_all_three_words_fit() {
    each(|on| {
        // Case 7 has two records and three rules.
        let words = bench_g().words();
        for (edit_words, rule_words, good) in [
            (5, 3, false),
            (6, 3, true),
            (7, 3, true),
            (8, 4, true),
            (6, 2, false),
        ] {
            let (mut edits, mut rules) = (vec![7; edit_words], vec![7; rule_words]);
            let answer = on.parse(&words, &[1, 2, 3, 5], &mut edits, &mut rules);
            let mut expected = (vec![0; edit_words], vec![0; rule_words]);
            if good {
                let parsed = Parsed {
                    moves: 11,
                    edits: 2,
                    rules: 3,
                };
                assert_eq!(answer, Ok(parsed));
                expected.0[..6].copy_from_slice(&[1, 3, 5, 2, 4, 4]);
                expected.1[..3].copy_from_slice(&[0, 2, 3]);
            } else {
                assert_eq!(answer, Err(12));
            }
            assert_eq!((edits, rules), expected);
        }
    });
}

/// Request (ii): refusal 12 and others "now speak of the shorter list". Case 4 deletes the 4 and drops START:
/// one record, where 01's rule has two.
#[test]
fn a_drop_asks_for_no_room() {
    each(|on| {
        let words = bench_g().words();
        for room in 0..=7 {
            let (mut edits, mut rules) = (vec![7; room], vec![7; 1]);
            let answer = on.parse(&words, &[4], &mut edits, &mut rules);
            let mut expected = vec![0; room];
            if room < 3 {
                assert_eq!(answer, Err(12), "{room} edit words");
            } else {
                let parsed = Parsed {
                    moves: 3,
                    edits: 1,
                    rules: 0,
                };
                assert_eq!(answer, Ok(parsed), "{room} edit words");
                expected[..3].copy_from_slice(&[1, 0, 4]);
            }
            assert_eq!((edits, rules), (expected, vec![0]));
        }
    });
}

/// Request (ii): so does "the test for a clean cycle". A delete before a drop spoils a cycle, though nothing
/// is inserted; a drop before an expand or a match spoils none.
#[test]
fn a_drop_spoils_no_cycle_and_the_record_of_its_correction_does() {
    each(|on| {
        let mut draft = two_parts();
        (draft.opening, draft.closing) = (1, 3);
        let ticks = [10, 20, 40, 80];
        // 65 and 66 are dropped, without a correction.
        assert_eq!(report(on, &draft, &[1, 2, 3], &ticks[..3]), (1, 30, 30.0));
        // The second 1 is deleted, and 65 dropped before the 2.
        assert_eq!(report(on, &draft, &[1, 1, 2, 3], &ticks), (0, 0, -1.0));
        // The 2 is inserted at the closing mark.
        assert_eq!(report(on, &draft, &[1, 3], &ticks[..2]), (0, 0, -1.0));
        // The 4 behind the closing mark is deleted.
        assert_eq!(report(on, &draft, &[1, 2, 3, 4], &ticks), (1, 30, 30.0));
    });
}

#[test]
fn the_lowest_refusal_of_5_to_10_is_given() {
    each(|on| {
        let parse = |draft: &Draft, log: &[u16]| {
            on.parse(&draft.words(), log, &mut [7; 9], &mut [7; 9])
                .err()
        };
        // Each grammar breaks one condition more than the one before, from the last on; the
        // token 9 is out of range in all.
        let conflict: [(u16, &[u16]); 2] = [(0, &[1]), (0, &[1])];
        let mut draft = Draft::new(2, 1, &conflict);
        assert_eq!(parse(&Draft::new(2, 1, &[(0, &[1])]), &[9]), Some(10));
        assert_eq!(parse(&draft, &[9]), Some(9));
        // 65, 66 and 67 cost 8,000, 64,000 and 512,000.
        draft.nonterminals = 4;
        draft.terminals[1].0 = 1_000;
        draft.rules.push((1, vec![1; 8]));
        draft.rules.push((2, vec![65; 8]));
        draft.rules.push((3, vec![66; 8]));
        draft.rules.push((0, vec![1, 67]));
        assert_eq!(parse(&draft, &[9]), Some(8));
        draft.nonterminals = 5;
        draft.rules.push((0, vec![1, 68]));
        assert_eq!(parse(&draft, &[9]), Some(7));
        draft.nonterminals = 6;
        assert_eq!(parse(&draft, &[9]), Some(6));
        draft.unit = 2;
        assert_eq!(parse(&draft, &[9]), Some(5));
    });
}

#[test]
fn the_program_counts_a_cut_entry_under_10_and_missing_blocks_under_1() {
    each(|on| {
        let input = |draft: &Draft, tail: &[u8]| {
            let mut input = vec![1, 0];
            input.extend(file_of(&draft.words()));
            input.extend(tail);
            input
        };
        let g = input(&bench_g(), &[1, 0, 0, 0, 0]);
        assert_eq!(on.listing(&g), "refused 10\n");
        // Refusal 7 is lower than the cut entry's 10.
        let endless = Draft::new(2, 1, &[(0, &[64])]);
        assert_eq!(on.listing(&input(&endless, &[1])), "refused 7\n");
        for end in [0, 1, 2, 513] {
            assert_eq!(on.listing(&g[..end]), "refused 1\n");
        }
        for count in [0, 12] {
            let mut bad = g.clone();
            bad[0] = count;
            assert_eq!(on.listing(&bad), "refused 1\n");
        }
        assert_eq!(
            on.listing(&g[..514]),
            "ok tokens 0 moves 2 edits 0 rules 0\npace idle\n"
        );
    });
}
