//! The calls and inputs are what their comments say.

use super::*;
use crate::plain;

#[test]
fn each_refusal_is_there() {
    let mut met = [0; 16];
    for (words, log, rooms) in calls() {
        let [mut edits, mut rules, mut marks] = rooms.map(|room| vec![9; room]);
        let answer = plain::marks(&words, &log, &mut edits, &mut rules, &mut marks);
        met[usize::from(answer.err().unwrap_or(0))] += 1;
    }
    for number in [0, 5, 6, 7, 8, 9, 10, 11, 12, 15] {
        assert!(met[number] >= 5, "{number}: {met:?}");
    }
}

/// The numbers that the comments claim, worked out by hand.
#[test]
fn the_long_ones_are_as_long_as_they_should() {
    let tokens = |draft: &Draft, log: &[u16]| {
        let marked = plain::needed_marks(&draft.words(), log, 70_000);
        marked.expect("not refused").tokens
    };
    assert_eq!(tokens(&sixty_thousand(), &[]), 60_000);
    assert_eq!(tokens(&thousands(), &[2, 3]), 32_002);
    for marks in [65_535, 65_536, 65_541] {
        let log = thousands_log(marks);
        assert_eq!(tokens(&thousands(), &log), marks as u64);
    }
    assert_eq!(tokens(&bench_g(), &[1, 4].repeat(1_365)), 5_460);
    assert_eq!(tokens(&empties_inside(), &[]), 1);
}

/// The inputs around what `print_marks` lends, and those with two grounds, in the order of the list.
#[test]
fn the_inputs_stand_where_they_should() {
    let last = |input: &Vec<u8>| {
        let lines = plain::mark_lines(input);
        lines.lines().last().expect("a line").to_string()
    };
    let (case_5, _) = crate::examples::marks::printed_case_5();
    let cuts = 8 + case_5.len() - 514;
    let lines: Vec<String> = inputs()[cuts..cuts + 29].iter().map(last).collect();
    let lent = [
        "marks 65535 added 64000",
        "marks 65536 added 64000",
        "refused 15",
        "refused 15",
        // 1,366 of 1, the 2 of the log, and as many records as there is room for.
        "marks 9562 added 8192",
        "refused 12",
        "marks 256 added 0",
        "refused 12",
    ];
    assert_eq!(lines[..8], lent);
    assert!(lines[8].ends_with(" added 0"), "{}", lines[8]);
    assert_eq!(lines[10], "refused 5");
    assert_eq!(
        lines[11..14],
        ["marks 4096 added 0", "refused 10", "marks 8192 added 4096"]
    );
    assert_eq!(lines[14], "refused 15");
    assert_eq!(lines[15..23], ["refused 10"; 8]);
    assert_eq!(lines[23..25], ["refused 12"; 2]);
    assert_eq!(lines[25], "refused 15");
    // 900 times a 1 and six strings of 12 are 65,700.
    assert_eq!(lines[26..], ["refused 15", "refused 15", "refused 11"]);
}
