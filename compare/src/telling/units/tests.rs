//! The calls, inputs and lists are what their comments say.

use super::*;
use crate::plain;

/// The parser's and the report's refusals of some calls, 0 where there is none.
fn refusals(calls: &[Call]) -> (Vec<u16>, Vec<u16>) {
    let lent = |call: &Call| (vec![9; call.edit_room], vec![9; call.rule_room]);
    let parse = |call: &Call| {
        let (mut edits, mut rules) = lent(call);
        let answer = plain::parse(&call.words, &call.tokens, &mut edits, &mut rules);
        answer.err().unwrap_or(0)
    };
    let report = |call: &Call| {
        let (mut edits, mut rules) = lent(call);
        let (words, tokens, ticks) = (&call.words, &call.tokens, &call.ticks);
        let answer = plain::report(words, tokens, ticks, &mut edits, &mut rules);
        let zeros = edits.iter().chain(&rules).all(|&word| word == 0);
        assert!(answer.is_ok() || zeros, "a refusal leaves zeros");
        answer.err().unwrap_or(0)
    };
    (
        calls.iter().map(parse).collect(),
        calls.iter().map(report).collect(),
    )
}

#[test]
fn what_is_parsed_is_not_timed() {
    let calls = accepted();
    assert_eq!(
        refusals(&calls),
        (vec![0; calls.len()], vec![16; calls.len()])
    );
    assert_eq!(
        refusals(&in_turn()),
        (vec![0; 8], vec![0, 16, 0, 16, 16, 0, 16, 0])
    );
    let calls = other_words();
    assert_eq!(
        refusals(&calls),
        (vec![0; calls.len()], vec![0; calls.len()])
    );
    let (parsed, reported) = refusals(&timed());
    assert_eq!(parsed, vec![0; parsed.len()]);
    let (some, restarted) = reported.split_at(reported.len() - 12);
    for pair in some.chunks(2) {
        assert_eq!(pair, [0, 16]);
    }
    assert_eq!(restarted, [16; 12]);
}

#[test]
fn refusals_5_to_10_come_before_16() {
    let half = [[5; 19].as_slice(), &[6, 6, 7, 7, 8, 8, 9, 9]].concat();
    let both: Vec<u16> = half.iter().flat_map(|&number| [number; 2]).collect();
    assert_eq!(refusals(&refused_before()), (both.clone(), both));
    let calls = no_logs();
    assert_eq!(
        refusals(&calls),
        (vec![10; calls.len()], vec![10; calls.len()])
    );
    let (parsed, reported) = refusals(&no_ticks());
    // 1 2 3 4 with four ticks, in both rooms.
    let mut ten = vec![10; 14];
    ten[8..10].fill(16);
    assert_eq!(reported[..14], ten);
    // The rest, 254 of 1 with nine ticks, and then what is refused before.
    assert_eq!(reported[14..33], [10; 19]);
    assert_eq!(parsed[32], 12);
    assert_eq!(reported[33..], half);
    assert_eq!(refusals(&too_long()), (vec![12, 12, 10], vec![16, 16, 10]));
}

#[test]
fn refusals_11_and_12_come_behind_16() {
    let (parsed, reported) = refusals(&deep());
    assert_eq!(parsed[..4], [0, 0, 12, 12]);
    assert_eq!(parsed[4..8], [11, 11, 12, 12]);
    assert_eq!(parsed[8..], [11, 11, 12, 12]);
    assert_eq!(reported, [16; 12]);
    let (parsed, reported) = refusals(&short());
    assert_eq!(parsed[..7], [12, 12, 12, 12, 12, 0, 0]);
    assert_eq!(parsed[7..], [12, 12, 0, 12, 12, 0, 0]);
    assert_eq!(reported, [16; 14]);
}

#[test]
fn the_program_gives_each_refusal_alone() {
    let all = inputs();
    let (before, last) = all.split_at(all.len() - 4);
    for input in last {
        assert_eq!(plain::listing(input), "refused 16\n");
        let mut other = input.clone();
        assert!(crate::generate::file::replace_word(
            &mut other[2..514],
            5,
            1,
            0
        ));
        let text = plain::listing(&other);
        assert_eq!(
            text == "refused 12\n",
            input == &last[0] || input == &last[3]
        );
    }
    let most = "pace cycles 4095 ms 17587891073025\n";
    assert!(plain::listing(&longest()).ends_with(most));
    assert_eq!(before.last(), Some(&longest()));
    let refused = |text: &str| before.iter().filter(|i| plain::listing(i) == text).count();
    // Three pairs of marks and nine logs, each once; three restart marks and four logs.
    assert_eq!(refused("refused 16\n"), 3 * 9 + 3 * 4);
    // Two grammars, two logs and five lengths, and the deep one; the others are refused before.
    assert_eq!(refused("refused 10\n"), 20 + 1);
    assert_eq!(cuts().len(), 20 + 1 + 14);
}

#[test]
fn the_others_take_unit_1() {
    let desk = |call: &DeskCall| {
        let (mut costs, mut rules) = (vec![9; call.1], vec![9; call.2]);
        plain::costs(&call.0, &mut costs, &mut rules).err()
    };
    let found: Vec<Option<u16>> = desks().iter().map(desk).collect();
    for answers in found[..15].chunks(5) {
        assert_eq!(answers, [None, None, Some(23), Some(23), Some(23)]);
    }
    assert!(found[15..]
        .iter()
        .all(|answer| matches!(answer, Some(5..=9))));
    let mut met = [0; 17];
    for (words, log, rooms) in marks() {
        let [mut edits, mut rules, mut marks] = rooms.map(|room| vec![9; room]);
        let answer = plain::marks(&words, &log, &mut edits, &mut rules, &mut marks);
        met[usize::from(answer.err().unwrap_or(0))] += 1;
    }
    for number in [0, 5, 6, 7, 8, 9, 10, 11, 12, 15] {
        assert!(met[number] > 0, "{number}: {met:?}");
    }
    assert_eq!(met[16], 0);
}

/// What the writer refuses with 16 is word 5 equal to 1 and nothing else, in at most 2,783 words.
#[test]
fn the_lists_stand_where_they_should() {
    let mut met = [0; 17];
    for (words, room) in writes() {
        let mut bytes = vec![9; room];
        let answer = plain::write(&words, &mut bytes);
        let refusal = answer.err().unwrap_or(0);
        let is_1 = (6..=2_783).contains(&words.len()) && words[5] == 1;
        assert_eq!(refusal == 16, is_1, "{words:?}");
        assert!(refusal == 0 || bytes.iter().all(|&byte| byte == 0));
        met[usize::from(refusal)] += 1;
    }
    for number in [0, 13, 14, 16] {
        assert!(met[number] >= 12, "{number}: {met:?}");
    }
}
