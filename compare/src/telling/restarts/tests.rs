//! The calls and inputs are what their comments say.

use super::*;
use crate::answer::Pace;
use crate::plain;

/// Count and sum of a report, or the refusal.
fn report(call: &Call) -> Result<(u64, u64), u16> {
    let (mut edits, mut rules) = (vec![9; 900], vec![9; 900]);
    let (words, tokens, ticks) = (&call.words, &call.tokens, &call.ticks);
    let report = plain::report(words, tokens, ticks, &mut edits, &mut rules)?;
    assert_eq!(report.cycles == 0, report.pace == Pace::Idle);
    Ok((report.cycles, report.ms))
}

#[test]
fn each_refusal_is_there() {
    let mut met = [0; 17];
    for call in calls() {
        met[usize::from(report(&call).err().unwrap_or(0))] += 1;
    }
    for number in [0, 5, 6, 7, 8, 9, 10, 16] {
        assert!(met[number] >= 2, "{number}: {met:?}");
    }
    for call in reports() {
        assert!(report(&call).is_ok());
    }
}

/// Worked out by hand: H with each word 0 and each word 6 that is accepted, and the log a restart beside cycles.
#[test]
fn the_ranges_are_those_of_the_request() {
    let accepted = |words: &Vec<u16>| plain::check(words).is_ok();
    let firsts = first_words();
    // T + 256 on the seven words of H, T on its six, and T 1 to 64 with either header.
    assert_eq!(firsts[..20].iter().filter(|w| accepted(w)).count(), 1);
    assert_eq!(firsts[20..40].iter().filter(|w| accepted(w)).count(), 1);
    assert_eq!(firsts[40..].iter().filter(|w| accepted(w)).count(), 8);
    let marks = |from: usize| {
        let list = seventh_words()[from..from + 19].to_vec();
        let good = list.into_iter().filter(accepted);
        good.map(|words| words[6]).collect::<Vec<u16>>()
    };
    assert_eq!(marks(0), [0, 2, 4]);
    assert_eq!(marks(19), [0, 2, 4]);
    assert_eq!(marks(38), [0, 1, 3, 4]);
    assert_eq!(marks(57), [0, 1, 2, 3, 4]);
    assert_eq!(marks(76), [0; 0]);
    assert_eq!(marks(95), [0; 0]);
}

#[test]
fn the_longest_list_has_2_695_words() {
    let first = |input: &Vec<u8>| {
        let listing = plain::listing(input);
        listing.lines().next().expect("a line").to_string()
    };
    let lines: Vec<String> = inputs()[..8].iter().map(first).collect();
    for at in [0, 2, 4] {
        assert!(lines[at].ends_with(" edits 0 rules 64"), "{}", lines[at]);
        assert_eq!(lines[at + 1], "refused 5");
    }
    assert_eq!(lines[6..], ["refused 5"; 2]);
}

/// A restart that is inserted before the opening mark, at its place, spoils nothing; one inserted inside does.
#[test]
fn inserted_restarts_stand_where_they_should() {
    let inserted: Vec<Call> = cycles::chosen()
        .into_iter()
        .filter(|call| call.tokens == [2, 1, 3])
        .collect();
    let answers: Vec<_> = inserted.iter().map(report).collect();
    assert_eq!(answers, [Ok((0, 0)), Ok((1, 50))]);
}

/// The cycles and times of the logs with ticks 100, 400, 900, 1600 and so on, by hand.
#[test]
fn restarts_spoil_what_they_should() {
    let all = cycles::chosen();
    let times: Vec<(u64, u64)> = all
        .iter()
        .step_by(3)
        .take(26)
        .map(|call| report(call).expect("no refusal"))
        .collect();
    assert_eq!(times[..8], [(0, 0); 8]);
    assert_eq!(times[8], (1, 1_600 - 400));
    assert_eq!(times[9], (1, 3_600 - 1_600));
    assert_eq!(times[10..12], [(1, 800); 2]);
    assert_eq!(times[12], (2, 800 + 4_900 - 2_500));
    assert_eq!(times[13], (2, 300 + 6_400 - 3_600));
    assert_eq!(times[14], (1, 3_600 - 1_600));
    assert_eq!(times[15], (1, 800));
    assert_eq!(times[16], (2, 800 + 10_000 - 4_900));
    assert_eq!(times[17], (1, 3_600 - 1_600));
    assert_eq!(times[18], (0, 0));
    assert_eq!(times[19], (1, 2_500 - 900));
    assert_eq!(times[20..22], [(0, 0); 2]);
    assert_eq!(times[22], (1, 1_600 - 400));
    assert_eq!(times[23], (1, 6_400 - 3_600));
    assert_eq!(times[24], (1, 800));
    assert_eq!(times[25], (1, 2_500 - 900));
}
