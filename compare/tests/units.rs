//! Request (viii) of document 02, "The hundredths unit goes": the order of refusals by hand, on every implementation;
//! and on many inputs that unit 1 changes what is timed or written and nothing else, and what holds of every report.

use compare::answer::{Pace, Prints};
use compare::differ::{outcome, Outcome};
use compare::examples::{self, marks::nested};
use compare::generate::families::{bench_g1, in_hundredths};
use compare::generate::file::standard_input;
use compare::generate::{units, Draft, Input, Source};
use compare::implementations;
use compare::plain::Plain;
use compare::tuned::Tuned;

/// Runs a test on every implementation.
fn each(test: impl Fn(&dyn Prints)) {
    for implementation in implementations::all() {
        test(implementation.as_ref());
    }
}

/// "A pair's count is at most 4,095 and its sum at most 4,294,967,295 times its count, which every pace report now
/// meets."
const MOST_CYCLES: u64 = 4_095;
const MOST_MS: u64 = 4_294_967_295;

#[test]
fn every_implementation_meets_the_examples() {
    each(|on| assert_eq!(examples::units::failures(on), Vec::<String>::new()));
}

// ---- The order of refusals

/// The refusals of the report in buffers with room and without, with as many ticks as tokens.
fn refusals(on: &dyn Prints, words: &[u16], log: &[u16], ticks: usize) -> [Option<u16>; 3] {
    [(900, 300), (0, 300), (0, 0)].map(|(edit_room, rule_room)| {
        let (mut edits, mut rules) = (vec![7; edit_room], vec![7; rule_room]);
        let answer = on.report(words, log, &vec![0; ticks], &mut edits, &mut rules);
        assert!(answer.is_ok() || edits.iter().chain(&rules).all(|&word| word == 0));
        answer.err()
    })
}

/// "In the report after 10 and before 11": each input breaks one condition more than the one before, from the last on,
/// and all of them would meet 11, or 12 for want of room.
#[test]
fn the_report_gives_16_behind_10_and_before_11() {
    each(|on| {
        let ones = vec![1; 254];
        let with_0 = nested().words();
        assert_eq!(refusals(on, &with_0, &ones, 254), [11, 11, 12].map(Some));
        let mut draft = in_hundredths(nested());
        assert_eq!(refusals(on, &draft.words(), &ones, 254), [Some(16); 3]);
        for ticks in [0, 253, 255] {
            assert_eq!(refusals(on, &draft.words(), &ones, ticks), [Some(10); 3]);
        }
        let bad = [&ones[..], &[3]].concat();
        assert_eq!(refusals(on, &draft.words(), &bad, 255), [Some(10); 3]);
        let long = vec![1; 4_097];
        assert_eq!(refusals(on, &draft.words(), &long, 4_097), [Some(10); 3]);
        draft.rules.push((0, vec![1]));
        assert_eq!(refusals(on, &draft.words(), &bad, 1), [Some(9); 3]);
        // 65, 66 and 67 cost 8,000, 64,000 and 512,000.
        draft.nonterminals = 4;
        draft.terminals[1].0 = 1_000;
        draft.rules.push((1, vec![1; 8]));
        draft.rules.push((2, vec![65; 8]));
        draft.rules.push((3, vec![66; 8]));
        draft.rules.push((0, vec![1, 67]));
        assert_eq!(refusals(on, &draft.words(), &bad, 1), [Some(8); 3]);
        draft.nonterminals = 5;
        draft.rules.push((0, vec![1, 68]));
        assert_eq!(refusals(on, &draft.words(), &bad, 1), [Some(7); 3]);
        draft.nonterminals = 6;
        assert_eq!(refusals(on, &draft.words(), &bad, 1), [Some(6); 3]);
        let mut words = draft.words();
        words.pop();
        assert_eq!(refusals(on, &words, &bad, 1), [Some(5); 3]);
    });
}

/// The same of the printing program, which prints one line; a last entry cut short is 10.
#[test]
fn the_program_prints_16_alone_in_the_order_of_the_report() {
    each(|on| {
        let input =
            |draft: &Draft, log: &[u16]| standard_input(&draft.words(), log, &vec![0; log.len()]);
        let deep = in_hundredths(nested());
        assert_eq!(on.listing(&input(&nested(), &[1; 254])), "refused 11\n");
        assert_eq!(on.listing(&input(&deep, &[1; 254])), "refused 16\n");
        for log in [&[][..], &[4], &[1, 2, 3, 4], &[1, 1, 2, 3, 4]] {
            let mut input = input(&bench_g1(), log);
            assert_eq!(on.listing(&input), "refused 16\n");
            for _ in 1..6 {
                input.push(0);
                assert_eq!(on.listing(&input), "refused 10\n");
            }
        }
        assert_eq!(on.listing(&input(&bench_g1(), &[7])), "refused 10\n");
        let endless = in_hundredths(Draft::new(2, 1, &[(0, &[64])]));
        assert_eq!(on.listing(&input(&endless, &[9])), "refused 7\n");
        let mut wrong = input(&bench_g1(), &[1]);
        wrong[512] ^= 1;
        assert_eq!(on.listing(&wrong), "refused 2\n");
    });
}

// ---- On many inputs

/// What the outcome with unit 1 is, where that with unit 0 is known.
fn with_unit_1(input: &Input, outcome: &Outcome) -> Outcome {
    let mut expected = outcome.clone();
    let timed = matches!(input, Input::Report { .. } | Input::Listing { .. });
    if timed && !matches!(outcome.answer, Err(1..=10)) {
        expected.answer = Err(16);
        for buffer in &mut expected.buffers {
            buffer.fill(0);
        }
        if !expected.text.is_empty() {
            expected.text = "refused 16\n".to_string();
        }
    }
    expected
}

/// "Old files with unit 1 can still be read, checked and parsed", and "no pace comes from them", also where there is
/// none to be idle about.
#[test]
fn unit_1_changes_what_is_timed_and_nothing_else() {
    let source = Source::new(81);
    let all: [Box<dyn Prints>; 2] = [Box::new(Plain), Box::<Tuned>::default()];
    let (mut same, mut refused) = (0, 0);
    for index in 0..4_000 {
        let lines = Input::MarkLines {
            input: source.mark_input(index),
        };
        for input in [
            source.input(index),
            source.desk(index),
            source.marks(index),
            lines,
        ] {
            let mut other = input.clone();
            if !units::set(&mut other, 0, 1) {
                continue;
            }
            for implementation in &all {
                let found = outcome(implementation.as_ref(), &input);
                let expected = with_unit_1(&input, &found);
                let other = outcome(implementation.as_ref(), &other);
                assert_eq!(other, expected, "{input:?}");
                same += usize::from(other == found);
                refused += usize::from(other.answer == Err(16));
            }
        }
    }
    assert!(same > 15_000 && refused > 1_000, "{same} and {refused}");
}

/// The writer gives 16 for word 5 equal to 1 behind 13, and what it writes else does not hang on it.
#[test]
fn word_5_is_looked_at_in_every_list_that_is_not_too_long() {
    let source = Source::new(82);
    let tuned = Tuned::default();
    let mut counts = [0; 3];
    for index in 0..4_000 {
        let Input::Write { mut words, bytes } = source.write(index) else {
            unreachable!("a list");
        };
        if words.len() < 6 {
            continue;
        }
        for sixth in [1, 2] {
            words[5] = sixth;
            let input = Input::Write {
                words: words.clone(),
                bytes: bytes.clone(),
            };
            let expected = match (words.len(), sixth) {
                (2_784.., _) => Some(13),
                (_, 1) => Some(16),
                (count, _) if bytes.len() < 512 * count.div_ceil(253) => Some(14),
                _ => None,
            };
            for implementation in [&Plain as &dyn Prints, &tuned] {
                let found = outcome(implementation, &input);
                assert_eq!(found.answer.err(), expected);
                let zeros = found.buffers[0].iter().all(|&byte| byte == 0);
                assert_eq!(zeros, expected.is_some() || bytes.is_empty());
            }
            counts[usize::from(expected.is_some()) + usize::from(expected == Some(16))] += 1;
        }
    }
    assert!(counts.iter().all(|&count| count > 500), "{counts:?}");
}

/// The count and the sum of a report are within these limits, and the sum is 0 where there are no cycles.
#[test]
fn every_report_meets_the_limits() {
    let source = Source::new(83);
    let (mut idle, mut timed) = (0, 0);
    for index in 0..20_000 {
        let input = source.input(index);
        let found = outcome(&Plain, &input);
        let numbers = match (&input, &found.answer) {
            (Input::Report { .. }, Ok(numbers)) => [numbers[0], numbers[1]],
            (Input::Listing { .. }, Ok(_)) => {
                let last = found.text.lines().last().expect("a line");
                let mut words = last.split(' ').filter_map(|word| word.parse().ok());
                [(); 2].map(|()| words.next().unwrap_or(0))
            }
            _ => continue,
        };
        let [cycles, ms] = numbers;
        assert!(cycles <= MOST_CYCLES && ms <= MOST_MS * cycles, "{input:?}");
        *(if cycles == 0 { &mut idle } else { &mut timed }) += 1;
    }
    assert!(idle > 500 && timed > 300, "{idle} and {timed}");
}

/// They are met with equality: 4,096 equal marks, and a counter that falls by one at each.
#[test]
fn the_limits_are_met() {
    each(|on| {
        let mut draft = Draft::new(2, 1, &[(0, &[1, 64]), (0, &[])]);
        (draft.opening, draft.closing) = (1, 1);
        let log = vec![1; 4_096];
        let ticks: Vec<u32> = (0..4_096).rev().collect();
        let (mut edits, mut rules) = (vec![7; 9], vec![7; 4_096]);
        let report = on.report(&draft.words(), &log, &ticks, &mut edits, &mut rules);
        let report = report.expect("not refused");
        assert_eq!(report.cycles, MOST_CYCLES);
        assert_eq!(report.ms, MOST_MS * MOST_CYCLES);
        assert_eq!(report.pace, Pace::Mean(4_294_967_295.0));
        let text = on.listing(&standard_input(&draft.words(), &log, &ticks));
        assert!(
            text.ends_with("pace cycles 4095 ms 17587891073025\n"),
            "{text}"
        );
    });
}
