//! Request (iv) of document 02: single sentences by hand on every implementation, and on many logs that the result is
//! a correct log, what was added to it and what was kept.

use compare::answer::Prints;
use compare::examples::marks::{either, nested};
use compare::generate::families::bench_g;
use compare::generate::file::standard_input;
use compare::generate::{Draft, Input, Source};
use compare::plain::{self, Grammar, Sets, START};
use compare::{examples, implementations};

/// Runs a test on every implementation.
fn each(test: impl Fn(&dyn Prints)) {
    for implementation in implementations::all() {
        test(implementation.as_ref());
    }
}

#[test]
fn every_implementation_meets_the_examples() {
    each(|on| assert_eq!(examples::marks::failures(on), Vec::<String>::new()));
}

// ---- By hand

/// The refusal in buffers of these lengths; after one all three are zero.
fn refused(on: &dyn Prints, words: &[u16], log: &[u16], rooms: [usize; 3]) -> Option<u16> {
    let [mut edits, mut rules, mut marks] = rooms.map(|room| vec![7; room]);
    let answer = on.marks(words, log, &mut edits, &mut rules, &mut marks);
    let mut all = edits.iter().chain(&rules).chain(&marks);
    assert!(answer.is_ok() || all.all(|&word| word == 0));
    answer.err()
}

/// "15 when the token buffer is too short for the full result", and no sooner.
#[test]
fn the_full_result_must_fit() {
    each(|on| {
        let g = bench_g().words();
        for (log, size) in [(&[1, 1, 2, 3, 4][..], 8), (&[1, 2, 4], 4), (&[4], 0)] {
            for room in 0..12 {
                let refusal = refused(on, &g, log, [30, 30, room]);
                assert_eq!(refusal, (room < size).then_some(15), "{log:?} in {room}");
            }
        }
    });
}

/// "It runs the parse itself, so 01's refusals come first": each log or grammar breaks one rule more than the one
/// before, from the last on, and the token buffer is too short for all of them.
#[test]
fn the_lowest_refusal_is_given_whatever_the_buffers() {
    each(|on| {
        let mut draft = nested();
        let refusals = |draft: &Draft, log: &[u16], edits: usize, rules: usize| {
            [0, 9].map(|marks| refused(on, &draft.words(), log, [edits, rules, marks]))
        };
        let ones = vec![1; 254];
        assert_eq!(refusals(&draft, &[1, 1], 6, 2), [Some(15), None]);
        assert_eq!(refusals(&draft, &[1, 1], 5, 2), [Some(12); 2]);
        assert_eq!(refusals(&draft, &[1, 1], 6, 1), [Some(12); 2]);
        // The expand of the last token would leave 257 symbols, and its rule number does not fit.
        assert_eq!(refusals(&draft, &ones, 0, 253), [Some(11); 2]);
        assert_eq!(refusals(&draft, &ones, 0, 252), [Some(12); 2]);
        let bad = [&ones[..], &[3]].concat();
        assert_eq!(refusals(&draft, &bad, 0, 0), [Some(10); 2]);
        draft.rules.push((0, vec![1]));
        assert_eq!(refusals(&draft, &bad, 0, 0), [Some(9); 2]);
        draft.unit = 2;
        assert_eq!(refusals(&draft, &bad, 0, 0), [Some(5); 2]);
    });
}

/// Ticks in ten ms are no obstacle, and are printed as they came: 02 (viii) refuses the pace alone.
#[test]
fn unit_1_is_no_obstacle() {
    each(|on| {
        let mut draft = either(3, 4);
        draft.unit = 1;
        assert_eq!(refused(on, &draft.words(), &[1, 2], [3, 1, 3]), None);
        if on.has_mark_lines() {
            let input = standard_input(&draft.words(), &[1, 2], &[10, 25]);
            let lines = "keep 1 10\nadd 3\nkeep 2 25\nmarks 3 added 1\n";
            assert_eq!(on.mark_lines(&input), lines);
        }
    });
}

// ---- On many logs

/// What `print_marks` says of a mark: its token, and its tick where it was kept.
type Line = (u16, Option<usize>);

/// The marks that are printed where the tick of each token is its place, and the numbers of the last line.
fn lines(words: &[u16], log: &[u16]) -> (Vec<Line>, [usize; 2]) {
    let ticks: Vec<u32> = (0..log.len() as u32).collect();
    let text = plain::mark_lines(&standard_input(words, log, &ticks));
    let mut lines = Vec::new();
    for line in text.lines() {
        let parts: Vec<&str> = line.split(' ').collect();
        let number = |at: usize| parts[at].parse::<usize>().expect("a number");
        match parts[0] {
            "keep" => lines.push((number(1) as u16, Some(number(2)))),
            "add" => lines.push((number(1) as u16, None)),
            _ => return (lines, [number(1), number(3)]),
        }
    }
    unreachable!("the last line has the numbers: {text}")
}

/// Whether START derives a log.
fn is_derivable(grammar: &Grammar, sets: &Sets, log: &[u16]) -> bool {
    // The top is the last.
    let mut stack = vec![START];
    for &token in log {
        loop {
            let Some(top) = stack.pop() else {
                return false;
            };
            if top == token {
                break;
            }
            let fits = |rule: &&plain::Rule| {
                rule.left == top && sets.first_of(&rule.right).contains(token)
            };
            match grammar.rules.iter().find(fits) {
                Some(rule) => stack.extend(rule.right.iter().rev()),
                None if sets.can_be_empty(&[top]) => {}
                None => return false,
            }
        }
    }
    sets.can_be_empty(&stack)
}

/// The string that the rules of the desk give, followed one nonterminal at a time from the left, and those that cost
/// nothing left out.
fn spelled(grammar: &Grammar, costs: &[u16], rules: &[u16], symbol: u16) -> Vec<u16> {
    let mut string = Vec::new();
    let mut open = vec![symbol];
    while let Some(symbol) = open.pop() {
        if symbol < 64 {
            string.push(symbol);
        } else if costs[usize::from(symbol) - 64] > 0 {
            let rule = usize::from(rules[usize::from(symbol) - 64]);
            open.extend(grammar.rules[rule].right.iter().rev());
        }
    }
    string
}

/// A log that is not refused, and whose result can be printed: its records and its result.
struct Marked {
    edits: Vec<[u16; 3]>,
    marks: Vec<u16>,
}

/// "Words of the token buffer behind the result become zero"; the other two buffers are left as the parser leaves
/// them, and so are the counts.
fn marked(words: &[u16], log: &[u16]) -> Option<Marked> {
    let needed = plain::needed_marks(words, log, 70_000).ok()?;
    let size = needed.tokens as usize;
    let edit_words = 3 * needed.parsed.edits as usize;
    if size > 65_536 || edit_words > 24_576 || needed.parsed.rules > 16_384 {
        return None;
    }
    let rooms = [edit_words + 2, needed.parsed.rules as usize + 1, size + 3];
    let [mut edits, mut rules, mut marks] = rooms.map(|room| vec![7; room]);
    let answer = plain::marks(words, log, &mut edits, &mut rules, &mut marks);
    assert_eq!(answer, Ok(needed));
    let (mut own_edits, mut own_rules) = (vec![7; rooms[0]], vec![7; rooms[1]]);
    let parsed = plain::parse(words, log, &mut own_edits, &mut own_rules);
    assert_eq!(parsed, Ok(needed.parsed));
    assert_eq!((&own_edits, &own_rules), (&edits, &rules));
    assert_eq!(marks[size..], [0; 3]);
    marks.truncate(size);
    edits.truncate(edit_words);
    let edits = edits.chunks(3).map(|r| [r[0], r[1], r[2]]).collect();
    Some(Marked { edits, marks })
}

/// "The result is a correct log of the grammar, and the cost of the tokens added is the cost of the symbols
/// inserted." Kept tokens are the log's in their order, all but those deleted; what stands before each is spelled by
/// the rules of the desk.
#[test]
fn results_are_correct_logs() {
    let source = Source::new(61);
    let (mut held, mut added, mut strings, mut again, mut longest) = (0, 0, 0, 0, 0);
    for index in 0..4_000 {
        let Input::Marks { words, tokens, .. } = source.marks(index) else {
            unreachable!("a log for request (iv)")
        };
        let Some(Marked { edits, marks }) = marked(&words, &tokens) else {
            continue;
        };
        let (grammar, sets) = plain::check(&words).expect("an accepted grammar");
        assert!(
            is_derivable(&grammar, &sets, &marks),
            "{words:?} {tokens:?}"
        );
        if marks.len() <= 4_096 {
            let (mut edits, mut rules) = (vec![0; 9], vec![0; 70_000]);
            match plain::parse(&words, &marks, &mut edits, &mut rules) {
                Ok(parsed) => assert_eq!(parsed.edits, 0, "{words:?} {tokens:?}"),
                // Too deep by the strings put in.
                Err(number) => assert_eq!(number, 11),
            }
            again += 1;
        }

        let (lines, numbers) = lines(&words, &tokens);
        let plus: Vec<u16> = lines
            .iter()
            .filter(|l| l.1.is_none())
            .map(|l| l.0)
            .collect();
        assert_eq!(numbers, [marks.len(), plus.len()]);
        assert!(lines.iter().map(|line| line.0).eq(marks.iter().copied()));
        let inserted: Vec<u16> = edits.iter().filter(|e| e[0] == 2).map(|e| e[2]).collect();
        assert_eq!(sets.cost_of(&plus), sets.cost_of(&inserted));

        let kept: Vec<usize> = lines.iter().filter_map(|line| line.1).collect();
        let is_kept = |&place: &usize| !edits.iter().any(|e| e[0] == 1 && e[1] == place as u16);
        assert!((0..tokens.len()).filter(is_kept).eq(kept.iter().copied()));
        assert!(lines
            .iter()
            .all(|line| line.1.is_none_or(|p| tokens[p] == line.0)));

        let n = usize::from(grammar.nonterminals);
        let (mut costs, mut rules) = (vec![0; n], vec![0; n]);
        plain::costs(&words, &mut costs, &mut rules).expect("an accepted grammar");
        let spell = |&symbol: &u16| spelled(&grammar, &costs, &rules, symbol);
        assert_eq!(inserted.iter().flat_map(spell).collect::<Vec<u16>>(), plus);

        held += 1;
        added += usize::from(!plus.is_empty());
        strings += usize::from(inserted.iter().any(|&symbol| symbol >= 64));
        longest = longest.max(marks.len());
    }
    assert!(held > 2_500 && again > 2_000, "{held} held, {again} again");
    assert!(added > 1_500 && strings > 1_000, "{added}, {strings}");
    assert!(longest > 50_000, "{longest}");
}

/// Where the log was correct, it is the result; and a result is its own.
#[test]
fn a_correct_log_stays_as_it_is() {
    let source = Source::new(62);
    let mut held = 0;
    for index in 0..1_000 {
        let Input::Marks { words, tokens, .. } = source.marks(index) else {
            unreachable!("a log for request (iv)")
        };
        let Some(first) = marked(&words, &tokens) else {
            continue;
        };
        if first.edits.is_empty() {
            assert_eq!(first.marks, tokens);
        }
        if let Some(second) = marked(&words, &first.marks) {
            assert_eq!(second.marks, first.marks);
            held += 1;
        }
    }
    assert!(held > 400, "{held}");
}
