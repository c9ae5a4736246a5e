//! Request (ii) of document 02 beside the rule of document 01 that it overrules. A run by 01's rule stands
//! here, written for this test; what the request says of the two is tried on many logs.

use compare::generate::log::{damaged, noise, Sampler};
use compare::generate::{Draft, Random, Source};
use compare::plain::{self, Grammar, Sets, END, START};

const DELETE: u16 = 1;
const INSERT: u16 = 2;

/// Kind, place and symbol.
type Record = [u16; 3];

/// What a run by 01's rule comes to: the records of each correction by itself.
#[derive(Default)]
struct Earlier {
    moves: u64,
    rules: Vec<u16>,
    corrections: Vec<Vec<Record>>,
}

/// The run of a log by 01's rule, where no expand is refused with 11.
fn earlier(grammar: &Grammar, sets: &Sets, log: &[u16]) -> Option<Earlier> {
    let mut run = Earlier::default();
    // The top is the last.
    let mut stack = vec![END, START];
    let mut place = 0;
    while let Some(&top) = stack.last() {
        let token = *log.get(place).unwrap_or(&END);
        let read: Vec<u16> = stack.iter().rev().copied().collect();
        if !sets.first_of(&read).contains(token) {
            let (r, i) = hit(grammar, sets, &read, log, place);
            let deletes = (place..r).map(|p| [DELETE, p as u16, log[p]]);
            let inserts = read[..i].iter().map(|&symbol| [INSERT, r as u16, symbol]);
            let records: Vec<Record> = deletes.chain(inserts).collect();
            run.moves += records.len() as u64;
            run.corrections.push(records);
            stack.truncate(stack.len() - i);
            place = r;
            continue;
        }
        stack.pop();
        run.moves += 1;
        if top == token {
            place += 1;
        } else if sets.first_of_symbol(top).contains(token) {
            let fits = |rule: &plain::Rule| sets.first_of(&rule.right).contains(token);
            let mut rules = grammar.rules.iter();
            let number = rules.position(|rule| rule.left == top && fits(rule))?;
            stack.extend(grammar.rules[number].right.iter().rev());
            run.rules.push(number as u16);
        }
        if stack.len() > 256 {
            return None;
        }
    }
    Some(run)
}

/// The least r, and for it how many symbols stand above the one that fits.
fn hit(grammar: &Grammar, sets: &Sets, stack: &[u16], log: &[u16], place: usize) -> (usize, usize) {
    for r in place..log.len() {
        let reliability = u64::from(grammar.reliability[usize::from(log[r])]);
        let useful = |i: &usize| {
            sets.first_of_symbol(stack[*i]).contains(log[r])
                && sets.cost_of(&stack[..*i]).expect("a cost") < reliability
        };
        if let Some(i) = (0..stack.len()).find(useful) {
            return (r, i);
        }
    }
    (log.len(), stack.len() - 1)
}

/// The first and the last place of each clean cycle.
fn clean_cycles(grammar: &Grammar, log: &[u16], records: &[Record]) -> Vec<(usize, usize)> {
    let deleted = |place: usize| {
        records
            .iter()
            .any(|r| r[0] == DELETE && r[1] == place as u16)
    };
    let is_mark = |token: u16| token == grammar.opening || token == grammar.closing;
    let marks: Vec<usize> = (0..log.len())
        .filter(|&place| is_mark(log[place]) && !deleted(place))
        .collect();
    let pairs = marks.windows(2).map(|pair| (pair[0], pair[1]));
    let clean = |&(a, b): &(usize, usize)| {
        let edited = |record: &Record| (a + 1..=b).contains(&usize::from(record[1]));
        log[a] == grammar.opening && log[b] == grammar.closing && !records.iter().any(edited)
    };
    pairs.filter(clean).collect()
}

/// What the logs met, so that the test shows something.
#[derive(Default)]
struct Met {
    corrections: usize,
    dropped: usize,
    /// Corrections that drop all that they pop, and such that drop above an insert.
    only_drops: usize,
    alternating: usize,
    /// Clean cycles, and those that inserts alone spoil.
    cycles: usize,
    spoiled: usize,
}

/// Some logs of a grammar, most of them not correct.
fn logs(random: &mut Random, draft: &Draft) -> Vec<Vec<u16>> {
    let correct = Sampler::new(draft).string(random, 64, 40, 100);
    vec![
        damaged(random, &correct, draft.t(), 60),
        damaged(random, &correct, draft.t(), 300),
        noise(random, draft.t(), 20),
        correct[..random.below(correct.len() + 1)].to_vec(),
    ]
}

/// "A popped symbol that can be empty becomes a drop move, with no edit record. Costs, r and i stay as they
/// are, and so do the move counts." "A correction still leaves at least one record." And the same cycles are
/// clean, over the shorter list as over the longer one.
#[test]
fn only_the_records_of_what_can_be_empty_are_gone() {
    let source = Source::new(31);
    let mut random = Random::new(32);
    let mut met = Met::default();
    for round in 0..1_500 {
        let mut draft = source.stock()[round % source.stock().len()].clone();
        if draft.opening == 0 && draft.t() > 1 {
            draft.opening = random.word(1, draft.t() - 1);
            draft.closing = random.word(1, draft.t() - 1);
        }
        // Unit 1 is not timed.
        draft.unit = 0;
        let words = draft.words();
        let (grammar, sets) = plain::check(&words).expect("an accepted grammar");
        for log in logs(&mut random, &draft) {
            if let Some(run) = earlier(&grammar, &sets, &log) {
                compare_with(&grammar, &sets, &words, &log, &run, &mut met);
            }
        }
    }
    assert!(
        met.corrections > 5_000 && met.dropped > 2_000,
        "corrections that drop"
    );
    assert!(
        met.only_drops > 300 && met.alternating > 300,
        "of both kinds"
    );
    assert!(
        met.cycles > 1_000 && met.spoiled > 300,
        "cycles of both kinds"
    );
}

fn compare_with(
    grammar: &Grammar,
    sets: &Sets,
    words: &[u16],
    log: &[u16],
    run: &Earlier,
    met: &mut Met,
) {
    let mut shorter: Vec<Record> = Vec::new();
    for records in &run.corrections {
        let kept = |r: &&Record| r[0] == DELETE || !sets.can_be_empty(&[r[2]]);
        let left: Vec<Record> = records.iter().filter(kept).copied().collect();
        assert!(!left.is_empty(), "a correction leaves a record");
        let inserted = left.iter().any(|record| record[0] == INSERT);
        let drops = records.len() - left.len();
        met.corrections += 1;
        met.dropped += drops;
        met.only_drops += usize::from(drops > 0 && !inserted);
        met.alternating += usize::from(drops > 0 && inserted);
        shorter.extend(left);
    }
    let (mut edits, mut rules) = (vec![0; 3 * shorter.len()], vec![0; run.rules.len()]);
    let ticks = vec![0; log.len()];
    let parsed =
        plain::parse(words, log, &mut edits, &mut rules).expect("room for the shorter list");
    assert_eq!((parsed.moves, &edits), (run.moves, &shorter.concat()));
    assert_eq!(rules, run.rules);
    let report = plain::report(words, log, &ticks, &mut edits, &mut rules).expect("no refusal");
    let cycles = clean_cycles(grammar, log, &run.corrections.concat());
    assert_eq!(cycles, clean_cycles(grammar, log, &shorter));
    assert_eq!(report.cycles, cycles.len() as u64);
    met.cycles += cycles.len();
    let deletes: Vec<Record> = shorter
        .into_iter()
        .filter(|record| record[0] == DELETE)
        .collect();
    met.spoiled += clean_cycles(grammar, log, &deletes).len() - cycles.len();
}
