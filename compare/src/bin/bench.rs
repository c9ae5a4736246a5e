//! Measures the implementations beside each other: `bench [SEED]`.
//!
//! Every figure is a median over repeated runs; where a row covers several logs, it shows the
//! median over the logs and in brackets the least and the largest. Ratios are taken log by
//! log. Before a log is measured, all implementations are held against each other on it:
//! answers and every word of every buffer. The last rows, of calls that come alone, have one run of each
//! sample instead.

use compare::answer::{
    Implementation, LISTING_EDITS, LISTING_MARKS, LISTING_RULES, LISTING_WORDS, LONGEST_FILE,
    MOST_WORDS,
};
use compare::generate::log::{self, Sampler};
use compare::generate::{chains, families, file, grammar, restarts, Draft, Random};
use compare::implementations::{self, PLAIN, TUNED};
use std::hint::black_box;
use std::time::Instant;

/// How many logs of each kind.
const LOGS: usize = 16;
/// How many samples of each figure.
const SAMPLES: usize = 31;
/// As many words as costs or rules take at most.
const MOST_NONTERMINALS: usize = 64;
/// How many calls make one sample: a read or check is repeated, a log is run once, so that
/// the processor's branch prediction does not learn it by heart.
const CALLS: u32 = 50;
const ONCE: u32 = 1;
/// How many grammars are between one lone call and the next.
const OTHERS: usize = 4;

fn main() {
    let seed = std::env::args().nth(1).and_then(|s| s.parse().ok());
    let seed = seed.unwrap_or(1);
    let bench = Bench {
        columns: implementations::measured(),
    };
    let mut random = Random::new(seed);
    let g = families::bench_g();
    let large = grammar::large(&mut random, 200);
    println!(
        "seed {seed}; large grammar: 64 nonterminals, {} rules",
        large.rules.len()
    );
    println!(
        "lent: {LISTING_WORDS} words, {LISTING_EDITS} edit words, {LISTING_RULES} rule words, \
         for marks {LISTING_MARKS} words more, \
         and to the desk {MOST_NONTERMINALS} words twice, with the content of the run before; \
         clearing behind the last word written is part of every figure"
    );
    bench.read_and_check("G", &g);
    bench.read_and_check("large", &large);
    // Draws of its own, so that the logs below are those of other runs with the seed.
    bench.write(&mut Random::new(!seed));
    bench.logs(&mut random, "G", &g);
    bench.logs(&mut random, "large", &large);
    bench.growth(&mut random, "G", &g);
    bench.depth();
    // Draws of its own too.
    bench.marks(&mut Random::new(seed.rotate_left(32)));
    // And these.
    bench.restarts(&mut Random::new(seed.rotate_left(48)));
    let mut random = Random::new(seed.rotate_left(16));
    bench.rounds(&mut random, &large);
    bench.lone_calls(&mut random, &large);
}

/// A log with its ticks.
type Log = (Vec<u16>, Vec<u32>);

/// The edit words and the rule words that a call is lent.
type Lent = (Vec<u16>, Vec<u16>);

/// The words of a grammar and a log, for a call that comes alone.
type Lone = (Vec<u16>, Vec<u16>);

/// As many as the printing program lends, with old content.
fn lent() -> Lent {
    (vec![0xAAAA; LISTING_EDITS], vec![0xAAAA; LISTING_RULES])
}

/// The columns of the table.
struct Bench {
    columns: Vec<Box<dyn Implementation>>,
}

impl Bench {
    fn read_and_check(&self, name: &str, draft: &Draft) {
        let words = draft.words();
        let file = file::file_of(&words);
        let mut lent = vec![0; LISTING_WORDS];
        self.head(&format!("grammar {name}: {} words, ns a call", words.len()));
        self.row("read", &[file], (CALLS, 1.0), |column, file| {
            let _ = black_box(column.read(black_box(file), &mut lent));
        });
        self.row("check", &[words], (CALLS, 1.0), |column, words| {
            let _ = black_box(column.check(black_box(words)));
        });
        self.costs_row(&draft.words());
    }

    /// The check where much is found late. In a chain "down", of 8 to 64 nonterminals, each rule mentions what
    /// the next one makes known; "up" is the same chain in the opposite numbering, rules by left side. In a
    /// "follow chain" all can be empty, and FOLLOW grows by a token at each nonterminal but the last few. At
    /// last the large grammar with more rules, up to 256.
    fn rounds(&self, random: &mut Random, large: &Draft) {
        self.head("chains, and 256 rules: ns a call");
        for n in [8, 16, 32, 64] {
            self.check_row(&format!("check chain {n} down"), &chains::down(n));
            self.check_row(&format!("check chain {n} up"), &chains::up(n));
        }
        let (down, up) = (chains::follow_down(64), chains::follow_up(64));
        self.check_row("check follow chain 64 down", &down);
        self.check_row("check follow chain 64 up", &up);
        let mut full = large.clone();
        grammar::fill_up(random, &mut full, 256);
        self.check_row(&format!("check {} rules", full.rules.len()), &full);
    }

    /// The check of one accepted grammar, again and again.
    fn check_row(&self, name: &str, draft: &Draft) {
        let words = draft.words();
        self.accept(&words);
        self.row(name, &[words], (CALLS, 1.0), |column, words| {
            let _ = black_box(column.check(black_box(words)));
        });
    }

    /// Calls that come alone: one check of a grammar, and one parse of a correct log of 4,096 tokens, when the
    /// processor has done other work since it last met that grammar, so that neither its branch prediction nor
    /// its nearest caches know it. Each sample is one call. Before each, every column checks and parses
    /// [`OTHERS`] large grammars, beginning with the column that is measured next, so that each has its own
    /// work behind it by as much as the others; which grammars changes from sample to sample. For "large" each
    /// sample is another grammar too, with its rules, nonterminals and terminals in another order, and for G
    /// another log. The row shows the median over the samples and in brackets the least and the largest;
    /// ratios are taken sample by sample.
    fn lone_calls(&self, random: &mut Random, large: &Draft) {
        let others = lone_mixed(random, large, 2 * OTHERS);
        let g = families::bench_g();
        let sampler = Sampler::new(&g);
        let log = |_| (g.words(), sampler.exact(random, 4_096));
        let of_g: Vec<Lone> = (0..SAMPLES).map(log).collect();
        let of_large = lone_mixed(random, large, SAMPLES);
        for (name, calls) in [("G", of_g), ("large", of_large)] {
            for (words, tokens) in others.iter().chain(&calls) {
                self.accept(words);
                self.agree(|column, (edits, rules)| {
                    format!("{:?}", column.parse(words, tokens, edits, rules))
                });
            }
            self.head(&format!(
                "grammar {name}: a call alone, behind other work; check ns a call, parse ns a token"
            ));
            self.lone_row(
                "check lone",
                &calls,
                &others,
                1.0,
                |column, (words, _), _| {
                    let _ = black_box(column.check(black_box(words)));
                },
            );
            self.lone_row("parse lone", &calls, &others, 4_096.0, lone_parse);
        }
    }

    /// One sample for each call, each behind other work of all columns.
    fn lone_row(
        &self,
        name: &str,
        calls: &[Lone],
        others: &[Lone],
        parts: f64,
        mut call: impl FnMut(&dyn Implementation, &Lone, &mut Lent),
    ) {
        let mut buffers = lent();
        let mut figures = vec![Vec::new(); self.columns.len()];
        for (number, own) in calls.iter().enumerate() {
            for (at, figures) in figures.iter_mut().enumerate() {
                let (before, behind) = self.columns.split_at(at);
                for column in behind.iter().chain(before) {
                    for other in others.iter().cycle().skip(number).take(OTHERS) {
                        let _ = black_box(column.check(black_box(&other.0)));
                        lone_parse(column.as_ref(), other, &mut buffers);
                    }
                }
                let column = self.columns[at].as_ref();
                let time = time_of(ONCE, || call(column, own, &mut buffers));
                figures.push(time / parts);
            }
        }
        self.print(name, &figures);
    }

    /// What the desk is given, in two buffers of as many words as a grammar wants at most.
    fn costs_row(&self, words: &[u16]) {
        let old = || [(); 2].map(|()| vec![0xAAAA; MOST_NONTERMINALS]);
        let mut outcomes = self.columns.iter().map(|column| {
            let [mut costs, mut rules] = old();
            let answer = column.costs(words, &mut costs, &mut rules);
            (answer, costs, rules)
        });
        let first = outcomes.next().expect("a column");
        assert!(outcomes.all(|other| other == first), "the columns differ");
        let [mut costs, mut rules] = old();
        self.row("costs", &[words], (CALLS, 1.0), |column, words| {
            let answer = column.costs(black_box(words), &mut costs, &mut rules);
            black_box(answer).expect("a grammar that is not refused");
        });
    }

    /// Write of G's words and of as many as are written, into as many bytes as a file has at most.
    fn write(&self, random: &mut Random) {
        self.head(&format!("write into {LONGEST_FILE} bytes, ns a call"));
        let mut any: Vec<u16> = (0..MOST_WORDS).map(|_| random.bits() as u16).collect();
        // Unit 1 would be refused.
        any[5] = 0;
        for words in [families::bench_g().words(), any] {
            let mut outcomes = self.columns.iter().map(|column| {
                let mut bytes = vec![0xAA; LONGEST_FILE];
                (column.write(&words, &mut bytes), bytes)
            });
            let first = outcomes.next().expect("a column");
            assert!(outcomes.all(|other| other == first), "the columns differ");
            let mut lent = vec![0xAA; LONGEST_FILE];
            let name = format!("write {} words", words.len());
            self.row(&name, &[words], (CALLS, 1.0), |column, words| {
                let answer = column.write(black_box(words), &mut lent);
                black_box(answer).expect("a list that is not refused");
            });
        }
    }

    /// Parse and pace on correct, damaged and noise logs of 4,096 tokens.
    fn logs(&self, random: &mut Random, name: &str, draft: &Draft) {
        self.head(&format!(
            "grammar {name}: {LOGS} logs of 4,096 tokens, ns a token"
        ));
        for (kind, logs) in kinds_of_logs(random, draft, 4_096) {
            self.parse_row(&format!("parse {kind}"), draft, &logs);
            self.report_row(&format!("pace {kind}"), draft, &logs);
        }
    }

    /// Pace on correct logs of H, whose header has seven words, with restarts inside some cycles and between them;
    /// the counter starts at zero at each.
    fn restarts(&self, random: &mut Random) {
        let h = families::bench_h();
        let sampler = Sampler::new(&h);
        let mut logs = Vec::new();
        for _ in 0..LOGS {
            let tokens = sampler.exact(random, 4_096);
            let mut ticks = log::ticks(random, 4_096);
            restarts::restarted(&mut ticks, &tokens, 4);
            logs.push((tokens, ticks));
        }
        self.head(&format!(
            "grammar H: {LOGS} logs of 4,096 tokens with restarts, ns a token"
        ));
        self.report_row("pace restarts", &h, &logs);
    }

    /// How the cost grows with the number of tokens.
    fn growth(&self, random: &mut Random, name: &str, draft: &Draft) {
        self.head(&format!(
            "grammar {name}: {LOGS} logs of n tokens, ns a token"
        ));
        for n in [512, 1_024, 2_048, 4_096] {
            for (kind, logs) in kinds_of_logs(random, draft, n) {
                self.parse_row(&format!("parse {kind} n {n}"), draft, &logs);
            }
        }
    }

    /// How the cost grows with the depth of the stack: brackets 1 and 2 nested d deep, and
    /// between them d times 3, which is of use nowhere, so that every search looks through
    /// the whole stack.
    fn depth(&self) {
        let rules: [(u16, &[u16]); 4] = [(0, &[65, 64]), (0, &[]), (1, &[1, 66, 2]), (2, &[65])];
        let mut draft = Draft::new(4, 3, &rules);
        draft.rules.push((2, Vec::new()));
        draft.terminals = vec![(0, 0), (20, 60), (3, 9), (1, 60_000)];
        self.head("nested brackets: logs of 4,096 tokens, ns a token");
        for depth in [1, 4, 16, 64, 120] {
            let nested: Vec<u16> = [vec![1; depth], vec![2; depth]].concat();
            let foreign: Vec<u16> = [vec![1; depth], vec![3; depth], vec![2; depth]].concat();
            for (kind, unit) in [("correct", nested), ("foreign", foreign)] {
                let tokens: Vec<u16> = unit.iter().copied().cycle().take(4_096).collect();
                let logs = [(tokens, vec![0; 4_096])];
                self.parse_row(&format!("parse {kind} depth {depth}"), &draft, &logs);
            }
        }
    }

    /// The marks of correct and of faulty logs of G beside the parse, and of short logs with long results.
    fn marks(&self, random: &mut Random) {
        let g = families::bench_g();
        self.head(&format!(
            "grammar G: marks of {LOGS} logs of 4,096 tokens, ns a token of the log"
        ));
        for (kind, logs) in kinds_of_logs(random, &g, 4_096) {
            if kind != "noise" {
                self.parse_row(&format!("parse {kind}"), &g, &logs);
                self.marks_row(&format!("marks {kind}"), &g, &logs, 4_096);
            }
        }
        let long = long_part();
        self.head("10,000 tokens between 2 and 3: marks, ns a token of the result");
        for times in [1, 2, 4, 6] {
            let tokens: Vec<u16> = [2, 3].repeat(times);
            let logs = [(tokens, Vec::new())];
            let size = 10_002 * times;
            self.marks_row(&format!("marks {size} tokens"), &long, &logs, size);
        }
    }

    fn marks_row(&self, name: &str, draft: &Draft, logs: &[Log], parts: usize) {
        let words = draft.words();
        let (mut edits, mut rules) = lent();
        let mut marks = vec![0xAAAA; LISTING_MARKS];
        for (tokens, _) in logs {
            self.agree(|column, (edits, rules)| {
                let mut marks = vec![0xAAAA; LISTING_MARKS];
                let answer = column.marks(&words, tokens, edits, rules, &mut marks);
                format!("{answer:?} {marks:?}")
            });
        }
        self.row(name, logs, (ONCE, parts as f64), |column, (tokens, _)| {
            let answer = column.marks(
                black_box(&words),
                tokens,
                &mut edits,
                &mut rules,
                &mut marks,
            );
            black_box(answer).expect("a log that is not refused");
        });
    }

    fn parse_row(&self, name: &str, draft: &Draft, logs: &[Log]) {
        let words = draft.words();
        let (mut edits, mut rules) = lent();
        for (tokens, _) in logs {
            self.agree(|column, (edits, rules)| {
                format!("{:?}", column.parse(&words, tokens, edits, rules))
            });
        }
        self.row(
            name,
            logs,
            (ONCE, logs[0].0.len() as f64),
            |column, (tokens, _)| {
                let answer = column.parse(black_box(&words), tokens, &mut edits, &mut rules);
                black_box(answer).expect("a log that is not refused");
            },
        );
    }

    fn report_row(&self, name: &str, draft: &Draft, logs: &[Log]) {
        let words = draft.words();
        let (mut edits, mut rules) = lent();
        for (tokens, ticks) in logs {
            self.agree(|column, (edits, rules)| {
                format!("{:?}", column.report(&words, tokens, ticks, edits, rules))
            });
        }
        self.row(
            name,
            logs,
            (ONCE, logs[0].0.len() as f64),
            |column, (tokens, ticks)| {
                let answer =
                    column.report(black_box(&words), tokens, ticks, &mut edits, &mut rules);
                black_box(answer).expect("a log that is not refused");
            },
        );
    }

    /// Stops where a column refuses a grammar, or where two give other costs or cheapest rules.
    fn accept(&self, words: &[u16]) {
        let mut outcomes = self.columns.iter().map(|column| {
            column.check(words).expect("an accepted grammar");
            let [mut costs, mut rules] = [(); 2].map(|()| vec![0xAAAA; MOST_NONTERMINALS]);
            let answer = column.costs(words, &mut costs, &mut rules);
            (answer, costs, rules)
        });
        let first = outcomes.next().expect("a column");
        assert!(outcomes.all(|other| other == first), "the columns differ");
    }

    /// Stops where two columns answer differently or leave different words.
    fn agree(&self, mut call: impl FnMut(&dyn Implementation, &mut Lent) -> String) {
        let mut outcomes = self.columns.iter().map(|column| {
            let mut lent = lent();
            let answer = call(column.as_ref(), &mut lent);
            (answer, lent)
        });
        let first = outcomes.next().expect("a column");
        assert!(outcomes.all(|other| other == first), "the columns differ");
    }

    /// The ratios of a row: which column over which.
    fn ratios(&self) -> Vec<(usize, usize)> {
        let proved = (TUNED + 1..self.columns.len()).flat_map(|at| [(at, TUNED), (at, PLAIN)]);
        std::iter::once((PLAIN, TUNED)).chain(proved).collect()
    }

    fn head(&self, title: &str) {
        println!("\n{title}");
        print!("{:<28}", "");
        for column in &self.columns {
            print!("{:>24}", column.name());
        }
        for (over, under) in self.ratios() {
            let names = [over, under].map(|at| self.columns[at].name());
            print!("{:>24}", names.join("/"));
        }
        println!();
    }

    /// Measures every column on every input and prints one row. A sample goes through all
    /// inputs before it comes to the first again.
    fn row<I>(
        &self,
        name: &str,
        inputs: &[I],
        (calls, parts): (u32, f64),
        mut call: impl FnMut(&dyn Implementation, &I),
    ) {
        let mut samples = vec![vec![Vec::new(); inputs.len()]; self.columns.len()];
        for _ in 0..SAMPLES {
            for (column, samples) in self.columns.iter().zip(&mut samples) {
                for (input, samples) in inputs.iter().zip(samples) {
                    samples.push(time_of(calls, || call(column.as_ref(), input)) / parts);
                }
            }
        }
        let figures: Vec<Vec<f64>> = samples
            .iter_mut()
            .map(|samples| samples.iter_mut().map(|s| median(s)).collect())
            .collect();
        self.print(name, &figures);
    }

    /// One row: the figures of each column, and their ratios one by one.
    fn print(&self, name: &str, figures: &[Vec<f64>]) {
        print!("{name:<28}");
        for figures in figures {
            print!("{:>24}", spread(figures));
        }
        for (over, under) in self.ratios() {
            let pairs = figures[over].iter().zip(&figures[under]);
            let ratios: Vec<f64> = pairs.map(|(a, b)| a / b).collect();
            print!("{:>24}", spread(&ratios));
        }
        println!();
    }
}

/// Correct logs of 4,096 tokens, each with the grammar in other numbers and another order, see
/// [`chains::mixed`], so that no two samples have the same words.
fn lone_mixed(random: &mut Random, draft: &Draft, count: usize) -> Vec<Lone> {
    let sampler = Sampler::new(draft);
    let mut calls = Vec::new();
    for _ in 0..count {
        let log = sampler.exact(random, 4_096);
        let (mixed, tokens) = chains::mixed(random, draft);
        let log = log.iter().map(|&t| tokens[usize::from(t)]).collect();
        calls.push((mixed.words(), log));
    }
    calls
}

/// A parse whose answer is of no interest.
fn lone_parse(column: &dyn Implementation, (words, tokens): &Lone, (edits, rules): &mut Lent) {
    let _ = black_box(column.parse(black_box(words), tokens, edits, rules));
}

/// Between 2 and 3 stands 65, which is 10,000 tokens of 1, any number of times.
fn long_part() -> Draft {
    let rules: [(u16, &[u16]); 8] = [
        (0, &[2, 65, 3, 64]),
        (0, &[]),
        (1, &[66; 8]),
        (2, &[67; 5]),
        (3, &[68; 5]),
        (4, &[69; 5]),
        (5, &[70; 5]),
        (6, &[1; 2]),
    ];
    let mut draft = Draft::new(4, 7, &rules);
    draft.terminals[3].1 = 60_000;
    draft
}

/// Correct logs, logs with 5 % of the places damaged, and noise.
fn kinds_of_logs(random: &mut Random, draft: &Draft, n: usize) -> [(&'static str, Vec<Log>); 3] {
    let sampler = Sampler::new(draft);
    let t = draft.t();
    let mut correct = Vec::new();
    let mut damaged = Vec::new();
    let mut noise = Vec::new();
    for _ in 0..LOGS {
        let log = sampler.exact(random, n);
        // Some places are lost by damage: draw more, then cut.
        let more = sampler.string(random, 64, n + n / 4, 200);
        let mut worse = log::damaged(random, &more, t, 50);
        worse.truncate(n);
        assert_eq!(worse.len(), n, "a damaged log of full length");
        let any = log::noise(random, t, n);
        for (logs, tokens) in [
            (&mut correct, log),
            (&mut damaged, worse),
            (&mut noise, any),
        ] {
            logs.push((tokens, log::ticks(random, n)));
        }
    }
    [("correct", correct), ("damaged", damaged), ("noise", noise)]
}

/// The mean time in ns of so many calls.
fn time_of(calls: u32, mut call: impl FnMut()) -> f64 {
    let start = Instant::now();
    (0..calls).for_each(|_| call());
    start.elapsed().as_nanos() as f64 / f64::from(calls)
}

fn median(figures: &mut [f64]) -> f64 {
    figures.sort_by(f64::total_cmp);
    figures[figures.len() / 2]
}

/// The median with the least and the largest.
fn spread(figures: &[f64]) -> String {
    let mut sorted = figures.to_vec();
    let middle = median(&mut sorted);
    if sorted.len() == 1 {
        return format!("{middle:.2}");
    }
    let (least, most) = (sorted[0], sorted[sorted.len() - 1]);
    if most >= 1_000.0 {
        return format!("{middle:.0} [{least:.0}, {most:.0}]");
    }
    format!("{middle:.2} [{least:.2}, {most:.2}]")
}
