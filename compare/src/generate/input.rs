//! One input of the comparison: what is called, with what, and the buffers lent to it.

use super::draft::Draft;
use super::log::{self, Sampler};
use super::random::Random;
use super::restarts::{self, Header};
use super::{buffers, chains, edges, families, file, grammar, units};
use crate::plain;

/// A call of one part of an implementation. Buffers carry their old content.
#[derive(Clone, Debug)]
pub enum Input {
    Read {
        file: Vec<u8>,
        words: Vec<u16>,
    },
    Write {
        words: Vec<u16>,
        bytes: Vec<u8>,
    },
    Check {
        words: Vec<u16>,
    },
    Costs {
        words: Vec<u16>,
        costs: Vec<u16>,
        rules: Vec<u16>,
    },
    Parse {
        words: Vec<u16>,
        tokens: Vec<u16>,
        edits: Vec<u16>,
        rules: Vec<u16>,
    },
    Marks {
        words: Vec<u16>,
        tokens: Vec<u16>,
        edits: Vec<u16>,
        rules: Vec<u16>,
        marks: Vec<u16>,
    },
    Report {
        words: Vec<u16>,
        tokens: Vec<u16>,
        ticks: Vec<u32>,
        edits: Vec<u16>,
        rules: Vec<u16>,
    },
    Listing {
        input: Vec<u8>,
    },
    MarkLines {
        input: Vec<u8>,
    },
}

/// Where inputs come from: a seed, and a stock of accepted grammars made from it.
pub struct Source {
    seed: u64,
    stock: Vec<Draft>,
}

/// How many accepted grammars stand in stock.
const STOCK: u64 = 500;

impl Source {
    pub fn new(seed: u64) -> Source {
        let mut stock = vec![families::bench_g()];
        for index in 1..STOCK {
            // The stock draws from its own seed, away from the inputs'.
            let mut random = Random::at(!seed, index);
            stock.push(grammar::accepted_of_any_size(&mut random));
        }
        Source { seed, stock }
    }

    pub(super) fn seed(&self) -> u64 {
        self.seed
    }

    /// The accepted grammars in stock.
    pub fn stock(&self) -> &[Draft] {
        &self.stock
    }

    /// The header of input, grammar or log number `index`: seven words for one in four.
    pub(super) fn header(&self, index: u64) -> Header {
        Header::any(&mut Random::at(self.seed.rotate_left(8), index))
    }

    /// Input number `index`; it does not depend on the inputs before it. One in five has a grammar of
    /// [`chains`], and one in 40 gets unit 1. Lists to be written, grammars for the desk and logs in marks alone are no such inputs:
    /// [`Source::write`], [`Source::desk`] and [`Source::marks`] have them, so that the others stay what they
    /// are.
    pub fn input(&self, index: u64) -> Input {
        let header = self.header(index);
        let mut random = Random::at(self.seed.rotate_left(56), index);
        let mut input = if random.chance(1, 5) {
            self.chained(&mut random, header)
        } else {
            self.unchained(index, header)
        };
        units::put(&mut random, &mut input);
        input
    }

    /// A check, a parse or a report for a grammar of [`chains`], some of them changed at some edge.
    fn chained(&self, random: &mut Random, header: Header) -> Input {
        let mut draft = chains::any(random);
        header.put(random, &mut draft);
        if random.chance(1, 10) {
            edges::change(random, &mut draft);
        }
        let words = draft.words();
        if random.chance(3, 5) {
            return Input::Check { words };
        }
        let tokens = self.log(random, &draft, plain::check(&words).is_ok());
        let (edits, rules) = lend(random, &words, &tokens);
        if random.chance(1, 2) {
            let ticks = restarts::ticks(random, &words, &tokens);
            return Input::Report {
                words,
                tokens,
                ticks,
                edits,
                rules,
            };
        }
        Input::Parse {
            words,
            tokens,
            edits,
            rules,
        }
    }

    /// Input number `index` with this header and without those grammars, which the stored calls have by
    /// themselves.
    pub fn unchained(&self, index: u64, header: Header) -> Input {
        let mut random = Random::at(self.seed, index);
        let random = &mut random;
        match random.below(20) {
            0..=2 => self.read(random, header),
            3..=6 => Input::Check {
                words: self.words(random, header),
            },
            7..=12 => {
                let (words, tokens) = self.words_and_log(random, header);
                let (edits, rules) = lend(random, &words, &tokens);
                Input::Parse {
                    words,
                    tokens,
                    edits,
                    rules,
                }
            }
            13..=17 => {
                let (words, tokens) = self.words_and_log(random, header);
                let (edits, rules) = lend(random, &words, &tokens);
                let mut ticks = restarts::ticks(random, &words, &tokens);
                if random.chance(1, 25) {
                    let more = tokens.len() + 1;
                    ticks.resize(random.pick(&[more, more.max(2) - 2, 0, more * 2]), 7);
                }
                Input::Report {
                    words,
                    tokens,
                    ticks,
                    edits,
                    rules,
                }
            }
            _ => Input::Listing {
                input: self.listing(random, header),
            },
        }
    }

    /// Standard input number `index` of the printing program.
    pub fn standard_input(&self, index: u64, header: Header) -> Vec<u8> {
        self.listing(&mut Random::at(self.seed, index), header)
    }

    /// A grammar as below; where the header has seven words, half of them are made for restarts.
    fn draft(&self, random: &mut Random, header: Header) -> Draft {
        if header == Header::Seven && random.chance(1, 2) {
            return restarts::draft(random);
        }
        let mut draft = self.any_draft(random);
        header.put(random, &mut draft);
        draft
    }

    /// An accepted grammar, a well-known family, or one without a plan.
    fn any_draft(&self, random: &mut Random) -> Draft {
        match random.below(20) {
            0 => families::bench_g(),
            1 => families::nest(random),
            2 => families::chain(random),
            3 => families::costly(random),
            4 | 5 => grammar::random_small(random),
            6 => {
                let (t, n) = (random.range(1, 6), random.range(1, 5));
                grammar::accepted(random, t, n, 20)
            }
            _ => self.stock[random.below(self.stock.len())].clone(),
        }
    }

    /// Grammar words for the check: half of them changed at some edge, once or twice. Of a header of seven words the
    /// last one and word 0 are changed, too.
    pub(super) fn words(&self, random: &mut Random, header: Header) -> Vec<u16> {
        let mut draft = self.draft(random, header);
        if random.chance(3, 5) {
            edges::change(random, &mut draft);
            if random.chance(1, 4) && !draft.rules.is_empty() && !draft.terminals.is_empty() {
                edges::change(random, &mut draft);
            }
        }
        if header == Header::Seven && random.chance(1, 4) {
            restarts::change(random, &mut draft);
        }
        let mut words = draft.words();
        if random.chance(1, 8) {
            edges::change_words(random, &mut words);
        }
        if header == Header::Seven && random.chance(1, 4) {
            restarts::change_words(random, &mut words);
        }
        words
    }

    /// Grammar words, mostly accepted ones, and a log for them.
    pub(super) fn words_and_log(
        &self,
        random: &mut Random,
        header: Header,
    ) -> (Vec<u16>, Vec<u16>) {
        if random.chance(1, 12) {
            let words = self.words(random, header);
            let t = match header {
                Header::Six => words.first().map_or(2, |&t| t.clamp(2, 64)),
                Header::Seven => restarts::t_of(&words),
            };
            let count = random.below(12);
            return (words, log::noise(random, t, count));
        }
        if random.chance(1, 15) {
            let mut draft = families::nest(random);
            header.put(random, &mut draft);
            return (draft.words(), deep_log(random, &draft));
        }
        let draft = self.draft(random, header);
        let words = draft.words();
        let mut tokens = self.log(random, &draft, plain::check(&words).is_ok());
        if header == Header::Seven {
            restarts::out_of_range(random, &mut tokens, draft.t());
        }
        (words, tokens)
    }

    /// A log of any kind for a grammar.
    pub(super) fn log(&self, random: &mut Random, draft: &Draft, accepted: bool) -> Vec<u16> {
        let t = draft.t();
        let target = match random.below(200) {
            0 => 4_096,
            1 => random.range(1_000, 4_200),
            2..=20 => random.range(100, 600),
            _ => random.below(60),
        };
        let height = random.pick(&[10, 60, 200, 250, 300]);
        let mut tokens = match random.below(10) {
            0 => log::noise(random, t, target),
            _ if !accepted => log::noise(random, t, target),
            1 => Vec::new(),
            kind => {
                let sampler = Sampler::new(draft);
                let correct = sampler.string(random, 64, target, height);
                match kind {
                    2..=4 => correct,
                    5 | 6 => log::damaged(random, &correct, t, 50),
                    7 => log::damaged(random, &correct, t, 250),
                    8 => {
                        // One edit at one place.
                        let at = random.below(correct.len() + 1);
                        let mut log = correct[..at].to_vec();
                        log.extend(log::damaged(random, &correct[at..], t, 30));
                        log
                    }
                    _ => correct[..random.below(correct.len() + 1)].to_vec(),
                }
            }
        };
        if target == 4_096 && t > 1 {
            let length = random.pick(&[4_095, 4_096, 4_096, 4_097]);
            tokens.resize(length, random.word(1, t - 1));
        }
        if random.chance(1, 40) && !tokens.is_empty() {
            let at = random.below(tokens.len());
            tokens[at] = random.pick(&[0, t, t + 1, 63, 64, u16::MAX]);
        }
        tokens
    }

    /// A file, good or damaged once or twice, and a word buffer around its length.
    fn read(&self, random: &mut Random, header: Header) -> Input {
        let words = self.file_words(random, header);
        let mut file = file::file_of(&words);
        for _ in 0..random.pick(&[0, 0, 1, 1, 1, 2]) {
            file::damage(random, &mut file);
        }
        let words = match random.below(3) {
            0 => buffers::ample(random, words.len() + 600),
            _ => buffers::around(random, words.len()),
        };
        Input::Read { file, words }
    }

    /// Words to stand in a file: grammar words, or any words in number around block edges.
    fn file_words(&self, random: &mut Random, header: Header) -> Vec<u16> {
        if random.chance(1, 2) {
            let words = self.words(random, header);
            if (1..=2_783).contains(&words.len()) {
                return words;
            }
        }
        let blocks = random.range(1, 11);
        let count = match random.below(4) {
            0 => blocks * 253,
            1 => (blocks - 1) * 253 + 1,
            2 => blocks * 253 - 1,
            _ => random.range(1, blocks * 253),
        };
        let most = random.pick(&[1, 255, u16::MAX]);
        (0..count).map(|_| random.word(0, most)).collect()
    }

    /// Standard input of the printing program, whole or damaged.
    fn listing(&self, random: &mut Random, header: Header) -> Vec<u8> {
        let (words, tokens) = if random.chance(1, 30) {
            // Rules or edits that outrun what the program lends.
            let mut draft = families::chain(random);
            header.put(random, &mut draft);
            let t = draft.t();
            (draft.words(), log::noise(random, t, 4_096))
        } else {
            self.words_and_log(random, header)
        };
        self.as_input(random, words, tokens)
    }

    /// Words and a log as standard input, with ticks; perhaps damaged.
    pub(super) fn as_input(
        &self,
        random: &mut Random,
        mut words: Vec<u16>,
        tokens: Vec<u16>,
    ) -> Vec<u8> {
        if words.is_empty() || words.len() > 2_783 {
            words = vec![1, 1, 1, 0, 0, 0, 0, 0, 0, 0];
        }
        let ticks = restarts::ticks(random, &words, &tokens);
        let mut input = file::standard_input(&words, &tokens, &ticks);
        match random.below(12) {
            // The block count.
            0 => {
                let wrong: u16 = random.pick(&[0, 1, 2, 11, 12, 256, u16::MAX]);
                input[..2].copy_from_slice(&wrong.to_le_bytes());
            }
            // Cut short anywhere, in the count, in the blocks, in the last entry.
            1 => input.truncate(random.below(input.len() + 1)),
            2 => input.truncate(random.below(4)),
            3 => input.truncate(2 + random.pick(&[0, 1, 511, 512, 513])),
            4 => input.truncate(input.len() - random.below(7).min(input.len())),
            5 => input.extend(vec![1; random.below(7)]),
            // The blocks damaged.
            6 | 7 => {
                let blocks = 512 * words.len().div_ceil(253);
                let mut damaged = input[2..2 + blocks].to_vec();
                file::damage(random, &mut damaged);
                input.splice(2..2 + blocks, damaged);
            }
            _ => {}
        }
        input
    }
}

/// Openers in number around the depth that meets refusal 11, with some closers and noise, for
/// a grammar of [`families::nest`].
fn deep_log(random: &mut Random, draft: &Draft) -> Vec<u16> {
    let count =
        |symbol| move |(_, right): &(u16, Vec<u16>)| right.iter().filter(|&&s| s == symbol).count();
    let closers = draft.rules.iter().map(count(2)).max().unwrap_or(1);
    let pads = draft.rules.iter().map(count(3)).max().unwrap_or(0);
    let full = (253 - pads) / closers;
    let depth = match random.below(4) {
        0 | 1 => random.range(full - 2, full + 2),
        2 => random.range(0, full),
        _ => random.range(full, full + 40),
    };
    let mut log = vec![1; depth];
    if random.chance(1, 2) {
        log.extend(vec![2; random.below(depth * closers + 2)]);
    }
    if random.chance(1, 3) {
        log = log::damaged(random, &log, draft.t(), 20);
    }
    log
}

/// Edit and rule buffers around what a parse of this log needs.
fn lend(random: &mut Random, words: &[u16], tokens: &[u16]) -> (Vec<u16>, Vec<u16>) {
    const AMPLE: usize = 70_000;
    let needed = plain::needed(words, tokens, AMPLE);
    let (edits, rules) = (3 * needed.edits as usize, needed.rules as usize);
    match random.below(4) {
        0 => (
            buffers::around(random, edits),
            buffers::ample(random, rules),
        ),
        1 => (
            buffers::ample(random, edits),
            buffers::around(random, rules),
        ),
        2 => (
            buffers::around(random, edits),
            buffers::around(random, rules),
        ),
        _ => (buffers::ample(random, edits), buffers::ample(random, rules)),
    }
}
