//! Grammars for the setup desk, request (iii) of document 02, and two buffers for each.

use super::input::{Input, Source};
use super::random::Random;
use super::restarts::{self, Header};
use super::{buffers, chains, edges, grammar, ties};

impl Source {
    /// Grammar words number `index` and two buffers for the desk, full of old content; they do not depend
    /// on those before them. One in five is a grammar of [`chains`].
    pub fn desk(&self, index: u64) -> Input {
        let header = self.header(index);
        let mut random = Random::at(self.seed().rotate_left(24), index);
        if random.chance(1, 5) {
            let mut draft = chains::any(&mut random);
            header.put(&mut random, &mut draft);
            self.lent(&mut random, draft.words())
        } else {
            self.unchained_desk(index, header)
        }
    }

    /// The same with this header and without those grammars, which the stored calls have by themselves.
    pub fn unchained_desk(&self, index: u64, header: Header) -> Input {
        // Away from the inputs and the lists of the same number.
        let mut random = Random::at(self.seed().rotate_left(16), index);
        let words = self.desk_words(&mut random, header);
        self.lent(&mut random, words)
    }

    /// Words with two buffers.
    fn lent(&self, random: &mut Random, words: Vec<u16>) -> Input {
        // N, where there is such a word.
        let n = words.get(1).map_or(0, |&n| usize::from(n).min(64));
        Input::Costs {
            words,
            costs: room(random, n),
            rules: room(random, n),
        }
    }

    /// What the check is tried on, or a grammar with ties, perhaps changed at some edge.
    fn desk_words(&self, random: &mut Random, header: Header) -> Vec<u16> {
        let mut draft = match random.below(12) {
            0..=2 => return self.words(random, header),
            3..=5 => {
                let mut draft = self.stock()[random.below(self.stock().len())].clone();
                ties::even(random, &mut draft);
                grammar::shuffle(random, &mut draft.rules);
                draft
            }
            6..=8 => ties::ladder(random),
            9 => ties::wide(random),
            10 => ties::dear(random),
            _ => {
                let mut draft = grammar::random_small(random);
                ties::even(random, &mut draft);
                draft
            }
        };
        header.put(random, &mut draft);
        if random.chance(1, 8) {
            edges::change(random, &mut draft);
        }
        if header == Header::Seven && random.chance(1, 8) {
            restarts::change(random, &mut draft);
        }
        draft.words()
    }
}

/// A buffer around the N words that are wanted.
fn room(random: &mut Random, n: usize) -> Vec<u16> {
    let length = match random.below(20) {
        0 => n.saturating_sub(1),
        1 => random.below(4),
        2 => random.below(n + 1),
        3 => n + 1,
        4..=8 => n,
        9 => n.max(64),
        _ => n + random.below(100),
    };
    buffers::old(random, length)
}
