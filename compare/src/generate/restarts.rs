//! Grammars for request (vi) of document 02, "Ticks after a controller restart": the header of seven words on
//! grammars of every kind, restart marks in and out of their range, and logs and ticks with restarts.

use super::draft::Draft;
use super::grammar;
use super::random::Random;
use super::{families, log};
use crate::telling::grammars::large;

/// Which header the grammars of an input get. Equal draws give the grammars of six words that they gave before
/// there were seven.
#[derive(Clone, Copy, Debug, PartialEq, Eq)]
pub enum Header {
    Six,
    Seven,
}

impl Header {
    /// Seven words for one grammar in four.
    pub fn any(random: &mut Random) -> Header {
        if random.chance(1, 4) {
            Header::Seven
        } else {
            Header::Six
        }
    }

    /// Puts the header on a grammar, with a restart mark in its range.
    pub fn put(self, random: &mut Random, draft: &mut Draft) {
        if self == Header::Seven {
            draft.restart = Some(mark(random, draft));
        }
    }
}

/// A restart mark for a grammar: mostly a terminal that rules use and that is no other mark, else one that no rule
/// uses, or none.
fn mark(random: &mut Random, draft: &Draft) -> u16 {
    let used = |token: &u16| draft.rules.iter().any(|(_, right)| right.contains(token));
    let others = |token: &u16| *token != draft.opening && *token != draft.closing;
    let (inside, outside): (Vec<u16>, Vec<u16>) = (1..draft.t()).filter(others).partition(used);
    match random.below(10) {
        0 => 0,
        1 if !outside.is_empty() => random.pick(&outside),
        _ if !inside.is_empty() => random.pick(&inside),
        _ if !outside.is_empty() => random.pick(&outside),
        _ => 0,
    }
}

/// A grammar in whose logs restarts stand at every place: H, H with other marks and weights, one that allows its
/// marks in any order, one with T 1, or the longest.
pub fn draft(random: &mut Random) -> Draft {
    match random.below(20) {
        0..=3 => families::bench_h(),
        4..=8 => {
            let mut draft = families::bench_h();
            grammar::weigh(random, &mut draft);
            Header::Seven.put(random, &mut draft);
            draft
        }
        9..=17 => any_order(random),
        18 => {
            let mut draft = Draft::new(1, 1, &[(0, &[])]);
            draft.restart = Some(random.pick(&[0, 0, 1]));
            draft
        }
        _ => longest(random),
    }
}

/// Marks, the restart mark and other tokens in any order; perhaps one of them has always the same one behind it. Up to
/// two tokens more stand in no rule and are deleted, and may be the restart mark.
fn any_order(random: &mut Random) -> Draft {
    let used = random.word(3, 6);
    let t = usize::from(used) + 1 + random.below(3);
    let mut draft = Draft::new(t, 1, &[(0, &[])]);
    draft
        .rules
        .extend((1..=used).map(|token| (0, vec![token, 64])));
    grammar::weigh(random, &mut draft);
    draft.opening = random.word(1, used);
    draft.closing = random.word(1, used);
    if random.chance(1, 2) {
        // It is missing at times: an insert beside the restarts.
        draft.rules[1].1 = vec![1, random.word(1, used), 64];
    }
    Header::Seven.put(random, &mut draft);
    draft
}

/// "The longest word list is now 2,695."
pub fn longest(random: &mut Random) -> Draft {
    let mut draft = large(2_694);
    grammar::weigh(random, &mut draft);
    Header::Seven.put(random, &mut draft);
    draft
}

/// The restart mark at an edge of its range: none, each other mark, the first and the last terminal, one more, T + 256
/// and what is below it.
pub fn change(random: &mut Random, draft: &mut Draft) {
    let t = draft.t();
    let edge = [
        0,
        1,
        t.saturating_sub(1),
        t,
        t + 1,
        63,
        64,
        255,
        256,
        257,
        t + 255,
        t + 256,
        u16::MAX,
    ];
    let other = random.pick(&[draft.opening, draft.closing]);
    let mark = random.pick(&edge);
    draft.restart = Some(if random.chance(1, 3) { other } else { mark });
}

/// Changes the header of finished words: word 0 at each side of its ranges, without the 256 or with more of it; the
/// seventh word taken out, doubled, or changed; the words cut behind the sixth or seventh; a word more at the end.
pub fn change_words(random: &mut Random, words: &mut Vec<u16>) {
    let (Some(&first), true) = (words.first(), words.len() > 7) else {
        return;
    };
    match random.below(8) {
        0..=2 => {
            let t = first & 255;
            let edge = [0, 64, 65, 128, 255, 256, 257, 320, 321, 384, 512, u16::MAX];
            let more = [t, t + 64, t + 128, t + 320, t + 512, t + 768, t ^ 0xff00];
            let edge = random.pick(&edge);
            words[0] = if random.chance(2, 3) {
                random.pick(&more)
            } else {
                edge
            };
        }
        3 => {
            words.remove(6);
        }
        4 => words.insert(6, words[6]),
        5 => words.truncate(random.range(5, 8)),
        6 => words[6] = random.pick(&[0, 1, 2, 3, 63, 64, 65, 256, u16::MAX]),
        _ => words.push(random.pick(&[0, 1, 64])),
    }
}

/// Makes one token of a log, at times, a number from T to behind word 0, T + 256.
pub fn out_of_range(random: &mut Random, tokens: &mut [u16], t: u16) {
    if random.chance(1, 30) && !tokens.is_empty() {
        let at = random.below(tokens.len());
        let edge = [t, 63, 64, 65, 255, 256, 257, t + 255, t + 256, t + 257];
        tokens[at] = random.pick(&edge);
    }
}

/// T of grammar words with a header of seven words, at least 2 and at most 64.
pub fn t_of(words: &[u16]) -> u16 {
    let t = words.first().map_or(2, |&first| first.saturating_sub(256));
    t.clamp(2, 64)
}

/// Ticks for a log. Where the words have a restart mark, every other time the counter "starts at zero" at each of
/// these.
pub fn ticks(random: &mut Random, words: &[u16], tokens: &[u16]) -> Vec<u32> {
    let mut ticks = log::ticks(random, tokens.len());
    let restart = match words {
        &[257..=320, _, _, _, _, _, restart, ..] => restart,
        _ => 0,
    };
    if restart != 0 && random.chance(1, 2) {
        restarted(&mut ticks, tokens, restart);
    }
    ticks
}

/// Lets the counter start at zero at each restart mark.
pub fn restarted(ticks: &mut [u32], tokens: &[u16], restart: u16) {
    let mut before = 0;
    for (tick, &token) in ticks.iter_mut().zip(tokens) {
        if token == restart {
            before = *tick;
        }
        *tick = tick.wrapping_sub(before);
    }
}

#[cfg(test)]
mod tests {
    use super::*;
    use crate::plain;

    #[test]
    fn the_grammars_are_what_they_are_called() {
        let mut random = Random::new(1);
        let mut accepted = 0;
        for _ in 0..300 {
            let draft = draft(&mut random);
            let words = draft.words();
            assert!((257..=320).contains(&words[0]));
            accepted += usize::from(plain::check(&words).is_ok());
        }
        assert!(accepted > 200, "{accepted}");
        let words = longest(&mut random).words();
        assert_eq!(words.len(), 2_695);
        assert_eq!(plain::check(&words).err(), None);
        let (mut ticks, log) = ([5, 7, 9, 20, 50], [1, 2, 4, 2, 4]);
        restarted(&mut ticks, &log, 4);
        assert_eq!(ticks, [5, 7, 0, 11, 0]);
    }
}
