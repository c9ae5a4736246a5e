//! The cores of the chains: small grammars whose verdict hangs on every link, whole or with one link broken.
//! START is 64. Something is reachable, productive, cheap, in FIRST or in FOLLOW only by way of all the others.

use super::super::draft::Draft;
use super::super::random::Random;

/// Any of the cores.
pub fn any(random: &mut Random) -> Draft {
    match random.below(12) {
        0 => reachable(random),
        1 | 2 => productive(random),
        3..=5 => falling(random),
        6 | 7 => first(random),
        8 | 9 => follow(random),
        10 => through_start(random),
        _ => own_mention(random),
    }
}

/// A core in the making.
struct Core {
    draft: Draft,
}

impl Core {
    /// START alone, without rules.
    fn new() -> Core {
        Core {
            draft: Draft::new(1, 1, &[]),
        }
    }

    fn token(&mut self, cost: u16) -> u16 {
        self.draft.terminals.push((cost, 0));
        self.draft.t() - 1
    }

    fn nonterminal(&mut self) -> u16 {
        self.draft.nonterminals += 1;
        63 + self.draft.nonterminals
    }

    fn rule(&mut self, left: u16, right: &[u16]) {
        self.draft.rules.push((left - 64, right.to_vec()));
    }

    /// So many nonterminals one after the other.
    fn chain(&mut self, length: usize) -> Vec<u16> {
        (0..length).map(|_| self.nonterminal()).collect()
    }

    /// A nonterminal that can be empty: at once, or by way of up to three others. Else it is a token of its own.
    fn vanishing(&mut self, random: &mut Random) -> u16 {
        let token = self.token(1);
        let chain = self.chain(random.pick(&[1, 1, 1, 2, 4]));
        for pair in chain.windows(2) {
            self.rule(pair[0], &pair[1..]);
        }
        let last = chain[chain.len() - 1];
        self.rule(last, &[token]);
        self.rule(last, &[]);
        chain[0]
    }

    /// Symbols that cost `cost` together, at most 63,999: eights of 1,000, and a rest.
    fn costing(&mut self, cost: u32) -> Vec<u16> {
        let thousand = self.token(1_000);
        let eight = self.nonterminal();
        self.rule(eight, &[thousand; 8]);
        let mut symbols = vec![eight; (cost / 8_000) as usize];
        let mut right = vec![thousand; (cost % 8_000 / 1_000) as usize];
        if cost % 1_000 > 0 {
            right.push(self.token((cost % 1_000) as u16));
        }
        let rest = self.nonterminal();
        self.rule(rest, &right);
        symbols.push(rest);
        if symbols.len() == 1 {
            // Else the eight would be unreachable.
            self.rule(rest, &[eight; 8]);
        }
        symbols
    }
}

/// How long a chain is: mostly short, some up to 40.
fn length(random: &mut Random) -> usize {
    match random.below(4) {
        0 => random.range(10, 40),
        _ => random.range(1, 8),
    }
}

/// The link that is broken, in half of the chains.
fn broken(random: &mut Random, links: usize) -> Option<usize> {
    (links > 0 && random.chance(1, 2)).then(|| random.below(links))
}

/// Each nonterminal is reachable by the one before it alone, with loops back. Where a link is broken, 6; where the
/// last one never ends or has no rule, 7, or 6 all the same.
fn reachable(random: &mut Random) -> Draft {
    let mut core = Core::new();
    let [on, out, back] = [(); 3].map(|()| core.token(1));
    let count = length(random);
    let chain = core.chain(count);
    core.rule(64, &chain[..1]);
    let gap = broken(random, count - 1);
    for (at, pair) in chain.windows(2).enumerate() {
        let next = if gap == Some(at) { out } else { pair[1] };
        core.rule(pair[0], &[on, next]);
        core.rule(pair[0], &[out]);
        if random.chance(1, 4) {
            let target = random.pick(&chain[..=at]);
            core.rule(pair[0], &[back, target]);
        }
    }
    let last = chain[count - 1];
    match random.below(4) {
        0 => {}
        1 => core.rule(last, &[on, last]),
        _ => core.rule(last, &[out]),
    }
    core.draft
}

/// Each derives a string by the next one alone, which stands there once, twice or between tokens, with loops and
/// mentions of itself. The last one is a token or empty; or it never ends, has no rule, or goes round: 7.
fn productive(random: &mut Random) -> Draft {
    let mut core = Core::new();
    let [a, b, c, d] = [(); 4].map(|()| core.token(1));
    let count = length(random);
    let chain = core.chain(count);
    core.rule(64, &chain[..1]);
    let mut doubled = 0;
    for (at, pair) in chain.windows(2).enumerate() {
        let (own, next) = (pair[0], pair[1]);
        match random.below(6) {
            0 => core.rule(own, &[a, next]),
            1 => core.rule(own, &[next, b]),
            2 if doubled < 5 => {
                doubled += 1;
                core.rule(own, &[next, a, next]);
            }
            _ => core.rule(own, &[next]),
        }
        match random.below(6) {
            0 => core.rule(own, &[c, own]),
            1 => core.rule(own, &[c, own, own]),
            2 => {
                let target = random.pick(&chain[..=at]);
                core.rule(own, &[d, target]);
            }
            _ => {}
        }
    }
    let last = chain[count - 1];
    match random.below(8) {
        0 => {}
        1 => core.rule(last, &[a, last]),
        2 => core.rule(last, &[last]),
        3 => core.rule(last, &chain[..1]),
        4 => core.rule(last, &[]),
        _ => core.rule(last, &[b]),
    }
    core.draft
}

/// The cost of one nonterminal falls several times: each of its rules begins with a token of its own and is
/// cheaper than those before, but known later, behind a longer chain. The dear ones cost over 60,000, in rules
/// whose symbols cost less; the cheapest is 60,000, one or two less or more, or far below, perhaps by two rules.
/// A chain above has to learn of each fall. Perhaps there is a nonterminal that derives nothing, too: 7 before 8.
fn falling(random: &mut Random) -> Draft {
    let mut core = Core::new();
    let above = random.pick(&[0, 1, 2, 6]);
    let pads = random.pick(&[0, 0, 1]);
    let pad = core.token(1);
    let chain = core.chain(above + 1);
    core.rule(64, &chain[..1]);
    for pair in chain.windows(2) {
        core.rule(pair[0], &[&pair[1..], &vec![pad; pads][..]].concat());
    }
    let fallen = chain[above];
    let top = random.pick(&[59_999, 60_000, 60_000, 60_001, 60_001, 60_002, 59_000, 300]);
    let aim = (top - (above * pads) as u32).max(4);
    let ways = random.range(2, 3);
    for way in 0..ways {
        let dearer = match ways - 1 - way {
            0 => 0,
            _ if random.chance(1, 4) => 0,
            left => random.pick(&[1, 2, 1_000, 3_000, 5_536]) * left as u32,
        };
        let begin = core.token(1);
        let mut right = vec![begin];
        // Two parts, so that neither costs over 60,000 by itself.
        let second = (aim + dearer - 1) / 2;
        for cost in [aim + dearer - 1 - second, second] {
            let links = core.chain(1 + way * random.pick(&[1, 2]));
            for pair in links.windows(2) {
                core.rule(pair[0], &pair[1..]);
            }
            let symbols = core.costing(cost);
            core.rule(links[links.len() - 1], &symbols);
            right.push(links[0]);
        }
        core.rule(fallen, &right);
    }
    if random.chance(1, 5) {
        let (begin, endless) = (core.token(1), core.nonterminal());
        core.rule(64, &[begin, endless]);
        if random.chance(1, 2) {
            core.rule(endless, &[begin, endless]);
        }
    }
    core.draft
}

/// A nonterminal is a chain or a token. FIRST of the chain's last one comes up through all of it, also behind
/// parts that can be empty; where it is that token, 9. A token before a link breaks it.
fn first(random: &mut Random) -> Draft {
    let mut core = Core::new();
    let [shared, other, stop, tail] = [(); 4].map(|()| core.token(1));
    let count = length(random);
    let chain = core.chain(count);
    core.rule(64, &chain[..1]);
    let end = if random.chance(1, 4) { other } else { shared };
    let gap = if random.chance(1, 2) {
        broken(random, count - 1)
    } else {
        None
    };
    let mut gone = 0;
    for (at, pair) in chain.windows(2).enumerate() {
        let mut right = Vec::new();
        if gap == Some(at) {
            right.push(stop);
        } else if gone < 5 && random.chance(1, 3) {
            gone += 1;
            right.push(core.vanishing(random));
        }
        right.push(pair[1]);
        if random.chance(1, 4) {
            right.push(tail);
        }
        core.rule(pair[0], &right);
    }
    core.rule(chain[0], &[shared]);
    core.rule(chain[count - 1], &[end]);
    core.draft
}

/// The last nonterminal of a chain is a token or empty; where that token comes into its FOLLOW, 9. It comes from
/// what stands behind the first one, or behind one in the middle, at once or as FIRST of another chain, and is
/// passed on by the left side or behind parts that can be empty. A token at the end of a rule breaks a link.
fn follow(random: &mut Random) -> Draft {
    let mut core = Core::new();
    let [shared, on, stop, back] = [(); 4].map(|()| core.token(1));
    let count = length(random);
    let chain = core.chain(count);
    // What stands behind: the token, or a chain of up to three to it.
    let behind = if random.chance(1, 2) {
        shared
    } else {
        let links = core.chain(random.range(1, 3));
        for pair in links.windows(2) {
            core.rule(pair[0], &pair[1..]);
        }
        core.rule(links[links.len() - 1], &[shared]);
        links[0]
    };
    let from = if random.chance(1, 2) {
        0
    } else {
        random.below(count)
    };
    let whole = |symbols: &[u16], at: usize| match at == from {
        true => [symbols, &[behind]].concat(),
        false => symbols.to_vec(),
    };
    core.rule(64, &whole(&chain[..1], 0));
    let gap = broken(random, count - 1);
    let mut gone = 0;
    for (at, pair) in chain.windows(2).enumerate() {
        let mut right = vec![on, pair[1]];
        if gap == Some(at) {
            right.push(stop);
        } else if gone < 5 && random.chance(1, 3) {
            gone += 1;
            right.push(core.vanishing(random));
        }
        core.rule(pair[0], &whole(&right, at + 1));
        match random.below(4) {
            0 => core.rule(pair[0], &[]),
            1 => {
                let target = random.pick(&chain[..=at]);
                core.rule(pair[0], &[back, target]);
            }
            _ => {}
        }
    }
    core.rule(chain[count - 1], &[shared]);
    core.rule(chain[count - 1], &[]);
    if random.chance(1, 3) {
        core.rule(chain[count - 1], &[back, chain[0]]);
    }
    core.draft
}

/// A chain that comes to START again: it derives a string only where START does by another rule, is cheap only
/// where START is, and what follows START there may be what START can begin with.
fn through_start(random: &mut Random) -> Draft {
    let mut core = Core::new();
    let [on, out, again, behind] = [(); 4].map(|()| core.token(1));
    let count = length(random);
    let chain = core.chain(count);
    core.rule(64, &[on, chain[0]]);
    for pair in chain.windows(2) {
        core.rule(pair[0], &pair[1..]);
    }
    let last = chain[count - 1];
    match random.below(3) {
        0 => core.rule(last, &[again, 64]),
        1 => core.rule(last, &[again, 64, behind]),
        _ => core.rule(last, &[again, 64, 64]),
    }
    match random.below(4) {
        0 => {}
        1 => {
            core.rule(64, &[behind]);
            core.rule(64, &[]);
        }
        2 => core.rule(64, &[]),
        _ => core.rule(64, &[out]),
    }
    core.draft
}

/// Rules that mention their own left side, once or twice: first, in the middle, last, behind and before a part
/// that can be empty; with a way out, an empty one, or none.
fn own_mention(random: &mut Random) -> Draft {
    let mut core = Core::new();
    let [a, b, c] = [(); 3].map(|()| core.token(1));
    let own = core.nonterminal();
    let gone = core.vanishing(random);
    core.rule(64, &[own]);
    let right: &[u16] = match random.below(9) {
        0 => &[own, a],
        1 => &[a, own],
        2 => &[a, own, b],
        3 => &[a, own, own],
        4 => &[gone, own, a],
        5 => &[a, own, gone],
        6 => &[a, own, gone, own],
        7 => &[own],
        _ => &[a, own, b, own],
    };
    core.rule(own, right);
    if !right.contains(&gone) {
        core.rule(64, &[c, gone]);
    }
    match random.below(5) {
        0 => {}
        1 => core.rule(own, &[b]),
        2 => core.rule(own, &[c]),
        _ => core.rule(own, &[]),
    }
    core.draft
}
