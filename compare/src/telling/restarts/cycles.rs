//! Reports of logs with restarts: which cycles these make unclean.

use super::{missing, with_six};
use crate::examples::empty_parts::reliable;
use crate::generate::families::bench_h;
use crate::generate::restarts::restarted;
use crate::generate::Draft;
use crate::telling::Call;

/// The marks 1 and 2, the restart 3 and the token 5 in any order. A 4 stands in no rule and is always deleted, and
/// nothing else is.
fn any_order(opening: u16, closing: u16, restart: u16) -> Draft {
    let mut draft = Draft::new(6, 1, &[(0, &[])]);
    let rules = [1, 2, 3, 5].map(|token| (0, vec![token, 64]));
    draft.rules.extend(rules);
    (draft.opening, draft.closing) = (opening, closing);
    draft.restart = Some(restart);
    reliable(draft, &[1, 2, 3, 5], 9)
}

/// The calls that `test_pace` stores.
pub fn reports() -> Vec<Call> {
    let mut calls = every_log();
    calls.extend(chosen());
    calls
}

/// Every log of at most four tokens out of the two marks, the restart and a token that is deleted, and with equal
/// marks out of the mark, the restart and that token. The ticks tell every pair apart, and rise.
fn every_log() -> Vec<Call> {
    let ticks = [10, 110, 1_210, 13_310];
    let mut calls = Vec::new();
    for (opening, closing, tokens) in [(1, 2, &[1, 2, 3, 4][..]), (1, 1, &[1, 3, 4])] {
        for log in logs(tokens, 4) {
            let call = Call::new(&any_order(opening, closing, 3), &log);
            calls.push(call.timed(&ticks[..log.len()]).lent(30, 6));
        }
    }
    calls
}

/// All logs of these tokens up to a length.
fn logs(tokens: &[u16], longest: usize) -> Vec<Vec<u16>> {
    let mut logs: Vec<Vec<u16>> = vec![Vec::new()];
    let mut from = 0;
    while logs[from].len() < longest {
        for &token in tokens {
            let mut log = logs[from].clone();
            log.push(token);
            logs.push(log);
        }
        from += 1;
    }
    logs
}

/// Only the first or the last token between the marks looked at, or the first or the last restart; two restarts taken
/// for none; one before the opening mark or behind the closing mark, near or far, taken for one inside; cycles behind
/// a restart no longer counted, or counted from it; ticks mended; only a tick that falls looked at.
const LOGS: [&[u16]; 26] = [
    &[1, 3, 2],
    &[1, 5, 3, 2],
    &[1, 3, 5, 2],
    &[1, 5, 3, 5, 2],
    &[1, 5, 5, 5, 3, 5, 5, 5, 2],
    &[1, 3, 3, 2],
    &[1, 3, 5, 3, 2],
    &[1, 5, 3, 3, 3, 5, 2],
    &[3, 1, 5, 2],
    &[3, 5, 5, 1, 5, 2],
    &[1, 5, 2, 3],
    &[1, 5, 2, 5, 5, 3, 5],
    &[1, 5, 2, 3, 1, 5, 2],
    &[1, 2, 5, 3, 5, 1, 5, 2],
    &[1, 3, 2, 1, 5, 2],
    &[1, 5, 2, 1, 3, 2],
    &[1, 5, 2, 1, 3, 2, 1, 5, 5, 2],
    &[1, 3, 2, 1, 5, 2, 1, 3, 2],
    &[1, 3, 2, 5, 2],
    &[1, 3, 1, 5, 2],
    &[1, 5, 1, 3, 2],
    &[1, 1, 3, 2, 2],
    &[3, 1, 5, 2, 3, 1, 3, 2, 3],
    &[4, 1, 5, 3, 2, 1, 5, 2],
    &[1, 5, 2, 4, 1, 5, 3, 2],
    &[3, 4, 1, 5, 2, 4, 3],
];

/// These logs with ticks that rise, that start at zero at each restart, and that wrap; then logs where the restart is
/// deleted or inserted; then grammars without a restart mark behind one that has it.
pub fn chosen() -> Vec<Call> {
    let mut calls = Vec::new();
    for log in LOGS {
        let rising: Vec<u32> = (1..=log.len() as u32)
            .map(|place| place * place * 100)
            .collect();
        let mut falling = rising.clone();
        restarted(&mut falling, log, 3);
        let wrapping: Vec<u32> = rising.iter().map(|tick| tick.wrapping_sub(1_000)).collect();
        for ticks in [rising, falling, wrapping] {
            calls.push(Call::new(&any_order(1, 2, 3), log).timed(&ticks));
        }
    }
    for log in [
        &[1, 3, 1, 1][..],
        &[1, 1, 3, 1],
        &[1, 3, 3, 1, 5, 1],
        &[3, 1, 5, 1, 3],
    ] {
        let call = Call::new(&any_order(1, 1, 3), log);
        calls.push(call.timed(&[90, 160, 5, 40, 70, 80][..log.len()]));
    }
    calls.extend(corrected());
    calls.extend(without());
    calls
}

/// A deleted restart taken for a kept one: an edit inside spoils anyway, and one outside does nothing. An inserted one
/// before the opening mark taken for one inside.
fn corrected() -> Vec<Call> {
    let ticks = [700, 710, 0, 30, 90, 95, 100, 230];
    let mut calls = Vec::new();
    // The restart is the 4, which stands in no rule.
    let logs: [&[u16]; 7] = [
        &[1, 4, 2],
        &[4, 1, 5, 2],
        &[1, 5, 2, 4],
        &[1, 5, 2, 4, 1, 2],
        &[1, 4, 2, 1, 5, 2],
        &[4, 4, 1, 3, 2, 4],
        &[1, 3, 2, 4],
    ];
    for log in logs {
        let call = Call::new(&any_order(1, 2, 4), log);
        calls.push(call.timed(&ticks[..log.len()]));
    }
    // Restarts are missing before the 1, behind it, or both; in the second grammar none is asked for behind it.
    let logs: [&[u16]; 6] = [
        &[2, 1, 3],
        &[2, 4, 1, 3],
        &[2, 1, 4, 4, 3],
        &[2, 4, 1, 4, 4, 3, 2, 1, 4, 4, 3],
        &[2, 1, 3, 2, 1, 3],
        &[2, 4, 1, 3, 2, 1, 3],
    ];
    let mut before = missing();
    before.rules[2].1 = vec![2, 4, 1, 3];
    before.rules.truncate(3);
    before.nonterminals = 2;
    for log in logs {
        for draft in [missing(), before.clone()] {
            let ticks: Vec<u32> = (1..=log.len() as u32).map(|place| place * 50).collect();
            calls.push(Call::new(&draft, log).timed(&ticks));
        }
    }
    // H with an edit before a restart, at it and behind it; a restart that is deleted, and one of reliability 0.
    let logs: [&[u16]; 6] = [
        &[1, 1, 4, 3],
        &[1, 4, 1, 3],
        &[1, 4, 3, 3],
        &[1, 2, 3, 3, 4, 1, 3],
        &[3, 4, 1, 2, 3],
        &[4, 1, 2, 3, 4, 4, 1, 4, 1, 2, 3],
    ];
    for log in logs {
        let ticks: Vec<u32> = (1..=log.len() as u32).map(|place| place * 7).collect();
        for draft in [bench_h(), reliable(bench_h(), &[4], 0)] {
            calls.push(Call::new(&draft, log).timed(&ticks));
        }
    }
    calls
}

/// A restart mark left from the grammar before, or a 4 taken for one; no cycles, whatever the restart mark.
fn without() -> Vec<Call> {
    let ticks = [100, 0, 30, 40, 50, 60];
    let log = [1, 4, 3, 1, 2, 3];
    let mut none = bench_h();
    none.restart = Some(0);
    let mut no_cycles = bench_h();
    (no_cycles.opening, no_cycles.closing) = (0, 0);
    let mut other = bench_h();
    other.restart = Some(2);
    let drafts = [
        bench_h(),
        with_six(bench_h()),
        bench_h(),
        none,
        other,
        no_cycles,
    ];
    drafts
        .map(|draft| Call::new(&draft, &log).timed(&ticks))
        .to_vec()
}
