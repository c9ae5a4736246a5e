//! "Pace": the clean cycles of a log, their time, and the mean. Request (vi) of document 02 adds a ground for a
//! cycle not to be clean, and request (viii) refusal 16.

use super::check::check;
use super::grammar::Grammar;
use super::parse::{is_log, parse, Edit, DELETE};
use crate::answer::{Pace, Refusal, Report};

/// Runs the parse, fills the two lent buffers as it does, and reports the pace.
pub fn report(
    words: &[u16],
    tokens: &[u16],
    ticks: &[u32],
    edits: &mut [u16],
    rules: &mut [u16],
) -> Result<Report, Refusal> {
    edits.fill(0);
    rules.fill(0);
    let (grammar, _) = check(words)?;
    // Refusal 10: "or ticks and tokens differ in number"; "only it has ticks to compare".
    if !is_log(&grammar, tokens) || ticks.len() != tokens.len() {
        return Err(10);
    }
    // 02 (viii): "no pace comes from them", old files with unit 1: "a refused pace is a refusal and never an idle
    // station". "16 from the pace report and the writer for unit 1; in the report after 10 and before 11": no move is
    // made.
    if grammar.unit == 1 {
        return Err(16);
    }
    let parsed = parse(words, tokens, edits, rules)?;
    let records: Vec<Edit> = edits
        .chunks(3)
        .take(parsed.edits as usize)
        .map(|record| Edit {
            kind: record[0],
            place: record[1],
            symbol: record[2],
        })
        .collect();
    let times = clean_cycle_times(&grammar, tokens, ticks, &records);
    let cycles = times.len() as u64;
    let ms = times.iter().sum();
    // "idle when the count is 0, else the mean in ms as an f64, sum and count each converted
    // without loss and divided once"
    let pace = if cycles == 0 {
        Pace::Idle
    } else {
        Pace::Mean(ms as f64 / cycles as f64)
    };
    Ok(Report { cycles, ms, pace })
}

/// The time in ms of each clean cycle.
fn clean_cycle_times(grammar: &Grammar, tokens: &[u16], ticks: &[u32], edits: &[Edit]) -> Vec<u64> {
    // "both 0 (no cycles)"
    if grammar.opening == 0 && grammar.closing == 0 {
        return Vec::new();
    }
    let mut kept = vec![true; tokens.len()];
    for edit in edits.iter().filter(|edit| edit.kind == DELETE) {
        kept[usize::from(edit.place)] = false;
    }
    let is_kept = |place: usize, mark: u16| kept[place] && tokens[place] == mark;
    let mut times = Vec::new();
    for a in 0..tokens.len() {
        if !is_kept(a, grammar.opening) {
            continue;
        }
        // "A cycle is a kept opening mark at place a and a kept closing mark at place b > a
        // with no kept opening or closing mark between": b is the next kept mark.
        let next_mark = (a + 1..tokens.len())
            .find(|&b| is_kept(b, grammar.opening) || is_kept(b, grammar.closing));
        let Some(b) = next_mark.filter(|&b| is_kept(b, grammar.closing)) else {
            continue;
        };
        // "It is clean when no edit has place p with a < p <= b."
        let touches = |edit: &Edit| a < usize::from(edit.place) && usize::from(edit.place) <= b;
        if edits.iter().any(touches) {
            continue;
        }
        // 02 (vi): "A kept restart mark strictly between a and b makes a cycle unclean." 0 is no mark.
        let restarts = |place: usize| grammar.restart != 0 && is_kept(place, grammar.restart);
        if (a + 1..b).any(restarts) {
            continue;
        }
        // "Its time is tick b minus tick a modulo 2^32." The unit is 0, "one ms".
        times.push(u64::from(ticks[b].wrapping_sub(ticks[a])));
    }
    times
}
