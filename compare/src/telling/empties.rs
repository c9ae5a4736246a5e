//! Calls shaped for request (ii), "An empty thing is not missing": each tells apart wrong readings of which
//! popped symbols are dropped, what a drop counts and leaves, and over which list room is tested.

use super::Call;
use crate::examples::empty_parts::{reliable, through_another, two_parts};
use crate::generate::families::bench_g;
use crate::generate::Draft;

/// Any number of 1 66 2, where 66 is a 3 or empty; the 4 stands in no rule.
fn many_parts() -> Draft {
    let rules: [(u16, &[u16]); 5] = [
        (0, &[65, 64]),
        (0, &[]),
        (1, &[1, 66, 2]),
        (2, &[3]),
        (2, &[]),
    ];
    let mut draft = reliable(Draft::new(5, 3, &rules), &[1, 2], 9);
    (draft.opening, draft.closing) = (1, 2);
    draft
}

/// 64 -> 1 65 2, where 65 can be empty in the third step at the earliest, by a rule of two symbols.
fn far_below() -> Draft {
    let rules: [(u16, &[u16]); 8] = [
        (0, &[1, 65, 2]),
        (1, &[66, 67]),
        (2, &[68]),
        (3, &[69]),
        (4, &[3]),
        (4, &[]),
        (5, &[4]),
        (5, &[]),
    ];
    reliable(Draft::new(6, 6, &rules), &[1, 2], 5)
}

/// 64 -> 1 65 2, where 65 begins or ends with 66, which can be empty, and cannot be empty itself.
fn not_empty(right: &[u16]) -> Draft {
    let rules: [(u16, &[u16]); 4] = [(0, &[1, 65, 2]), (1, right), (2, &[4]), (2, &[])];
    reliable(Draft::new(6, 3, &rules), &[1, 2], 5)
}

/// 64 -> 1 65 2, where 65 is only ever empty.
fn only_empty() -> Draft {
    reliable(Draft::new(4, 2, &[(0, &[1, 65, 2]), (1, &[])]), &[1, 2], 5)
}

/// A 1 leaves 64 65 65 65 2 in place of START, and all of these but the 2 can be empty.
fn deep() -> Draft {
    Draft::new(3, 2, &[(0, &[1, 64, 65, 65, 65, 2]), (0, &[]), (1, &[])])
}

/// A call in edit buffers that just hold so many records, and in some that do not.
fn around(draft: &Draft, log: &[u16], records: usize) -> Vec<Call> {
    let rooms = [3 * records - 1, 3 * records, 3 * records + 3];
    rooms
        .map(|room| Call::new(draft, log).lent(room, 300))
        .to_vec()
}

/// All of them.
pub fn calls() -> Vec<Call> {
    let mut calls = which();
    calls.extend(through_others());
    calls.extend(rooms());
    calls
}

/// Everything inserted; only START dropped, or every symbol but START; all nonterminals dropped; drops up to
/// the first insert, or from it on; one drop in a correction; drops before END alone, never before END; drops
/// only behind a delete, or never behind one.
fn which() -> Vec<Call> {
    let mut calls = Vec::new();
    // START cannot be empty. Both parts dropped around an insert, one of them, before a token and before END.
    for log in [
        &[][..],
        &[1],
        &[2],
        &[4],
        &[1, 2],
        &[1, 4],
        &[1, 4, 3],
        &[1, 2, 2, 3],
        &[1, 2, 1, 3],
        &[1, 1, 3, 3],
    ] {
        calls.push(Call::new(&two_parts(), log));
    }
    // START can be empty, and is dropped behind inserts; 67 is dropped before them; 66 never is.
    for log in [
        &[1][..],
        &[3, 3],
        &[1, 2],
        &[1, 2, 6, 3, 4],
        &[1, 2, 2, 4, 1],
        &[1, 2, 5, 1, 2, 4],
    ] {
        calls.push(Call::new(&bench_g(), log));
    }
    calls
}

/// Only a nonterminal with an empty rule of its own dropped, or one that is empty soon enough, or one that can
/// also be something; one dropped of which only a part can be empty.
fn through_others() -> Vec<Call> {
    let mut calls = Vec::new();
    for log in [&[1][..], &[1, 5, 2], &[1, 5, 4], &[5]] {
        calls.push(Call::new(&far_below(), log));
        calls.push(Call::new(&not_empty(&[66, 3]), log));
        calls.push(Call::new(&not_empty(&[3, 66]), log));
    }
    // A reliability of 0 is not above the cost 0 of what can be empty: the 2 is deleted too.
    for reliability in [0, 1] {
        calls.push(Call::new(&through_another(reliability), &[1, 4, 2]));
    }
    for log in [&[1][..], &[1, 3, 2], &[3]] {
        calls.push(Call::new(&only_empty(), log));
    }
    calls
}

/// Room tested over the longer list, in the drop itself, for the whole correction before its first move, or
/// over all that was popped so far; a drop that leaves a record.
fn rooms() -> Vec<Call> {
    let mut calls = Vec::new();
    // Three corrections of a delete and a drop.
    calls.extend(around(&many_parts(), &[1, 4, 2, 1, 4, 2, 1, 4, 2], 3));
    // The last correction drops nothing, so that only what was dropped before can be missed.
    calls.extend(around(&many_parts(), &[1, 4, 2, 1, 3, 4, 2], 2));
    // A drop, an insert and a drop in one correction.
    calls.extend(around(&two_parts(), &[1, 3], 1));
    // 63 inserts and 190 drops in one correction, above END.
    calls.extend(around(&deep(), &[1; 63], 63));
    calls
}

/// Reports of logs whose corrections drop: the cycles that are clean are those of 01's rule. An edit before the
/// opening mark or behind the closing mark spoils nothing, and a delete with nothing inserted behind it spoils.
pub fn reports() -> Vec<Call> {
    let ticks = [100, 350, 700, 1_500, 3_100, 6_300];
    let logs: [&[u16]; 8] = [
        &[4, 1, 2],
        &[1, 4, 2],
        &[1, 2, 4],
        &[1, 4, 2, 1, 2],
        &[1, 2, 1, 4, 2],
        &[1, 1, 2],
        &[1, 4, 1, 2, 4],
        &[4, 4, 1, 3, 2, 1],
    ];
    let report = |log: &[u16]| Call::new(&many_parts(), log).timed(&ticks[..log.len()]);
    logs.map(report).to_vec()
}
