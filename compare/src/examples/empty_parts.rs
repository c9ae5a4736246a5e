//! Examples of request (ii) of document 02, "An empty thing is not missing", beside the bench examples
//! that it changes. Every move is worked out by hand.

use super::{parsed, Example, DELETE, INSERT};
use crate::generate::Draft;

/// 64 -> 1 65 2 66 3, where 65 and 66 are each a 4 or empty; costs 1, reliabilities 5.
pub fn two_parts() -> Draft {
    let rules: [(u16, &[u16]); 5] = [
        (0, &[1, 65, 2, 66, 3]),
        (1, &[4]),
        (1, &[]),
        (2, &[4]),
        (2, &[]),
    ];
    reliable(Draft::new(5, 3, &rules), &[1, 2, 3, 4], 5)
}

/// 64 -> 1 65 2, where 65 has no empty rule of its own and can be empty through 66; the 4 stands in no
/// rule.
pub fn through_another(reliability: u16) -> Draft {
    let rules: [(u16, &[u16]); 4] = [(0, &[1, 65, 2]), (1, &[66]), (2, &[3]), (2, &[])];
    reliable(Draft::new(5, 3, &rules), &[1, 2], reliability)
}

/// The grammar with this reliability of some terminals.
pub fn reliable(mut draft: Draft, terminals: &[usize], reliability: u16) -> Draft {
    for &terminal in terminals {
        draft.terminals[terminal].1 = reliability;
    }
    draft
}

/// All of them.
pub fn all() -> Vec<Example> {
    let parts = two_parts();
    vec![
        // Expand, match 1; 65 dropped, 2 inserted, 66 dropped: drops and inserts alternate; match 3, END.
        parsed("parts-1-3", &parts, &[1, 3], (7, &[0]), &[[INSERT, 1, 2]]),
        // Expand, match 1; delete, 65 dropped; match 2; 66 dropped as ever before a match; match 3, END.
        parsed(
            "parts-1-1-2-3",
            &parts,
            &[1, 1, 2, 3],
            (8, &[0]),
            &[[DELETE, 1, 1]],
        ),
        // START cannot be empty here: delete, insert, match END.
        parsed(
            "parts-3",
            &parts,
            &[3],
            (3, &[]),
            &[[DELETE, 0, 3], [INSERT, 1, 64]],
        ),
        // Expand, match 1; delete, 65 dropped; match 2, END.
        parsed(
            "through-another",
            &through_another(5),
            &[1, 4, 2],
            (6, &[0]),
            &[[DELETE, 1, 4]],
        ),
        // Insert, match END.
        parsed(
            "not-empty",
            &Draft::new(3, 1, &[(0, &[1, 2])]),
            &[],
            (2, &[]),
            &[[INSERT, 0, 64]],
        ),
    ]
}
