//! What `print_marks` prints for some standard inputs, written by hand.

use super::{either, nested, with_reliability_of_4};
use crate::examples::cheapest::eights;
use crate::generate::families::{bench_g, bench_g1, bench_h, in_hundredths};
use crate::generate::file::standard_input;
use crate::generate::Draft;

/// Case 5 as standard input, with the ticks of 01's printed listing, and what `print_marks` prints for it.
pub fn printed_case_5() -> (Vec<u8>, &'static str) {
    let log = [1, 1, 2, 3, 4];
    let input = standard_input(&bench_g().words(), &log, &[100, 250, 400, 900, 1_250]);
    (input, CASE_5_PRINTED)
}

const CASE_5_PRINTED: &str = "\
keep 1 100
add 2
add 3
add 4
keep 1 250
keep 2 400
keep 3 900
keep 4 1250
marks 8 added 3
";

/// Standard inputs and what `print_marks` prints for them.
pub fn printed() -> Vec<(Vec<u8>, &'static str)> {
    let input =
        |draft: &Draft, log: &[u16], ticks: &[u32]| standard_input(&draft.words(), log, ticks);
    let g = bench_g();
    vec![
        printed_case_5(),
        (input(&g, &[], &[]), "marks 0 added 0\n"),
        (input(&g, &[4], &[7]), "marks 0 added 0\n"),
        (
            input(&g, &[1, 2, 4], &[5, 4_294_967_295, 0]),
            "keep 1 5\nkeep 2 4294967295\nadd 3\nkeep 4 0\nmarks 4 added 1\n",
        ),
        // The 4 of the log is deleted, and a 4 is added.
        (
            input(&with_reliability_of_4(5), &[1, 2, 4], &[1, 2, 3]),
            "keep 1 1\nkeep 2 2\nadd 3\nadd 4\nmarks 4 added 2\n",
        ),
        (
            input(&either(3, 4), &[1, 2], &[8, 9]),
            "keep 1 8\nadd 3\nkeep 2 9\nmarks 3 added 1\n",
        ),
        (input(&nested(), &[1; 254], &[0; 254]), "refused 11\n"),
        (input(&eights(938), &[], &[]), "refused 8\n"),
        (Vec::new(), "refused 1\n"),
        // H of request (vi): a restart has its own tick, as every mark.
        (
            input(&bench_h(), &[1, 1, 4, 3], &[5, 9, 0, 2]),
            "keep 1 5\nadd 3\nkeep 1 9\nkeep 4 0\nkeep 3 2\nmarks 5 added 1\n",
        ),
        // G1 of request (viii): ticks are printed as they came, and nothing is timed.
        (
            input(&bench_g1(), &[1, 2, 4], &[5, 10, 25]),
            "keep 1 5\nkeep 2 10\nadd 3\nkeep 4 25\nmarks 4 added 1\n",
        ),
        (input(&bench_g1(), &[], &[]), "marks 0 added 0\n"),
        (
            input(&in_hundredths(nested()), &[1; 254], &[0; 254]),
            "refused 11\n",
        ),
    ]
}
