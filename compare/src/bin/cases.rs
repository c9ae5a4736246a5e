//! Runs the twelve bench examples of document 01, its further claims and the examples of requests (i) to
//! (iv), (vi) and (viii) on every implementation, against results written by hand. Exits with 1 where one differs.

use compare::examples::{self, cheapest, marks, units, writing};
use compare::implementations;
use std::process::ExitCode;

fn main() -> ExitCode {
    let mut good = true;
    for implementation in implementations::all() {
        let mut failures = examples::failures(implementation.as_ref());
        failures.extend(writing::failures(implementation.as_ref()));
        failures.extend(cheapest::failures(implementation.as_ref()));
        failures.extend(marks::failures(implementation.as_ref()));
        failures.extend(units::failures(implementation.as_ref()));
        for failure in &failures {
            println!("{}: {failure}", implementation.name());
        }
        let mut count = examples::all().len() + writing::all().len() + cheapest::all().len();
        count += marks::all().len() + units::count();
        if implementation.has_mark_lines() {
            count += marks::printed().len();
        }
        let name = implementation.name();
        println!("{name}: {count} examples, {} differences", failures.len());
        good &= failures.is_empty();
    }
    ExitCode::from(u8::from(!good))
}
