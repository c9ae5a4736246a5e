//! Runs the plain implementation on all that the programs in the gate have stored: `stored [FOLDER]`,
//! where FOLDER is that of the crates. Prints for each program how many of how many answers differ
//! from its `stdout`, and exits with 1 where some do.

use std::path::PathBuf;
use std::process::ExitCode;
use std::{env, io};

fn main() -> io::Result<ExitCode> {
    let given = env::args_os().nth(1).map(PathBuf::from);
    let crates =
        given.unwrap_or_else(|| PathBuf::from(env!("CARGO_MANIFEST_DIR")).join("../crates"));
    let mut good = true;
    for stored in compare::stored::all(&crates)? {
        println!(
            "{} {} of {}",
            stored.program, stored.different, stored.inputs
        );
        good &= stored.different == 0;
    }
    Ok(ExitCode::from(u8::from(!good)))
}
