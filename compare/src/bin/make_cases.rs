//! Writes the bench examples of document 01, its further claims and the examples of requests (ii), (vi) and (viii) into
//! a folder: for each the bytes of standard input (`NAME.in`) and the expected listing (`NAME.out`).

use compare::examples::{self, units};
use compare::generate::file::standard_input;
use std::path::PathBuf;
use std::{env, fs, io, process};

fn main() -> io::Result<()> {
    let mut arguments = env::args_os().skip(1);
    let (Some(folder), None) = (arguments.next(), arguments.next()) else {
        eprintln!("usage: make_cases FOLDER");
        process::exit(2);
    };
    let folder = PathBuf::from(folder);
    fs::create_dir_all(&folder)?;
    let examples = examples::all();
    for example in &examples {
        let input = standard_input(&example.words, &example.tokens, &example.ticks);
        fs::write(folder.join(format!("{}.in", example.name)), input)?;
        fs::write(
            folder.join(format!("{}.out", example.name)),
            &example.listing,
        )?;
    }
    let printed = units::printed();
    for (number, (input, listing)) in printed.iter().enumerate() {
        let name = format!("unit-1-printed-{number}");
        fs::write(folder.join(format!("{name}.in")), input)?;
        fs::write(folder.join(format!("{name}.out")), listing)?;
    }
    println!("{} examples written", examples.len() + printed.len());
    Ok(())
}
