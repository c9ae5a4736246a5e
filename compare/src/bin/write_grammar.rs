//! The program of request (i) that makes a grammar file from a text of decimal numbers, by the plain
//! implementation. Where it makes none, a line on standard error says why, and standard output stays
//! empty. (Rust puts an empty file in the place of a standard input that is closed, so that this
//! program has an empty text then, where the proved one says that it could not be read.)

use std::io::{self, Read, Write};

fn main() {
    let mut text = Vec::new();
    if io::stdin().lock().read_to_end(&mut text).is_err() {
        eprintln!("write_grammar: standard input could not be read");
        return;
    }
    match compare::plain::write_grammar(&text) {
        Err(line) => eprint!("{line}"),
        Ok(file) => {
            let mut out = io::stdout().lock();
            if out.write_all(&file).and_then(|()| out.flush()).is_err() {
                eprintln!("write_grammar: the file could not be written");
            }
        }
    }
}
