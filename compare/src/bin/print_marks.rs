//! The program of request (iv) of document 02 that prints a repaired log in marks alone, by the plain
//! implementation.

use std::io::{self, Read, Write};

fn main() -> io::Result<()> {
    let mut input = Vec::new();
    io::stdin().lock().read_to_end(&mut input)?;
    let text = compare::plain::mark_lines(&input);
    io::stdout().lock().write_all(text.as_bytes())
}
