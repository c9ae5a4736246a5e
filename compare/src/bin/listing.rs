//! The printing program of document 01: standard input to the listing, by the plain
//! implementation.

use std::io::{self, Read, Write};

fn main() -> io::Result<()> {
    let mut input = Vec::new();
    io::stdin().lock().read_to_end(&mut input)?;
    let text = compare::plain::listing(&input);
    io::stdout().lock().write_all(text.as_bytes())
}
