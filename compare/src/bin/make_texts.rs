//! Writes texts of decimal numbers and what the plain implementation makes of them: `make_texts SEED
//! COUNT FOLDER`.
//!
//! `texts.bin` holds for each text its length as a u32, little endian, and its bytes; `answers.txt` a line
//! for each. Those that are shaped to tell wrong readings apart come first, then COUNT seeded ones.

use compare::generate::{text, Random};
use compare::steps::writing::text_line;
use compare::telling::texts::texts;
use std::path::PathBuf;
use std::{env, fs, io, process};

fn main() -> io::Result<()> {
    let arguments: Vec<String> = env::args().skip(1).collect();
    let numbers = |at: usize| arguments.get(at).and_then(|text| text.parse::<u64>().ok());
    let (Some(seed), Some(count), Some(folder)) = (numbers(0), numbers(1), arguments.get(2)) else {
        eprintln!("usage: make_texts SEED COUNT FOLDER");
        process::exit(2);
    };
    let seeded = (0..count).map(|index| text::text(&mut Random::at(seed, index)));
    let (mut bytes, mut answers) = (Vec::new(), String::new());
    for text in texts().into_iter().chain(seeded) {
        bytes.extend((text.len() as u32).to_le_bytes());
        bytes.extend(&text);
        answers.push_str(&text_line(&text));
    }
    let folder = PathBuf::from(folder);
    fs::create_dir_all(&folder)?;
    fs::write(folder.join("texts.bin"), &bytes)?;
    fs::write(folder.join("answers.txt"), &answers)?;
    println!(
        "{} bytes of texts, {} texts",
        bytes.len(),
        answers.lines().count()
    );
    Ok(())
}
