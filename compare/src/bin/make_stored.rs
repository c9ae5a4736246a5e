//! Writes many inputs of the printing program and what the plain implementation prints for
//! them: `make_stored SEED COUNT FOLDER`.
//!
//! `inputs.bin` holds for each input its length as a u32, little endian, and its bytes;
//! `expected.txt` holds the listings one behind the other. COUNT seeded inputs come first; long
//! ones are few, so that the files stay small. Behind them stand those that are shaped to tell wrong
//! readings apart, and a sixteenth as many seeded ones with the header of seven words. Exits with 1 when some
//! refusal is missing, 1 to 12 or 16. Refusal 4 always is: the program lends as many words as eleven blocks hold.

use compare::generate::{Header, Source};
use compare::{plain, telling};
use std::path::PathBuf;
use std::{env, fs, io, process};

/// An input of more bytes is long, and so many long ones are taken of each refusal.
const LONG: usize = 2_000;
const LONG_ONES: usize = 4;
/// How often a refusal may be given by the inputs taken: at most one in so many.
const SHARE: usize = 8;

fn main() -> io::Result<()> {
    let arguments: Vec<String> = env::args().skip(1).collect();
    let numbers = |at: usize| arguments.get(at).and_then(|text| text.parse::<u64>().ok());
    let (Some(seed), Some(count), Some(folder)) = (numbers(0), numbers(1), arguments.get(2)) else {
        eprintln!("usage: make_stored SEED COUNT FOLDER");
        process::exit(2);
    };
    let count = count as usize;
    let source = Source::new(seed);
    let mut stored = Stored::default();
    seeded(&mut stored, &source, Header::Six, count);
    for input in telling::inputs() {
        stored.put(&input, &plain::listing(&input));
    }
    seeded(&mut stored, &source, Header::Seven, count / 16);
    let folder = PathBuf::from(folder);
    fs::create_dir_all(&folder)?;
    fs::write(folder.join("inputs.bin"), &stored.inputs)?;
    fs::write(folder.join("expected.txt"), &stored.expected)?;
    println!(
        "{} inputs, {} and {} bytes",
        stored.given.iter().sum::<usize>(),
        stored.inputs.len(),
        stored.expected.len()
    );
    println!("{:>12} {}", "not refused", stored.given[0]);
    let wanted: Vec<usize> = (1..=12).chain([16]).filter(|&number| number != 4).collect();
    for &number in &wanted {
        let name = format!("refused {number}");
        println!("{name:>12} {}", stored.given[number]);
    }
    let missing = wanted.iter().any(|&number| stored.given[number] == 0);
    process::exit(i32::from(missing));
}

/// The two files, and how many inputs gave each refusal; place 0 counts those not refused.
#[derive(Default)]
struct Stored {
    inputs: Vec<u8>,
    expected: String,
    given: [usize; 17],
}

impl Stored {
    fn put(&mut self, input: &[u8], listing: &str) {
        self.inputs.extend((input.len() as u32).to_le_bytes());
        self.inputs.extend(input);
        self.expected.push_str(listing);
        self.given[refusal(listing)] += 1;
    }
}

/// The refusal that was printed, or 0.
fn refusal(listing: &str) -> usize {
    let number = listing.strip_prefix("refused ");
    number.map_or(0, |n| n.trim_end().parse().expect("a refusal number"))
}

/// So many inputs of a source, with this header.
fn seeded(stored: &mut Stored, source: &Source, header: Header, count: usize) {
    let mut taken = 0;
    // How many gave each refusal, and how many of these are long.
    let (mut given, mut long) = ([0; 17], [0; 17]);
    for index in 0.. {
        if taken == count {
            break;
        }
        let input = source.standard_input(index, header);
        let listing = plain::listing(&input);
        let refusal = refusal(&listing);
        let is_long = input.len() > LONG;
        if is_long && long[refusal] == LONG_ONES || refusal > 0 && given[refusal] > count / SHARE {
            continue;
        }
        stored.put(&input, &listing);
        taken += 1;
        long[refusal] += usize::from(is_long);
        given[refusal] += 1;
    }
}
