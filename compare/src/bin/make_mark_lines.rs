//! Writes inputs of `print_marks` and what the plain implementation prints for them: `make_mark_lines SEED COUNT
//! FOLDER`.
//!
//! `inputs.bin` holds for each input its length as a u32, little endian, and its bytes; `expected.txt` holds the lines
//! one behind the other. The printed examples of request (iv) come first, with what is written by hand; then COUNT
//! seeded inputs, of which long ones are few; then those that are shaped to tell wrong readings apart; then a quarter
//! as many seeded ones with the header of seven words. Exits with 1 when some refusal is missing. Refusal 4 always is:
//! the program lends as many words as eleven blocks hold.
//!
//! `make_mark_lines FOLDER` writes the first of these examples alone, as `print_marks.in` and `print_marks.out`.

use compare::examples::marks::{printed, printed_case_5};
use compare::generate::{Header, Source};
use compare::{plain, telling};
use std::path::PathBuf;
use std::{env, fs, io, process};

/// An input of more bytes, or with a longer text, is long, and so many long ones are taken of each refusal.
const LONG: usize = 3_000;
const LONG_ONES: usize = 6;
/// No text is longer than this one.
const LONGEST: usize = 150_000;
/// How often a refusal may be given by the inputs taken: at most one in so many.
const SHARE: usize = 12;

fn main() -> io::Result<()> {
    let arguments: Vec<String> = env::args().skip(1).collect();
    let numbers = |at: usize| arguments.get(at).and_then(|text| text.parse::<u64>().ok());
    let (Some(seed), Some(count), Some(folder)) = (numbers(0), numbers(1), arguments.get(2)) else {
        return match arguments.as_slice() {
            [folder] => write_case_5(folder),
            _ => {
                eprintln!("usage: make_mark_lines SEED COUNT FOLDER, or make_mark_lines FOLDER");
                process::exit(2);
            }
        };
    };
    let mut stored = Stored::default();
    for (input, lines) in printed() {
        stored.put(&input, lines);
    }
    let (source, count) = (Source::new(seed), count as usize);
    seeded(&mut stored, &source, Header::Six, count);
    for input in telling::marks::inputs() {
        stored.put(&input, &plain::mark_lines(&input));
    }
    seeded(&mut stored, &source, Header::Seven, count / 4);
    let folder = PathBuf::from(folder);
    fs::create_dir_all(&folder)?;
    fs::write(folder.join("inputs.bin"), &stored.inputs)?;
    fs::write(folder.join("expected.txt"), &stored.expected)?;
    println!(
        "{} and {} bytes",
        stored.inputs.len(),
        stored.expected.len()
    );
    println!("{:>12} {}", "not refused", stored.given[0]);
    for (number, count) in stored.given.iter().enumerate().skip(1) {
        println!("{:>12} {count}", format!("refused {number}"));
    }
    let wanted = (1..16).filter(|number| ![4, 13, 14].contains(number));
    let missing = wanted.into_iter().any(|number| stored.given[number] == 0);
    process::exit(i32::from(missing));
}

/// The printed example as a program of its own has it.
fn write_case_5(folder: &str) -> io::Result<()> {
    let folder = PathBuf::from(folder);
    fs::create_dir_all(&folder)?;
    let (input, lines) = printed_case_5();
    fs::write(folder.join("print_marks.in"), input)?;
    fs::write(folder.join("print_marks.out"), lines)
}

/// The two files, and how many inputs gave each refusal; place 0 counts those not refused.
#[derive(Default)]
struct Stored {
    inputs: Vec<u8>,
    expected: String,
    given: [usize; 16],
}

impl Stored {
    fn put(&mut self, input: &[u8], lines: &str) {
        self.inputs.extend((input.len() as u32).to_le_bytes());
        self.inputs.extend(input);
        self.expected.push_str(lines);
        self.given[refusal(lines)] += 1;
    }
}

/// The refusal that was printed, or 0.
fn refusal(lines: &str) -> usize {
    let number = lines.strip_prefix("refused ");
    number.map_or(0, |n| n.trim_end().parse().expect("a refusal number"))
}

/// So many inputs of a source, with this header.
fn seeded(stored: &mut Stored, source: &Source, header: Header, count: usize) {
    let mut taken = 0;
    let (mut given, mut long) = ([0; 16], [0; 16]);
    for index in 0.. {
        if taken == count {
            break;
        }
        let input = source.mark_input_with(index, header);
        let lines = plain::mark_lines(&input);
        let refusal = refusal(&lines);
        let is_long = input.len().max(lines.len()) > LONG;
        let too_many = is_long && long[refusal] == LONG_ONES;
        if too_many || lines.len() > LONGEST || refusal > 0 && given[refusal] > count / SHARE {
            continue;
        }
        stored.put(&input, &lines);
        taken += 1;
        long[refusal] += usize::from(is_long);
        given[refusal] += 1;
    }
}
