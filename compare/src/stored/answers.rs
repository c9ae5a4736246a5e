//! The answers that an output of a program in the gate is made of.

use crate::plain;

/// The answer to one call or input: lines, those of `print_marks`, or the bytes of a file.
pub trait Answer: PartialEq + Sized {
    /// Cuts an output into the answers it is made of.
    fn parts(output: &[u8]) -> Vec<Self>;
}

impl Answer for String {
    /// A listing, the lines of a written file, or a single line.
    fn parts(output: &[u8]) -> Vec<String> {
        let output = std::str::from_utf8(output).expect("lines");
        let mut parts: Vec<String> = Vec::new();
        for line in output.split_inclusive('\n') {
            let goes_on = ["delete ", "insert ", "pace ", "block "]
                .iter()
                .any(|word| line.starts_with(word));
            match parts.last_mut() {
                Some(part) if goes_on => part.push_str(line),
                _ => parts.push(line.to_string()),
            }
        }
        parts
    }
}

/// What `print_marks` prints for one input.
#[derive(PartialEq)]
pub struct Lines(String);

impl Lines {
    pub fn of(input: &[u8]) -> Lines {
        Lines(plain::mark_lines(input))
    }
}

impl Answer for Lines {
    /// The numbers of marks, or a refusal, come last.
    fn parts(output: &[u8]) -> Vec<Lines> {
        let output = std::str::from_utf8(output).expect("lines");
        let mut parts = Vec::new();
        let mut part = String::new();
        for line in output.split_inclusive('\n') {
            part.push_str(line);
            if line.starts_with("marks ") || line.starts_with("refused ") {
                parts.push(Lines(std::mem::take(&mut part)));
            }
        }
        assert_eq!(part, "", "lines behind the last answer");
        parts
    }
}

impl Answer for Vec<u8> {
    /// All of it: the program makes one file.
    fn parts(output: &[u8]) -> Vec<Vec<u8>> {
        vec![output.to_vec()]
    }
}
