//! Runs the plain implementation on what the programs in the gate have stored, and counts where it
//! answers something else than their `stdout` says. On the implementation as it is that is nowhere;
//! `altered` asks for the same of implementations with one wrong line.

mod answers;

use crate::steps::desk::{self, costs_line};
use crate::steps::marks::marks_line;
use crate::steps::writing::{text_line, write_lines};
use crate::{plain, steps};
use answers::{Answer, Lines};
use std::path::Path;
use std::{fs, io};

/// How many calls or inputs one program has stored, and how many of them are answered otherwise.
pub struct Stored {
    pub program: &'static str,
    pub inputs: usize,
    pub different: usize,
}

/// All programs, from the folder of their crates.
pub fn all(crates: &Path) -> io::Result<Vec<Stored>> {
    Ok(vec![
        compare(crates, "test_read", reads)?,
        compare(crates, "test_check", checks)?,
        compare(crates, "test_parse", parses)?,
        compare(crates, "test_pace", reports)?,
        compare(crates, "test_sweep", listings)?,
        compare(crates, "test_write", writes)?,
        compare(crates, "test_spelling", texts)?,
        compare(crates, "write_grammar", |text| vec![file_of(text)])?,
        compare(crates, "test_unmade", |text| vec![unmade(text)])?,
        compare(crates, "test_desk", desks)?,
        compare(crates, "test_marks", marks)?,
        compare(crates, "test_mark_lines", mark_lines)?,
        compare(crates, "print_marks", |input| vec![Lines::of(input)])?,
    ])
}

/// The answers to a program's `stdin`, each against its part of `stdout`.
fn compare<A: Answer>(
    crates: &Path,
    program: &'static str,
    answers: fn(&[u8]) -> Vec<A>,
) -> io::Result<Stored> {
    let folder = crates.join(program);
    let answers = answers(&fs::read(folder.join("stdin"))?);
    let expected = fs::read(folder.join("stdout"))?;
    let expected = A::parts(&expected);
    assert_eq!(answers.len(), expected.len(), "answers of {program}");
    let different = answers.iter().zip(&expected).filter(|(a, e)| a != e);
    Ok(Stored {
        program,
        inputs: answers.len(),
        different: different.count(),
    })
}

/// The steps of an input, N numbers of two bytes each.
fn steps_of<const N: usize>(stdin: &[u8]) -> impl Iterator<Item = [u16; N]> + '_ {
    stdin
        .chunks_exact(2 * N)
        .map(|step| std::array::from_fn(|at| u16::from_le_bytes([step[2 * at], step[2 * at + 1]])))
}

/// The answers of `test_read`.
fn reads(stdin: &[u8]) -> Vec<String> {
    let mut file = vec![0; 6_656];
    let mut answers = Vec::new();
    for [kind, first, second] in steps_of(stdin) {
        let (size, room) = (usize::from(first), usize::from(second));
        match kind {
            0 => file[size] = second as u8,
            1 => {
                let mut words = vec![steps::OLD; room];
                let answer = match plain::read(&file[..size], &mut words) {
                    Ok(count) => format!("words {count}"),
                    Err(refusal) => format!("refused {refusal}"),
                };
                let digest = steps::digest(&words);
                answers.push(format!(
                    "bytes {size} room {room} {answer} digest {digest}\n"
                ));
            }
            _ => answers.push(format!("group {first}\n")),
        }
    }
    answers
}

/// The answers of `test_check`.
fn checks(stdin: &[u8]) -> Vec<String> {
    let answers = checked(stdin).into_iter().map(|(case, words)| {
        let answer = match plain::check(&words) {
            Ok(_) => "accepted".to_string(),
            Err(refusal) => format!("refused {refusal}"),
        };
        format!("case {case} {answer}\n")
    });
    answers.collect()
}

/// The cases of `test_check`: their numbers and words.
pub fn checked(stdin: &[u8]) -> Vec<(u16, Vec<u16>)> {
    let mut words = vec![0; 4_096];
    let mut cases = Vec::new();
    for [kind, first, second] in steps_of(stdin) {
        let first = usize::from(first);
        match kind {
            0 => words[first] = second,
            _ => cases.push((second, words[..first].to_vec())),
        }
    }
    cases
}

/// The answers of `test_parse`.
fn parses(stdin: &[u8]) -> Vec<String> {
    let mut words = vec![0; steps::MOST_WORDS];
    let mut tokens = vec![0; steps::MOST_TOKENS];
    let mut answers = Vec::new();
    for [kind, first, second, edits, rules] in steps_of(stdin) {
        let (place, n) = (usize::from(first), usize::from(second));
        match kind {
            0 => words[place] = second,
            1 => tokens[place] = second,
            _ => answers.push(steps::parse_line(
                &words[..place],
                &tokens[..n],
                usize::from(edits),
                usize::from(rules),
            )),
        }
    }
    answers
}

/// The answers of `test_pace`.
fn reports(stdin: &[u8]) -> Vec<String> {
    let mut words = vec![0; steps::MOST_WORDS];
    let mut tokens = vec![0; steps::MOST_TOKENS];
    let mut ticks = vec![0; steps::MOST_TOKENS];
    let mut answers = Vec::new();
    for [kind, first, second, third, fourth, fifth] in steps_of(stdin) {
        let place = usize::from(first);
        match kind {
            0 => words[place] = second,
            1 => {
                tokens[place] = second;
                ticks[place] = u32::from(third) + 65_536 * u32::from(fourth);
            }
            _ => answers.push(steps::report_line(
                &words[..place],
                &tokens[..usize::from(second)],
                &ticks[..usize::from(third)],
                usize::from(fourth),
                usize::from(fifth),
            )),
        }
    }
    answers
}

/// The answers of `test_write`.
fn writes(stdin: &[u8]) -> Vec<String> {
    let mut words = vec![0; steps::MOST_WORDS];
    let mut answers = Vec::new();
    for [kind, first, second] in steps_of(stdin) {
        let first = usize::from(first);
        match kind {
            0 => words[first] = second,
            _ => answers.push(write_lines(&words[..first], usize::from(second))),
        }
    }
    answers
}

/// The answers of `test_desk`.
fn desks(stdin: &[u8]) -> Vec<String> {
    let mut words = vec![0; desk::MOST_WORDS];
    let mut answers = Vec::new();
    for [kind, first, second, third] in steps_of(stdin) {
        let first = usize::from(first);
        let rooms = [second, third].map(usize::from);
        match kind {
            0 => words[first] = second,
            _ => answers.push(costs_line(&words[..first], rooms[0], rooms[1])),
        }
    }
    answers
}

/// The answers of `test_marks`.
fn marks(stdin: &[u8]) -> Vec<String> {
    let mut words = vec![0; steps::MOST_WORDS];
    let mut tokens = vec![0; steps::MOST_TOKENS];
    let mut answers = Vec::new();
    for [kind, first, second, edits, rules, marks] in steps_of(stdin) {
        let (place, n) = (usize::from(first), usize::from(second));
        match kind {
            0 => words[place] = second,
            1 => tokens[place] = second,
            _ => {
                let rooms = [edits, rules, marks].map(usize::from);
                answers.push(marks_line(&words[..place], &tokens[..n], rooms));
            }
        }
    }
    answers
}

/// The lines of `test_mark_lines`.
fn mark_lines(stdin: &[u8]) -> Vec<Lines> {
    inputs_of(stdin).into_iter().map(Lines::of).collect()
}

/// The listings of `test_sweep`.
fn listings(stdin: &[u8]) -> Vec<String> {
    inputs_of(stdin).into_iter().map(plain::listing).collect()
}

/// The answers of `test_spelling`.
fn texts(stdin: &[u8]) -> Vec<String> {
    inputs_of(stdin).into_iter().map(text_line).collect()
}

/// Inputs or texts, each behind its length.
fn inputs_of(stdin: &[u8]) -> Vec<&[u8]> {
    let mut inputs = Vec::new();
    let mut rest = stdin;
    while let Some((size, behind)) = rest.split_first_chunk::<4>() {
        let (input, behind) = behind.split_at(u32::from_le_bytes(*size) as usize);
        inputs.push(input);
        rest = behind;
    }
    inputs
}

/// The file that `write_grammar` makes of a text, nothing where it makes none.
fn file_of(text: &[u8]) -> Vec<u8> {
    plain::write_grammar(text).unwrap_or_default()
}

/// What `test_unmade` writes: what `write_grammar` does, and a line of its own.
fn unmade(text: &[u8]) -> Vec<u8> {
    let mut output = file_of(text);
    output.extend(b"nothing else was printed\n");
    output
}
