//! The program `write_grammar`: from a text of decimal numbers to the grammar file of its words.

use super::writer::write;
use crate::answer::LONGEST_FILE;

/// The words of a text, or the place, from 1, of the first that is no number. They are the longest runs
/// of bytes that are not blank.
pub fn words_of_text(text: &[u8]) -> Result<Vec<u16>, usize> {
    let mut words = Vec::new();
    for run in text.split(|&byte| is_blank(byte)) {
        // Nothing stands between two blanks.
        if run.is_empty() {
            continue;
        }
        match number_of(run) {
            Some(number) => words.push(number),
            None => return Err(words.len() + 1),
        }
    }
    Ok(words)
}

/// A space, a tab, a newline or a carriage return.
fn is_blank(byte: u8) -> bool {
    matches!(byte, b' ' | b'\t' | b'\n' | b'\r')
}

/// The number that a run of bytes spells: digits only, of any number, and at most 65,535.
fn number_of(run: &[u8]) -> Option<u16> {
    if !run.iter().all(|byte| byte.is_ascii_digit()) {
        return None;
    }
    let mut number = 0u64;
    for &digit in run {
        number = 10 * number + u64::from(digit - b'0');
        // It only grows from here.
        if number > 65_535 {
            return None;
        }
    }
    Some(number as u16)
}

/// What the program writes for a text: the file to standard output, or a line to standard error and
/// nothing to standard output.
pub fn write_grammar(text: &[u8]) -> Result<Vec<u8>, String> {
    let words = words_of_text(text)
        .map_err(|place| format!("write_grammar: word {place} is no number from 0 to 65535\n"))?;
    let mut bytes = vec![0; LONGEST_FILE];
    let size = write(&words, &mut bytes)
        .map_err(|refusal| format!("write_grammar: refused {refusal}\n"))?;
    bytes.truncate(size);
    Ok(bytes)
}
