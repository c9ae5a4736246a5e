//! "The printed listing": the whole program, from the bytes of standard input to its text.

use super::check::check;
use super::pace::report;
use super::parse::{parse, DELETE};
use super::reader::read;
use crate::answer::{Pace, Parsed, Refusal, Report, LISTING_EDITS, LISTING_RULES, LISTING_WORDS};
use std::fmt::Write;

/// What the program prints for its standard input.
pub fn listing(input: &[u8]) -> String {
    match answer(input) {
        // "A refusal prints one line, `refused` and the number."
        Err(number) => format!("refused {number}\n"),
        Ok(answer) => print(&answer),
    }
}

/// Everything that is printed when nothing is refused.
struct Answer {
    tokens: usize,
    parsed: Parsed,
    edits: Vec<u16>,
    report: Report,
}

/// The grammar words, tokens and ticks of a standard input: refusals 1 to 9, and 10 for an entry cut short.
pub fn parts_of(input: &[u8]) -> Result<(Vec<u16>, Vec<u16>, Vec<u32>), Refusal> {
    // "a u16 block count (1..11), that many blocks, then entries of six bytes ... to the
    // end"; "A bad count, a count cut short, no input or missing blocks prints refusal 1".
    if input.len() < 2 {
        return Err(1);
    }
    let (count, rest) = input.split_at(2);
    let count = usize::from(u16::from_le_bytes([count[0], count[1]]));
    if !(1..=11).contains(&count) || rest.len() < count * 512 {
        return Err(1);
    }
    let (file, entries) = rest.split_at(count * 512);

    let mut words = vec![0; LISTING_WORDS];
    let number = read(file, &mut words)?;
    words.truncate(number);

    // "a last entry cut short counts under refusal 10": behind 5 to 9, before 11 and 12.
    check(&words)?;
    if entries.len() % 6 != 0 {
        return Err(10);
    }
    // "token u16 and tick u32", "little endian like the file"
    let tokens: Vec<u16> = entries
        .chunks(6)
        .map(|entry| u16::from_le_bytes([entry[0], entry[1]]))
        .collect();
    let ticks: Vec<u32> = entries
        .chunks(6)
        .map(|entry| u32::from_le_bytes([entry[2], entry[3], entry[4], entry[5]]))
        .collect();
    Ok((words, tokens, ticks))
}

fn answer(input: &[u8]) -> Result<Answer, Refusal> {
    let (words, tokens, ticks) = parts_of(input)?;
    let mut edits = vec![0; LISTING_EDITS];
    let mut rules = vec![0; LISTING_RULES];
    // 02 (viii): "The printing program gives it too", refusal 16, which comes before 11 and 12: no parse is run first.
    let report = report(&words, &tokens, &ticks, &mut edits, &mut rules)?;
    let parsed = parse(&words, &tokens, &mut edits, &mut rules)?;
    Ok(Answer {
        tokens: tokens.len(),
        parsed,
        edits,
        report,
    })
}

fn print(answer: &Answer) -> String {
    let mut text = String::new();
    let Parsed {
        moves,
        edits,
        rules,
    } = answer.parsed;
    // "The first line has n, moves, edit records and rule numbers listed."
    let tokens = answer.tokens;
    line(
        &mut text,
        format_args!("ok tokens {tokens} moves {moves} edits {edits} rules {rules}"),
    );
    // "An edit line has kind, place and symbol."
    for record in answer.edits.chunks(3).take(edits as usize) {
        let kind = if record[0] == DELETE {
            "delete"
        } else {
            "insert"
        };
        line(
            &mut text,
            format_args!("{kind} {} {}", record[1], record[2]),
        );
    }
    // "The last line has count and sum, or `pace idle`."
    let Report { cycles, ms, pace } = answer.report;
    match pace {
        Pace::Idle => line(&mut text, format_args!("pace idle")),
        Pace::Mean(_) => line(&mut text, format_args!("pace cycles {cycles} ms {ms}")),
    }
    text
}

pub fn line(text: &mut String, content: std::fmt::Arguments) {
    writeln!(text, "{content}").expect("writing to a string");
}
