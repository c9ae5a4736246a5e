//! The printing program over the tuned parts.

use super::parse::parse;
use super::reader::read;
use super::tables::Tables;
use crate::answer::{Pace, Refusal, LISTING_EDITS, LISTING_RULES, LISTING_WORDS};

/// What the program prints for its standard input.
pub fn listing(tables: &mut Tables, input: &[u8]) -> String {
    answer(tables, input).unwrap_or_else(|number| format!("refused {number}\n"))
}

/// The words, tokens and ticks of an input. Words are checked where the last entry is cut short.
pub(super) fn parts_of(
    tables: &mut Tables,
    input: &[u8],
) -> Result<(Vec<u16>, Vec<u16>, Vec<u32>), Refusal> {
    let (&count, rest) = input.split_first_chunk::<2>().ok_or(1u16)?;
    let count = usize::from(u16::from_le_bytes(count));
    if count == 0 || count > 11 {
        return Err(1);
    }
    let (file, entries) = rest.split_at_checked(512 * count).ok_or(1u16)?;
    let mut words = vec![0; LISTING_WORDS];
    let count = read(file, &mut words)?;
    words.truncate(count);
    if entries.len() % 6 != 0 {
        tables.check(&words)?;
        return Err(10);
    }
    let (mut tokens, mut ticks) = (Vec::new(), Vec::new());
    for entry in entries.chunks_exact(6) {
        tokens.push(u16::from_le_bytes([entry[0], entry[1]]));
        ticks.push(u32::from_le_bytes([entry[2], entry[3], entry[4], entry[5]]));
    }
    Ok((words, tokens, ticks))
}

fn answer(tables: &mut Tables, input: &[u8]) -> Result<String, Refusal> {
    let (words, tokens, ticks) = parts_of(tables, input)?;
    let mut edits = vec![0; LISTING_EDITS];
    let mut rules = vec![0; LISTING_RULES];
    // The report first: it gives 16 before 11 and 12.
    let report = super::report(tables, &words, &tokens, &ticks, &mut edits, &mut rules)?;
    let parsed = parse(tables, &words, &tokens, &mut edits, &mut rules)?;

    let mut lines = vec![format!(
        "ok tokens {} moves {} edits {} rules {}",
        tokens.len(),
        parsed.moves,
        parsed.edits,
        parsed.rules
    )];
    for record in edits[..3 * parsed.edits as usize].chunks_exact(3) {
        let kind = ["delete", "insert"][usize::from(record[0] == 2)];
        lines.push(format!("{kind} {} {}", record[1], record[2]));
    }
    lines.push(match report.pace {
        Pace::Idle => "pace idle".to_string(),
        Pace::Mean(_) => format!("pace cycles {} ms {}", report.cycles, report.ms),
    });
    Ok(lines.join("\n") + "\n")
}
