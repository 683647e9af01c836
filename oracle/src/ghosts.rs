//! The text program: decimal words in, one line per statement out.

use crate::{
    calls::ghost_statements, function, ghost_statements::GhostStatements, refusal::Refusal,
    state::MAX_NODES, types,
};

pub const MAX_WORDS: usize = 4096;
pub const MAX_JOIN_POINTS: usize = 16;
pub const MAX_ENTRIES: usize = 1024;
/// Three entries a statement at the least, so that this is always enough.
const MAX_STATEMENTS: usize = MAX_ENTRIES / 3;

/// What `ghosts` prints for what it reads.
pub fn ghosts(input: &[u8]) -> String {
    match answer(input) {
        Ok(stmts) => stmts.to_string(),
        Err(refusal) => format!("refused {}\n", refusal.number()),
    }
}

fn answer(input: &[u8]) -> Result<GhostStatements, Refusal> {
    let words = read_words(input)?;
    let (types, function) = split_records(&words)?;
    let mut store_forms = vec![0; MAX_JOIN_POINTS * MAX_NODES];
    let mut store_whats = vec![0; MAX_JOIN_POINTS * MAX_NODES];
    let mut out = vec![0; 2 + 2 * MAX_ENTRIES];
    let mut told = vec![0; MAX_STATEMENTS];
    ghost_statements(types, function, &mut store_forms, &mut store_whats, &mut out, &mut told)?;
    Ok(GhostStatements::from_record(&out, &told).expect("a record just written"))
}

/// Too many words, a number from 2^32 or other text are 2, before all else.
fn read_words(input: &[u8]) -> Result<Vec<u32>, Refusal> {
    let words = input
        .split(|byte| matches!(byte, b' ' | b'\n'))
        .filter(|text| !text.is_empty())
        .map(|text| read_word(text).ok_or(Refusal::BadFunction))
        .collect::<Result<Vec<_>, _>>()?;
    if words.len() > MAX_WORDS {
        return Err(Refusal::BadFunction);
    }
    Ok(words)
}

/// Digits only; leading zeros are taken.
fn read_word(text: &[u8]) -> Option<u32> {
    text.iter().try_fold(0u32, |value, byte| {
        let digit = byte.is_ascii_digit().then(|| u32::from(byte - b'0'))?;
        value.checked_mul(10)?.checked_add(digit)
    })
}

/// Cuts the words by the sizes as written. Spare words are 2, even after bad types; too few
/// words are left to the record that they cut off.
fn split_records(words: &[u32]) -> Result<(&[u32], &[u32]), Refusal> {
    let Some(length) = types::written_length(words).filter(|&n| n <= words.len() as u64) else {
        return Ok((words, &[]));
    };
    let (types, function) = words.split_at(length as usize);
    match function::written_length(function) {
        Some(length) if length < function.len() as u64 => Err(Refusal::BadFunction),
        _ => Ok((types, function)),
    }
}
