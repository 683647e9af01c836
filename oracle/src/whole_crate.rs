//! A whole crate in one call (document 02, F-3): up to 64 function records over one type record, each
//! called alone, in order, with the output room that the earlier ones left.

use crate::{
    calls::{ghost_statements, Counts},
    function::written_length,
    refusal::Refusal,
    types::Types,
};

pub const MAX_FUNCTIONS: u32 = 64;

/// A refusal, and the position of the function that it is of, counted from 1; 0 for none.
pub type RefusedAt = (Refusal, usize);

/// The counts of each function. The store is left as the last function leaves it.
pub fn crate_statements(
    types: &[u32],
    words: &[u32],
    store_forms: &mut [u16],
    store_whats: &mut [u16],
    out: &mut [u32],
) -> Result<Vec<Counts>, RefusedAt> {
    store_forms.fill(0);
    store_whats.fill(0);
    out.fill(0);
    let functions = functions(types, words).map_err(|refusal| (refusal, 0))?;
    let mut counts = vec![];
    let mut used = 0;
    for (position, function) in (1..).zip(functions) {
        let room = &mut out[used..];
        // No numbers are given here, so their array is long enough, whatever fits the room.
        let mut told = vec![0; room.len()];
        match ghost_statements(types, function, store_forms, store_whats, room, &mut told) {
            Ok((statements, entries)) => {
                counts.push((statements, entries));
                used += 2 + 2 * entries;
            }
            Err(refusal) => {
                out.fill(0);
                return Err((refusal, position));
            }
        }
    }
    Ok(counts)
}

/// The records, once count, types and the words after the last record are tested.
fn functions<'a>(types: &[u32], words: &'a [u32]) -> Result<Vec<&'a [u32]>, Refusal> {
    let (&count, words) = words.split_first().ok_or(Refusal::BadFunction)?;
    if count > MAX_FUNCTIONS {
        return Err(Refusal::BadFunction);
    }
    Types::read(types)?;
    let (functions, spare) = records(count, words);
    if spare.is_empty() {
        Ok(functions)
    } else {
        Err(Refusal::BadFunction)
    }
}

/// So many records one after another, and the words after the last. A record ends where its sizes say; of
/// one that is cut off there is what is there.
pub fn records(count: u32, mut words: &[u32]) -> (Vec<&[u32]>, &[u32]) {
    let mut records = vec![];
    for _ in 0..count {
        let here = words.len() as u64;
        let length = written_length(words).map_or(here, |length| length.min(here));
        let (record, behind) = words.split_at(length as usize);
        records.push(record);
        words = behind;
    }
    (records, words)
}
