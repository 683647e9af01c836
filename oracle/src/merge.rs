//! Two type records become one (document 02, F-6), and what a function over the second becomes.

use crate::{
    refusal::Refusal,
    types::{record, TyKind, Types, MAX_PARTS, MAX_TYPES},
};

/// The types of the first, then those of the second, as a type record in `out`, then zeros. The
/// length of the record, or a refusal.
pub fn merge_types(first: &[u32], second: &[u32], out: &mut [u32]) -> Result<usize, Refusal> {
    out.fill(0);
    let first = Types::read(first)?;
    let second = Types::read(second)?;
    let kept = first.iter().map(|(kind, parts)| (kind, parts.to_vec()));
    let moved = second.iter().map(|(kind, parts)| (kind, moved_parts(kind, parts, first.len())));
    let merged: Vec<_> = kept.chain(moved).collect();
    let part_count: usize = merged.iter().map(|(_, parts)| parts.len()).sum();
    if merged.len() > MAX_TYPES || part_count > MAX_PARTS {
        return Err(Refusal::MergedTooLarge);
    }
    let words = record(&merged);
    let room = out.get_mut(..words.len()).ok_or(Refusal::ShortStore)?;
    room.copy_from_slice(&words);
    Ok(words.len())
}

/// The parts of a type of the second record: type numbers move up, a variant's discriminant doesn't.
fn moved_parts(kind: TyKind, parts: &[u32], by: usize) -> Vec<u32> {
    let moved = |numbers: &[u32]| numbers.iter().map(|ty| ty + by as u32).collect();
    match kind {
        TyKind::Opaque | TyKind::Array => vec![],
        TyKind::Pointer | TyKind::MutRef | TyKind::Box => moved(parts),
        TyKind::Tuple | TyKind::Struct | TyKind::Closure | TyKind::Coroutine => moved(parts),
        TyKind::Enum => moved(parts),
        TyKind::Variant => [vec![parts[0]], moved(&parts[1..])].concat(),
    }
}

/// The local types of a function record, as far as they are there.
pub fn local_types(function: &[u32]) -> &[u32] {
    let count = function.first().map_or(0, |&count| count as usize);
    let behind = function.get(4..).unwrap_or(&[]);
    &behind[..count.min(behind.len())]
}

/// A function record with its local types moved up; nothing if one doesn't fit in a word then.
pub fn moved(function: &[u32], by: u32) -> Option<Vec<u32>> {
    let mut words = function.to_vec();
    for (at, ty) in (4..).zip(local_types(function)) {
        words[at] = ty.checked_add(by)?;
    }
    Some(words)
}
