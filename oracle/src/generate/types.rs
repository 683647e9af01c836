//! Random type records.

use super::{rng::Rng, Size};
use crate::types::{record, Ty, TyKind};

/// A type record in the making.
#[derive(Clone, Default)]
pub struct TypeList {
    list: Vec<(TyKind, Vec<u32>)>,
}

impl TypeList {
    pub fn push(&mut self, kind: TyKind, parts: Vec<u32>) -> Ty {
        self.list.push((kind, parts));
        self.list.len() as Ty - 1
    }

    pub fn words(&self) -> Vec<u32> {
        record(&self.list)
    }

    /// The types that may be a field, a pointee or a local's.
    pub fn standing(&self) -> Vec<Ty> {
        (0..self.list.len() as Ty)
            .filter(|&ty| self.list[ty as usize].0 != TyKind::Variant)
            .collect()
    }
}

/// Type 0 is opaque; pointers may point anywhere, their own type included.
pub fn random_types(rng: &mut Rng, size: Size) -> TypeList {
    let most = match size {
        Size::Small => rng.range(3, 8),
        Size::Normal | Size::Large => rng.range(4, 18),
    };
    let mut types = TypeList::default();
    types.push(TyKind::Opaque, vec![]);
    while types.list.len() < most {
        random_type(rng, &mut types);
    }
    let standing = types.standing();
    for (kind, parts) in &mut types.list {
        if matches!(kind, TyKind::Pointer | TyKind::MutRef | TyKind::Box) {
            parts[0] = rng.pick(&standing);
        }
    }
    types
}

fn random_type(rng: &mut Rng, types: &mut TypeList) {
    let kind = rng.weighted(&[
        (8, TyKind::Pointer),
        (16, TyKind::MutRef),
        (10, TyKind::Box),
        (12, TyKind::Array),
        (13, TyKind::Tuple),
        (24, TyKind::Struct),
        (24, TyKind::Enum),
        (6, TyKind::Closure),
        (6, TyKind::Coroutine),
        (2, TyKind::Opaque),
    ]);
    match kind {
        TyKind::Opaque | TyKind::Array => {
            types.push(kind, vec![]);
        }
        // The pointee is chosen when all types are there.
        TyKind::Pointer | TyKind::MutRef | TyKind::Box => {
            types.push(kind, vec![0]);
        }
        TyKind::Enum => random_enum(rng, types),
        _ => {
            let fields = random_fields(rng, types, 3);
            types.push(kind, fields);
        }
    }
}

fn random_fields(rng: &mut Rng, types: &TypeList, most: usize) -> Vec<u32> {
    let standing = types.standing();
    let count = if rng.chance(12) { 0 } else { rng.range(1, most) };
    // The latest types are the deepest.
    let deep = standing.len().saturating_sub(4);
    (0..count)
        .map(|_| match rng.chance(60) {
            true => rng.pick(&standing[deep..]),
            false => rng.pick(&standing),
        })
        .collect()
}

fn random_enum(rng: &mut Rng, types: &mut TypeList) {
    let count = rng.weighted(&[(3, 0), (12, 1), (45, 2), (30, 3), (10, 4)]);
    let first = rng.weighted(&[(80, 0), (10, 7), (10, u32::MAX - 3)]);
    let mut variants = vec![];
    for i in 0..count {
        let mut parts = vec![first + i];
        if !rng.chance(25) {
            parts.extend(random_fields(rng, types, 2));
        }
        variants.push(types.push(TyKind::Variant, parts));
    }
    if rng.chance(15) {
        variants.reverse();
    }
    types.push(TyKind::Enum, variants.clone());
    // A second enum with the same variants, or with one of them.
    if rng.chance(6) && !variants.is_empty() {
        variants.truncate(1);
        types.push(TyKind::Enum, variants);
    }
}
