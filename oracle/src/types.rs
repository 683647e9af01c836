//! The type record, read and written, and refusal 1. It stands for the source's `GlobalEnv` and `Ty`.

use std::collections::HashSet;

use crate::refusal::Refusal;

/// A type's number.
pub type Ty = u32;
pub type VariantIdx = u32;

pub const MAX_TYPES: usize = 4096;
pub const MAX_PARTS: usize = 16384;

#[derive(Clone, Copy, PartialEq, Eq, Debug)]
pub enum TyKind {
    Opaque,
    /// A shared reference or a raw pointer.
    Pointer,
    MutRef,
    Box,
    /// An array or a slice.
    Array,
    Tuple,
    Struct,
    Enum,
    Variant,
    Closure,
    Coroutine,
}

impl TyKind {
    fn from_code(code: u32) -> Option<TyKind> {
        Some(match code {
            0 => TyKind::Opaque,
            1 => TyKind::Pointer,
            2 => TyKind::MutRef,
            3 => TyKind::Box,
            4 => TyKind::Array,
            5 => TyKind::Tuple,
            6 => TyKind::Struct,
            7 => TyKind::Enum,
            8 => TyKind::Variant,
            9 => TyKind::Closure,
            10 => TyKind::Coroutine,
            _ => return None,
        })
    }
}

#[derive(Clone, Debug)]
pub struct Types {
    kinds: Vec<TyKind>,
    parts: Vec<Vec<u32>>,
}

/// The length that a type record's sizes say, whatever else is wrong with it.
pub fn written_length(words: &[u32]) -> Option<u64> {
    let sizes = words.get(..2)?;
    Some(2 + 2 * u64::from(sizes[0]) + u64::from(sizes[1]))
}

/// The type record of these types: T, P; kinds, counts, parts.
pub fn record(types: &[(TyKind, Vec<u32>)]) -> Vec<u32> {
    let counts = types.iter().map(|(_, parts)| parts.len() as u32);
    let mut words = vec![types.len() as u32, counts.clone().sum()];
    words.extend(types.iter().map(|(kind, _)| *kind as u32));
    words.extend(counts);
    words.extend(types.iter().flat_map(|(_, parts)| parts));
    words
}

impl Types {
    pub fn read(words: &[u32]) -> Result<Types, Refusal> {
        Types::parse(words).filter(Types::is_well_formed).ok_or(Refusal::BadTypes)
    }

    /// Cuts the words into kinds and parts; the counts must use the parts up.
    fn parse(words: &[u32]) -> Option<Types> {
        if written_length(words)? != words.len() as u64 {
            return None;
        }
        let (t, p) = (words[0] as usize, words[1] as usize);
        if !(1..=MAX_TYPES).contains(&t) || p > MAX_PARTS {
            return None;
        }
        let (kinds, rest) = words[2..].split_at(t);
        let (counts, mut rest) = rest.split_at(t);
        let kinds =
            kinds.iter().map(|&code| TyKind::from_code(code)).collect::<Option<Vec<_>>>()?;
        let mut parts = vec![];
        for &count in counts {
            parts.push(rest.get(..count as usize)?.to_vec());
            rest = &rest[count as usize..];
        }
        rest.is_empty().then_some(Types { kinds, parts })
    }

    fn is_well_formed(&self) -> bool {
        (0..self.len() as Ty).all(|ty| self.is_type_well_formed(ty))
    }

    fn is_type_well_formed(&self, ty: Ty) -> bool {
        let parts = self.parts(ty);
        match self.kind(ty) {
            TyKind::Opaque | TyKind::Array => parts.is_empty(),
            TyKind::Pointer | TyKind::MutRef | TyKind::Box => {
                parts.len() == 1 && self.may_stand(parts[0])
            }
            TyKind::Tuple | TyKind::Struct | TyKind::Closure | TyKind::Coroutine => {
                self.are_fields(parts, ty)
            }
            TyKind::Variant => !parts.is_empty() && self.are_fields(&parts[1..], ty),
            TyKind::Enum => self.are_variants(parts, ty),
        }
    }

    /// A type below T that is no variant: it may be pointed to, and a local may have it.
    pub fn may_stand(&self, ty: Ty) -> bool {
        (ty as usize) < self.len() && self.kind(ty) != TyKind::Variant
    }

    fn are_fields(&self, parts: &[u32], owner: Ty) -> bool {
        parts.iter().all(|&part| part < owner && self.may_stand(part))
    }

    fn are_variants(&self, parts: &[u32], owner: Ty) -> bool {
        let mut values = HashSet::new();
        parts.iter().all(|&part| {
            part < owner
                && self.kind(part) == TyKind::Variant
                && self.parts(part).first().is_some_and(|&value| values.insert(value))
        })
    }

    /// T. A record has at least one type.
    #[allow(clippy::len_without_is_empty)]
    pub fn len(&self) -> usize {
        self.kinds.len()
    }

    pub fn kind(&self, ty: Ty) -> TyKind {
        self.kinds[ty as usize]
    }

    fn parts(&self, ty: Ty) -> &[u32] {
        &self.parts[ty as usize]
    }

    /// Each type's kind and parts, in order.
    pub fn iter(&self) -> impl Iterator<Item = (TyKind, &[u32])> {
        self.kinds.iter().copied().zip(self.parts.iter().map(Vec::as_slice))
    }

    /// The pointee of a pointer, a mutable reference or a box.
    pub fn deref(&self, ty: Ty) -> Option<Ty> {
        match self.kind(ty) {
            TyKind::Pointer | TyKind::MutRef | TyKind::Box => Some(self.parts(ty)[0]),
            _ => None,
        }
    }

    /// The fields of a tuple, struct, closure or coroutine.
    pub fn fields(&self, ty: Ty) -> Option<&[Ty]> {
        match self.kind(ty) {
            TyKind::Tuple | TyKind::Struct | TyKind::Closure | TyKind::Coroutine => {
                Some(self.parts(ty))
            }
            _ => None,
        }
    }

    /// The fields of a variant of an enum, or of a struct's only variant 0.
    pub fn variant(&self, ty: Ty, idx: VariantIdx) -> Option<&[Ty]> {
        match self.kind(ty) {
            TyKind::Struct if idx == 0 => Some(self.parts(ty)),
            TyKind::Enum => {
                let variant = *self.parts(ty).get(idx as usize)?;
                Some(&self.parts(variant)[1..])
            }
            _ => None,
        }
    }

    /// An enum's discriminants, in the order of its variants.
    pub fn discriminants(&self, ty: Ty) -> impl Iterator<Item = (VariantIdx, u32)> + '_ {
        (0..).zip(self.parts(ty).iter().map(|&variant| self.parts(variant)[0]))
    }

    pub fn is_mut_ref(&self, ty: Ty) -> bool {
        self.kind(ty) == TyKind::MutRef
    }

    pub fn is_box(&self, ty: Ty) -> bool {
        self.kind(ty) == TyKind::Box
    }

    pub fn is_array(&self, ty: Ty) -> bool {
        self.kind(ty) == TyKind::Array
    }

    pub fn is_struct(&self, ty: Ty) -> bool {
        self.kind(ty) == TyKind::Struct
    }

    pub fn is_enum(&self, ty: Ty) -> bool {
        self.kind(ty) == TyKind::Enum
    }
}
