//! Places as items spell them, and refusal 4.

use std::fmt;

use crate::{refusal::Refusal, types::VariantIdx};

// Item codes of a place.
pub const ROOT: u32 = 0;
pub const DEREF: u32 = 1;
pub const FIELD: u32 = 2;
pub const DOWNCAST: u32 = 3;
pub const INDEX: u32 = 4;

/// Elements that a place may have, those after an index counted, the root not.
pub const MAX_ELEMENTS: usize = 128;
/// Deref and field elements before the first index.
pub const MAX_STEPS: usize = 63;
/// The same in a fold statement.
pub const MAX_FOLD_STEPS: usize = 64;

#[derive(Clone, Copy, PartialEq, Eq, Hash, Debug)]
pub enum PlaceElem {
    Deref,
    Field(u32),
    Downcast(VariantIdx),
    /// The source's `Index` and `ConstantIndex`.
    Index,
}

#[derive(Clone, PartialEq, Eq, Hash, Debug)]
pub struct Place {
    pub local: usize,
    pub projection: Vec<PlaceElem>,
}

/// What a place is handed in for; its limits depend on it.
#[derive(Clone, Copy, PartialEq, Eq, Debug)]
pub enum Role {
    Used,
    Folded,
    Unfolded,
}

impl PlaceElem {
    /// The element that an item spells; an arg that isn't named is 0.
    pub fn from_item(op: u32, arg: u32) -> Option<PlaceElem> {
        match (op, arg) {
            (DEREF, 0) => Some(PlaceElem::Deref),
            (FIELD, number) => Some(PlaceElem::Field(number)),
            (DOWNCAST, variant) => Some(PlaceElem::Downcast(variant)),
            (INDEX, 0) => Some(PlaceElem::Index),
            _ => None,
        }
    }

    pub fn to_item(self) -> (u32, u32) {
        match self {
            PlaceElem::Deref => (DEREF, 0),
            PlaceElem::Field(number) => (FIELD, number),
            PlaceElem::Downcast(variant) => (DOWNCAST, variant),
            PlaceElem::Index => (INDEX, 0),
        }
    }
}

impl Place {
    pub fn new(local: usize, projection: Vec<PlaceElem>) -> Place {
        Place { local, projection }
    }

    /// The place that a run of items spells, if all of it is one place.
    pub fn from_items(ops: &[u32], args: &[u32]) -> Option<Place> {
        if ops.len() != args.len() || *ops.first()? != ROOT {
            return None;
        }
        let projection = ops[1..]
            .iter()
            .zip(&args[1..])
            .map(|(&op, &arg)| PlaceElem::from_item(op, arg))
            .collect::<Option<Vec<_>>>()?;
        Some(Place::new(args[0] as usize, projection))
    }

    pub fn to_items(&self) -> Vec<(u32, u32)> {
        let root = (ROOT, self.local as u32);
        std::iter::once(root).chain(self.projection.iter().map(|elem| elem.to_item())).collect()
    }

    /// Does the place hold an index? Then it is an array's element, or lies inside one.
    pub fn holds_index(&self) -> bool {
        self.projection.contains(&PlaceElem::Index)
    }

    /// The place cut to its first elements.
    pub fn truncate(&self, len: usize) -> Place {
        Place::new(self.local, self.projection[..len].to_vec())
    }

    /// Refusal 4.
    pub fn check(&self, locals: usize, role: Role) -> Result<(), Refusal> {
        let walked = self.before_index();
        let steps = walked
            .iter()
            .filter(|elem| matches!(elem, PlaceElem::Deref | PlaceElem::Field(_)))
            .count();
        let max_steps = if role == Role::Folded { MAX_FOLD_STEPS } else { MAX_STEPS };
        let no_index = walked.len() == self.projection.len();
        let ends_in_downcast = no_index && matches!(walked.last(), Some(PlaceElem::Downcast(_)));
        if self.local >= locals
            || self.projection.len() > MAX_ELEMENTS
            || steps > max_steps
            || (ends_in_downcast && role != Role::Unfolded)
        {
            return Err(Refusal::BadPlace);
        }
        Ok(())
    }

    /// The elements before the first index.
    fn before_index(&self) -> &[PlaceElem] {
        let end = self
            .projection
            .iter()
            .position(|&elem| elem == PlaceElem::Index)
            .unwrap_or(self.projection.len());
        &self.projection[..end]
    }
}

/// The text of a place. No statement holds an index, so `[]` is never printed by `ghosts`.
impl fmt::Display for Place {
    fn fmt(&self, f: &mut fmt::Formatter<'_>) -> fmt::Result {
        write!(f, "_{}", self.local)?;
        for elem in &self.projection {
            match elem {
                PlaceElem::Deref => write!(f, ".*")?,
                PlaceElem::Field(number) => write!(f, ".{number}")?,
                PlaceElem::Downcast(variant) => write!(f, ".as{variant}")?,
                PlaceElem::Index => write!(f, "[]")?,
            }
        }
        Ok(())
    }
}
