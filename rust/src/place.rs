//! Places and their text.

use std::fmt;

/// The items of a place, by code.
pub(crate) const ROOT: u32 = 0;
const DEREF: u32 = 1;
const FIELD: u32 = 2;
const DOWNCAST: u32 = 3;
const INDEX: u32 = 4;

/// One step of a place.
#[derive(Clone, Copy, PartialEq, Eq, PartialOrd, Ord, Hash, Debug)]
pub enum Elem {
    Deref,
    Field(u32),
    Downcast(u32),
    /// In no statement.
    Index,
}

impl Elem {
    pub(crate) fn from_item(op: u32, arg: u32) -> Option<Elem> {
        Some(match (op, arg) {
            (DEREF, 0) => Elem::Deref,
            (FIELD, number) => Elem::Field(number),
            (DOWNCAST, variant) => Elem::Downcast(variant),
            (INDEX, 0) => Elem::Index,
            _ => return None,
        })
    }

    fn item(self) -> (u32, u32) {
        match self {
            Elem::Deref => (DEREF, 0),
            Elem::Field(number) => (FIELD, number),
            Elem::Downcast(variant) => (DOWNCAST, variant),
            Elem::Index => (INDEX, 0),
        }
    }
}

/// A local and the steps from it.
///
/// ```
/// use hirvoksne::Place;
/// let place = Place::local(1).deref().field(0).downcast(1);
/// assert_eq!(place.to_string(), "_1.*.0.as1");
/// ```
#[derive(Clone, PartialEq, Eq, PartialOrd, Ord, Hash, Debug)]
pub struct Place {
    pub local: u32,
    pub elems: Vec<Elem>,
}

impl Place {
    pub fn local(local: u32) -> Place {
        Place { local, elems: vec![] }
    }

    /// What a pointer, a reference or a box points to.
    pub fn deref(self) -> Place {
        self.then(Elem::Deref)
    }

    pub fn field(self, number: u32) -> Place {
        self.then(Elem::Field(number))
    }

    pub fn downcast(self, variant: u32) -> Place {
        self.then(Elem::Downcast(variant))
    }

    /// An element of an array or slice, whichever.
    pub fn index(self) -> Place {
        self.then(Elem::Index)
    }

    pub fn then(mut self, elem: Elem) -> Place {
        self.elems.push(elem);
        self
    }

    /// The root, then the elements, each as code and argument.
    pub(crate) fn items(&self) -> impl Iterator<Item = (u32, u32)> + '_ {
        std::iter::once((ROOT, self.local)).chain(self.elems.iter().map(|elem| elem.item()))
    }
}

/// Document 01's text; of an index, which no statement holds, `[]`.
impl fmt::Display for Place {
    fn fmt(&self, f: &mut fmt::Formatter<'_>) -> fmt::Result {
        write!(f, "_{}", self.local)?;
        self.elems.iter().try_for_each(|elem| match elem {
            Elem::Deref => write!(f, ".*"),
            Elem::Field(number) => write!(f, ".{number}"),
            Elem::Downcast(variant) => write!(f, ".as{variant}"),
            Elem::Index => write!(f, "[]"),
        })
    }
}
