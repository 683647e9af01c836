//! A type record in the making.

/// A type that a field, a pointee or a local may have.
#[derive(Clone, Copy, PartialEq, Eq, PartialOrd, Ord, Hash, Debug)]
pub struct Type(pub(crate) u32);

/// A variant. Only an enum takes it.
#[derive(Clone, Copy, PartialEq, Eq, PartialOrd, Ord, Hash, Debug)]
pub struct Variant(u32);

/// A pointer of which it may be said later what it points to: see [`Types::point`].
#[derive(Clone, Copy, PartialEq, Eq, Debug)]
pub struct Later(u32);

impl Later {
    pub fn ty(self) -> Type {
        Type(self.0)
    }
}

#[derive(Clone, Copy, PartialEq, Eq, Debug)]
pub enum Pointer {
    /// A shared reference or a raw pointer.
    Plain = 1,
    MutRef = 2,
    Box = 3,
}

impl Type {
    /// Its number in the record.
    pub fn number(self) -> u32 {
        self.0
    }

    /// The same type of a second record, once it is merged behind a first of so many types
    /// ([`Types::count`]): see [`crate::merge_types`]. A number that doesn't fit is 2^32 − 1, which no
    /// record has.
    pub fn moved(self, by: u32) -> Type {
        Type(self.0.saturating_add(by))
    }
}

const OPAQUE: u32 = 0;
const ARRAY: u32 = 4;
const TUPLE: u32 = 5;
const STRUCT: u32 = 6;
const ENUM: u32 = 7;
const VARIANT: u32 = 8;
const CLOSURE: u32 = 9;
const COROUTINE: u32 = 10;

/// The types of a function, written one after the other. A part is named by what an earlier call
/// gave, so every rule of the layout but the limits (4,096 types, 16,384 parts) and an enum's
/// discriminants, which differ, is kept, as long as types of two records aren't mixed.
///
/// ```
/// use hirvoksne::{Pointer, Types};
/// let mut types = Types::new();
/// let int = types.opaque();
/// // enum List { Nil, Cons(int, Box<List>) }
/// let next = types.later(Pointer::Box);
/// let nil = types.variant(0, &[]);
/// let cons = types.variant(1, &[int, next.ty()]);
/// let list = types.enumeration(&[nil, cons]);
/// types.point(next, list);
/// assert_eq!(types.record(), [5, 7, 0, 3, 8, 8, 7, 0, 1, 1, 3, 2, 4, 0, 1, 0, 1, 2, 3]);
/// ```
#[derive(Clone, Default, Debug)]
pub struct Types {
    list: Vec<(u32, Vec<u32>)>,
}

impl Types {
    pub fn new() -> Types {
        Types::default()
    }

    /// A type with nothing to unfold.
    pub fn opaque(&mut self) -> Type {
        Type(self.push(OPAQUE, vec![]))
    }

    /// An array or a slice.
    pub fn array(&mut self) -> Type {
        Type(self.push(ARRAY, vec![]))
    }

    pub fn pointer(&mut self, kind: Pointer, to: Type) -> Type {
        Type(self.push(kind as u32, vec![to.0]))
    }

    /// A shared reference or a raw pointer.
    pub fn plain_pointer(&mut self, to: Type) -> Type {
        self.pointer(Pointer::Plain, to)
    }

    pub fn mut_ref(&mut self, to: Type) -> Type {
        self.pointer(Pointer::MutRef, to)
    }

    pub fn boxed(&mut self, to: Type) -> Type {
        self.pointer(Pointer::Box, to)
    }

    /// A pointer to a type that comes later. Until `point` is called it points to itself.
    pub fn later(&mut self, kind: Pointer) -> Later {
        let number = self.list.len() as u32;
        Later(self.push(kind as u32, vec![number]))
    }

    /// Says what a pointer points to.
    pub fn point(&mut self, pointer: Later, to: Type) {
        if let Some((_, parts)) = self.list.get_mut(pointer.0 as usize) {
            *parts = vec![to.0];
        }
    }

    pub fn tuple(&mut self, fields: &[Type]) -> Type {
        self.fielded(TUPLE, fields)
    }

    pub fn structure(&mut self, fields: &[Type]) -> Type {
        self.fielded(STRUCT, fields)
    }

    pub fn closure(&mut self, captured: &[Type]) -> Type {
        self.fielded(CLOSURE, captured)
    }

    pub fn coroutine(&mut self, captured: &[Type]) -> Type {
        self.fielded(COROUTINE, captured)
    }

    /// A variant with its discriminant.
    pub fn variant(&mut self, discriminant: u32, fields: &[Type]) -> Variant {
        let parts = std::iter::once(discriminant).chain(fields.iter().map(|field| field.0));
        Variant(self.push(VARIANT, parts.collect()))
    }

    pub fn enumeration(&mut self, variants: &[Variant]) -> Type {
        Type(self.push(ENUM, variants.iter().map(|variant| variant.0).collect()))
    }

    /// How many types there are, variants counted in.
    pub fn count(&self) -> u32 {
        self.list.len() as u32
    }

    /// The type record.
    pub fn record(&self) -> Vec<u32> {
        let counts = self.list.iter().map(|(_, parts)| parts.len() as u32);
        let mut words = vec![self.list.len() as u32, counts.clone().sum()];
        words.extend(self.list.iter().map(|(kind, _)| kind));
        words.extend(counts);
        words.extend(self.list.iter().flat_map(|(_, parts)| parts));
        words
    }

    fn fielded(&mut self, kind: u32, fields: &[Type]) -> Type {
        Type(self.push(kind, fields.iter().map(|field| field.0).collect()))
    }

    fn push(&mut self, kind: u32, parts: Vec<u32>) -> u32 {
        self.list.push((kind, parts));
        self.list.len() as u32 - 1
    }
}
