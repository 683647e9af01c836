//! MIR statements as they are: assignments by kind, and the items that they give.

use crate::{exported_call::exported_statement_items, place::Place, refusal::Refusal};

/// An operand of an assignment.
#[derive(Clone, PartialEq, Eq, Debug)]
pub enum Operand {
    /// Copied or moved.
    Place(Place),
    Constant,
}

impl From<Place> for Operand {
    fn from(place: Place) -> Operand {
        Operand::Place(place)
    }
}

/// What is assigned, by the nine kinds of `Rvalue`. Types, operators and constants' values are left
/// out, since no place is used by them.
#[derive(Clone, PartialEq, Eq, Debug)]
pub enum Rvalue {
    Use(Operand),
    Repeat(Operand),
    Ref(Place),
    /// A `Ref` whose borrow is fake. The place isn't used.
    FakeRef(Place),
    RawPtr(Place),
    Cast(Operand),
    BinaryOp(Operand, Operand),
    UnaryOp(Operand),
    /// The `UnaryOp` that reads a pointer's metadata. What the place points to is used.
    PtrMetadata(Operand),
    Discriminant(Place),
    Aggregate(Vec<Operand>),
}

impl Rvalue {
    /// Its kind and flag in a list.
    fn kind(&self) -> [u32; 2] {
        match self {
            Rvalue::Use(_) => [0, 0],
            Rvalue::Repeat(_) => [1, 0],
            Rvalue::Ref(_) => [2, 0],
            Rvalue::FakeRef(_) => [2, 1],
            Rvalue::RawPtr(_) => [3, 0],
            Rvalue::Cast(_) => [4, 0],
            Rvalue::BinaryOp(..) => [5, 0],
            Rvalue::UnaryOp(_) => [6, 0],
            Rvalue::PtrMetadata(_) => [6, 1],
            Rvalue::Discriminant(_) => [7, 0],
            Rvalue::Aggregate(_) => [8, 0],
        }
    }

    /// Its operands, in their order; none is a constant.
    fn operands(&self) -> Vec<Option<&Place>> {
        match self {
            Rvalue::Ref(place)
            | Rvalue::FakeRef(place)
            | Rvalue::RawPtr(place)
            | Rvalue::Discriminant(place) => vec![Some(place)],
            Rvalue::Use(op)
            | Rvalue::Repeat(op)
            | Rvalue::Cast(op)
            | Rvalue::UnaryOp(op)
            | Rvalue::PtrMetadata(op) => vec![op.place()],
            Rvalue::BinaryOp(first, second) => vec![first.place(), second.place()],
            Rvalue::Aggregate(ops) => ops.iter().map(Operand::place).collect(),
        }
    }
}

impl Operand {
    fn place(&self) -> Option<&Place> {
        match self {
            Operand::Place(place) => Some(place),
            Operand::Constant => None,
        }
    }
}

/// `place = rvalue`.
#[derive(Clone, PartialEq, Eq, Debug)]
pub struct Assign {
    pub place: Place,
    pub rvalue: Rvalue,
}

impl Assign {
    pub fn new(place: Place, rvalue: Rvalue) -> Assign {
        Assign { place, rvalue }
    }

    /// The statement as it stands in a list.
    fn write(&self, list: &mut Vec<u32>) {
        let operands = self.rvalue.operands();
        list.extend(self.rvalue.kind());
        list.push(operands.len() as u32);
        for operand in operands.into_iter().chain([Some(&self.place)]) {
            let items = operand.map_or(0, |place| 1 + place.elems.len());
            list.push(items as u32);
            list.extend(operand.iter().flat_map(|place| place.items()).flat_map(<[u32; 2]>::from));
        }
    }
}

/// The list of these statements, as document 02 lays it out.
///
/// ```
/// use hirvoksne::{statement_list, Assign, Place, Rvalue};
///
/// // _2 = &_1.0
/// let borrow = Assign::new(Place::local(2), Rvalue::Ref(Place::local(1).field(0)));
/// assert_eq!(statement_list(&[borrow]), [2, 0, 1, 2, 0, 1, 2, 0, 1, 0, 2]);
/// ```
pub fn statement_list(statements: &[Assign]) -> Vec<u32> {
    let mut list = vec![];
    statements.iter().for_each(|statement| statement.write(&mut list));
    list
}

/// The items of a list of statements, to be written into a block: [`crate::Open::items`].
#[derive(Clone, PartialEq, Eq, Default, Debug)]
pub struct Items {
    items: Vec<(u32, u32)>,
}

impl Items {
    /// Code and argument of each.
    pub fn as_slice(&self) -> &[(u32, u32)] {
        &self.items
    }
}

/// No list that is accepted gives more: its 16,384 items at most, and for each the deref that is added
/// and a use.
const MOST_ITEMS: usize = 3 * 16384;

/// The items that a list of statements gives, or why it is refused: [`Refusal::BadFunction`] or
/// [`Refusal::UnknownStatement`], never [`Refusal::ShortStore`], since the buffer is made here.
///
/// ```
/// use hirvoksne::{statement_items, statement_list, Assign, Place, Refusal, Rvalue};
///
/// // _2 = discriminant(_1.0)
/// let seen = Assign::new(Place::local(2), Rvalue::Discriminant(Place::local(1).field(0)));
/// let items = statement_items(&statement_list(&[seen]))?;
/// // The place is read, then its discriminant is noted.
/// assert_eq!(items.as_slice(), [(0, 1), (2, 0), (6, 0), (0, 2), (7, 0)]);
/// // There is no kind 9.
/// assert_eq!(statement_items(&[9, 0, 0, 1, 0, 2]), Err(Refusal::UnknownStatement));
/// # Ok::<(), Refusal>(())
/// ```
pub fn statement_items(list: &[u32]) -> Result<Items, Refusal> {
    // Each item that is given has a word of the list, or more.
    let mut out = vec![0; 1 + 2 * list.len().min(MOST_ITEMS)];
    let count = statement_items_into(list, &mut out)?;
    let (ops, args) = out[1..1 + 2 * count].split_at(count);
    Ok(Items { items: ops.iter().copied().zip(args.iter().copied()).collect() })
}

/// The same in a buffer that the caller lends: count, op[], arg[], then zeros. Gives the count. After a
/// refusal there are zeros alone.
pub fn statement_items_into(list: &[u32], out: &mut [u32]) -> Result<usize, Refusal> {
    match exported_statement_items(list, out) {
        0 => Ok(out[0] as usize),
        number => Err(Refusal::from_number(number).expect("the contract: a refusal's number")),
    }
}
