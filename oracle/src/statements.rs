//! MIR statements as they are (document 02, F-2): the source's `statement` and `operand`, which give
//! items in place of walking; and the list of words that holds such statements.

use crate::{
    function::{MAX_ITEMS, NOTE, READ, USE},
    place::{Place, PlaceElem},
    refusal::Refusal,
};

pub type Item = (u32, u32);

/// `Operand`, Copy and Move in one.
#[derive(Clone, PartialEq, Eq, Debug)]
pub enum Operand {
    Place(Place),
    Constant,
}

#[derive(Clone, Copy, PartialEq, Eq, Debug)]
pub enum BorrowKind {
    Fake,
    Other,
}

#[derive(Clone, Copy, PartialEq, Eq, Debug)]
pub enum UnOp {
    PtrMetadata,
    Other,
}

/// `Rvalue`, in the source's order, which numbers the kinds.
#[derive(Clone, PartialEq, Eq, Debug)]
pub enum Rvalue {
    Use(Operand),
    Repeat(Operand),
    Ref(BorrowKind, Place),
    RawPtr(Place),
    Cast(Operand),
    BinaryOp(Operand, Operand),
    UnaryOp(UnOp, Operand),
    Discriminant(Place),
    Aggregate(Vec<Operand>),
}

/// `StatementKind::Assign`.
#[derive(Clone, PartialEq, Eq, Debug)]
pub struct Assign {
    pub place: Place,
    pub rvalue: Rvalue,
}

impl Assign {
    /// `statement`. A discriminant is noted with its destination, by read and note.
    fn statement(&self, items: &mut Vec<Item>) {
        let place = &self.place;
        match &self.rvalue {
            Rvalue::UnaryOp(UnOp::PtrMetadata, Operand::Place(place)) => {
                let mut deref_place = place.clone();
                deref_place.projection.push(PlaceElem::Deref);
                projection(items, &deref_place);
            }
            Rvalue::Use(op) | Rvalue::Cast(op) | Rvalue::UnaryOp(_, op) => operand(items, op),
            Rvalue::Ref(bk, place) => {
                if *bk != BorrowKind::Fake {
                    projection(items, place);
                }
            }
            Rvalue::RawPtr(place) => projection(items, place),
            Rvalue::BinaryOp(op1, op2) => {
                operand(items, op1);
                operand(items, op2);
            }
            Rvalue::Aggregate(args) => args.iter().for_each(|arg| operand(items, arg)),
            Rvalue::Discriminant(discr) => {
                push(items, discr, READ);
                push(items, place, NOTE);
                return;
            }
            Rvalue::Repeat(op) => operand(items, op),
        }
        projection(items, place);
    }
}

fn operand(items: &mut Vec<Item>, op: &Operand) {
    match op {
        Operand::Place(place) => projection(items, place),
        Operand::Constant => {}
    }
}

fn projection(items: &mut Vec<Item>, place: &Place) {
    push(items, place, USE);
}

fn push(items: &mut Vec<Item>, place: &Place, action: u32) {
    items.extend(place.to_items());
    items.push((action, 0));
}

/// A statement as it stands in the list, of whatever kind.
#[derive(Clone, PartialEq, Eq, Debug)]
pub struct Listed {
    pub kind: u32,
    pub flag: u32,
    pub operands: Vec<Operand>,
    pub destination: Operand,
}

impl Listed {
    /// Refusal 11: what the source has no statement for.
    fn assign(&self) -> Result<Assign, Refusal> {
        let unknown = Refusal::UnknownStatement;
        let place = self.destination.place().ok_or(unknown)?;
        let fake = match self.flag {
            0 => false,
            1 if matches!(self.kind, 2 | 6) => true,
            _ => return Err(unknown),
        };
        let rvalue = match (self.kind, &self.operands[..]) {
            (0, [op]) => Rvalue::Use(op.clone()),
            (1, [op]) => Rvalue::Repeat(op.clone()),
            (2, [op]) => {
                let bk = if fake { BorrowKind::Fake } else { BorrowKind::Other };
                Rvalue::Ref(bk, op.place().ok_or(unknown)?)
            }
            (3, [op]) => Rvalue::RawPtr(op.place().ok_or(unknown)?),
            (4, [op]) => Rvalue::Cast(op.clone()),
            (5, [op1, op2]) => Rvalue::BinaryOp(op1.clone(), op2.clone()),
            (6, [op]) => {
                Rvalue::UnaryOp(if fake { UnOp::PtrMetadata } else { UnOp::Other }, op.clone())
            }
            (7, [op]) => Rvalue::Discriminant(op.place().ok_or(unknown)?),
            (8, args) => Rvalue::Aggregate(args.to_vec()),
            _ => return Err(unknown),
        };
        Ok(Assign { place, rvalue })
    }

    /// As it stands in a list.
    pub fn words(&self) -> Vec<u32> {
        let mut words = vec![self.kind, self.flag, self.operands.len() as u32];
        for op in self.operands.iter().chain([&self.destination]) {
            let items = op.place().map_or(vec![], |place| place.to_items());
            words.push(items.len() as u32);
            words.extend(items.iter().flat_map(|&(op, arg)| [op, arg]));
        }
        words
    }
}

impl Operand {
    fn place(&self) -> Option<Place> {
        match self {
            Operand::Place(place) => Some(place.clone()),
            Operand::Constant => None,
        }
    }
}

/// The words of a list that are left, and how many items were read.
struct Reader<'a> {
    words: &'a [u32],
    items: usize,
}

impl Reader<'_> {
    fn word(&mut self) -> Result<u32, Refusal> {
        let (&word, rest) = self.words.split_first().ok_or(Refusal::BadFunction)?;
        self.words = rest;
        Ok(word)
    }

    fn operand(&mut self) -> Result<Operand, Refusal> {
        let number = self.word()?;
        let (mut ops, mut args) = (vec![], vec![]);
        for _ in 0..number {
            ops.push(self.word()?);
            args.push(self.word()?);
        }
        self.items += ops.len();
        if ops.is_empty() {
            return Ok(Operand::Constant);
        }
        Place::from_items(&ops, &args).map(Operand::Place).ok_or(Refusal::BadFunction)
    }

    fn statement(&mut self) -> Result<Listed, Refusal> {
        let (kind, flag, count) = (self.word()?, self.word()?, self.word()?);
        let mut operands = vec![];
        for _ in 0..count {
            operands.push(self.operand()?);
        }
        let destination = self.operand()?;
        Ok(Listed { kind, flag, operands, destination })
    }
}

/// Refusal 2 over the whole list.
fn read(words: &[u32]) -> Result<Vec<Listed>, Refusal> {
    let mut reader = Reader { words, items: 0 };
    let mut list = vec![];
    while !reader.words.is_empty() {
        list.push(reader.statement()?);
    }
    match reader.items > MAX_ITEMS {
        true => Err(Refusal::BadFunction),
        false => Ok(list),
    }
}

/// The items of a list of statements: count, op[], arg[], then zeros. The count, or a refusal.
pub fn statement_items(words: &[u32], out: &mut [u32]) -> Result<usize, Refusal> {
    out.fill(0);
    let list = read(words)?;
    let assigns = list.iter().map(Listed::assign).collect::<Result<Vec<_>, _>>()?;
    let mut items = vec![];
    assigns.iter().for_each(|assign| assign.statement(&mut items));
    let count = items.len();
    if out.len() < 1 + 2 * count {
        return Err(Refusal::ShortStore);
    }
    out[0] = count as u32;
    for (i, &(op, arg)) in items.iter().enumerate() {
        out[1 + i] = op;
        out[1 + count + i] = arg;
    }
    Ok(count)
}
