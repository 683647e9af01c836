//! The statements of a function, read from the statement record and the numbers beside it.

use std::fmt;

use crate::place::{Elem, Place, ROOT};

const AT_ITEM: u32 = 13;
const AT_ENTRY: u32 = 14;
const FOLD: u32 = 15;
const UNFOLD: u32 = 16;

/// The number beside a statement that was collected.
const DASH: u32 = 255;

/// The most nodes of a state, and the entries of a join point's share of the store.
pub const SHARE: usize = 512;

/// Where a statement stands. An edge is its target item.
#[derive(Clone, Copy, PartialEq, Eq, PartialOrd, Ord, Hash, Debug)]
pub enum Point {
    Entry,
    BeforeItem(u32),
}

#[derive(Clone, Copy, PartialEq, Eq, PartialOrd, Ord, Hash, Debug)]
pub enum Verb {
    Fold,
    Unfold,
}

/// Where a statement comes from, and of an unfold where the opening began.
#[derive(Clone, Copy, PartialEq, Eq, PartialOrd, Ord, Hash, Debug)]
pub enum Told {
    /// From a use. Of an unfold: how many elements of the place the walk had passed before the step that
    /// first opened one; `unfold _1.*.0 1` says that `_1` was open and `_1.*` was folded. Of a fold 0.
    Used(u8),
    /// Collected at an edge, at the entry or at a return, to bring one state to another.
    Collected,
    /// No number stands beside the record: those of [`crate::crate_statements`] and of
    /// [`read_record`].
    Unknown,
}

impl Told {
    /// Of a number beside a statement, if it can stand there.
    fn read(verb: Verb, place: &Place, number: u32) -> Option<Told> {
        match (verb, number) {
            (_, DASH) => Some(Told::Collected),
            (Verb::Fold, 0) => Some(Told::Used(0)),
            (Verb::Fold, _) => None,
            (Verb::Unfold, _) => {
                let passed = u8::try_from(number).ok()?;
                (usize::from(passed) <= place.elems.len()).then_some(Told::Used(passed))
            }
        }
    }
}

#[derive(Clone, PartialEq, Eq, PartialOrd, Ord, Hash, Debug)]
pub struct Statement {
    pub point: Point,
    pub verb: Verb,
    pub place: Place,
    pub told: Told,
}

/// What a function was accepted with.
#[derive(Clone, PartialEq, Eq, Debug)]
pub struct Statements {
    pub(crate) record: Vec<u32>,
    pub(crate) numbers: Vec<u32>,
    pub(crate) list: Vec<Statement>,
    pub(crate) join_points: Vec<u32>,
    pub(crate) forms: Vec<u16>,
    pub(crate) whats: Vec<u16>,
}

/// A stored state: a form and a variant per node, in preorder, zeros behind the last. All zeros
/// stand for "all folded" and for a block that nothing reaches alike.
#[derive(Clone, Copy, PartialEq, Eq, Debug)]
pub struct Stored<'a> {
    pub forms: &'a [u16],
    pub whats: &'a [u16],
}

impl Statements {
    /// In the order of the record.
    pub fn iter(&self) -> std::slice::Iter<'_, Statement> {
        self.list.iter()
    }

    pub fn len(&self) -> usize {
        self.list.len()
    }

    pub fn is_empty(&self) -> bool {
        self.list.is_empty()
    }

    /// The statements at a point, in order.
    pub fn at(&self, point: Point) -> impl Iterator<Item = &Statement> {
        self.iter().filter(move |statement| statement.point == point)
    }

    /// The statement record: counts of statements and entries, ops, args.
    pub fn record(&self) -> &[u32] {
        &self.record
    }

    /// The numbers beside the record, one a statement: 255 for one that was collected. None stand
    /// beside those of [`crate::crate_statements`].
    pub fn numbers(&self) -> &[u32] {
        &self.numbers
    }

    /// The join points, in block order.
    pub fn join_points(&self) -> &[u32] {
        &self.join_points
    }

    /// The final state of a join point. Of [`crate::crate_statements`] only the last function has it.
    pub fn stored(&self, block: u32) -> Option<Stored<'_>> {
        let share = self.join_points.binary_search(&block).ok()?;
        let entries = share * SHARE..(share + 1) * SHARE;
        let (forms, whats) = (self.forms.get(entries.clone())?, self.whats.get(entries)?);
        Some(Stored { forms, whats })
    }
}

impl<'a> IntoIterator for &'a Statements {
    type Item = &'a Statement;
    type IntoIter = std::slice::Iter<'a, Statement>;

    fn into_iter(self) -> Self::IntoIter {
        self.iter()
    }
}

/// The statements of a record and of the numbers beside it, or none if the words are no statement
/// record, or the numbers too few or none that can stand there. What is behind them isn't looked at.
///
/// ```
/// use hirvoksne::{read_numbered, read_record, Told};
///
/// let record = [2, 6, 13, 16, 0, 13, 15, 0, 2, 0, 1, 4, 0, 1];
/// let statements = read_numbered(&record, &[0, 255]).unwrap();
/// assert_eq!(statements[0].to_string(), "at 2 unfold _1 0");
/// assert_eq!(statements[1].to_string(), "at 4 fold _1 -");
/// assert_eq!(statements[1].told, Told::Collected);
/// assert_eq!(read_record(&record).unwrap()[0].to_string(), "at 2 unfold _1");
/// ```
pub fn read_numbered(words: &[u32], numbers: &[u32]) -> Option<Vec<Statement>> {
    let mut list = read_record(words)?;
    let numbers = numbers.get(..list.len())?;
    for (statement, &number) in list.iter_mut().zip(numbers) {
        statement.told = Told::read(statement.verb, &statement.place, number)?;
    }
    Some(list)
}

/// The statements of a record, or none if the words are no statement record. What the numbers beside it
/// tell is [`Told::Unknown`].
pub fn read_record(words: &[u32]) -> Option<Vec<Statement>> {
    let (count, entries) = (*words.first()? as usize, *words.get(1)? as usize);
    let ops = words.get(2..2 + entries)?;
    let args = words.get(2 + entries..2 + 2 * entries)?;
    let mut list: Vec<Statement> = vec![];
    let mut items = ops.iter().copied().zip(args.iter().copied()).peekable();
    while let Some(first) = items.next() {
        let point = match first {
            (AT_ENTRY, 0) => Point::Entry,
            (AT_ITEM, item) => Point::BeforeItem(item),
            _ => return None,
        };
        let verb = match items.next()? {
            (FOLD, 0) => Verb::Fold,
            (UNFOLD, 0) => Verb::Unfold,
            _ => return None,
        };
        let (ROOT, local) = items.next()? else { return None };
        let mut place = Place::local(local);
        while let Some((op, arg)) = items.next_if(|&(op, _)| op < AT_ITEM) {
            place.elems.push(Elem::from_item(op, arg)?);
        }
        list.push(Statement { point, verb, place, told: Told::Unknown });
    }
    (list.len() == count).then_some(list)
}

impl fmt::Display for Point {
    fn fmt(&self, f: &mut fmt::Formatter<'_>) -> fmt::Result {
        match self {
            Point::Entry => write!(f, "entry"),
            Point::BeforeItem(item) => write!(f, "at {item}"),
        }
    }
}

impl fmt::Display for Verb {
    fn fmt(&self, f: &mut fmt::Formatter<'_>) -> fmt::Result {
        write!(f, "{}", if *self == Verb::Fold { "fold" } else { "unfold" })
    }
}

/// Point, verb, place; then behind an unfold from a use its number, and behind what was collected `-`.
impl fmt::Display for Statement {
    fn fmt(&self, f: &mut fmt::Formatter<'_>) -> fmt::Result {
        write!(f, "{} {} {}", self.point, self.verb, self.place)?;
        match (self.verb, self.told) {
            (Verb::Unfold, Told::Used(passed)) => write!(f, " {passed}"),
            (_, Told::Collected) => write!(f, " -"),
            (Verb::Fold, Told::Used(_)) | (_, Told::Unknown) => Ok(()),
        }
    }
}

/// One line per statement.
impl fmt::Display for Statements {
    fn fmt(&self, f: &mut fmt::Formatter<'_>) -> fmt::Result {
        self.iter().try_for_each(|statement| writeln!(f, "{statement}"))
    }
}
