//! Points, statements, the statement record as words, and the numbers beside it.

use std::fmt;

use crate::{
    place::{Place, Role},
    refusal::Refusal,
};

// Codes of the statement record, after those of items.
pub const AT_ITEM: u32 = 13;
pub const AT_ENTRY: u32 = 14;
pub const FOLD: u32 = 15;
pub const UNFOLD: u32 = 16;

/// The number beside a statement for which `-` is printed.
pub const DASH: u32 = 255;

/// Where a statement stands. An edge is its target item.
#[derive(Clone, Copy, PartialEq, Eq, Hash, Debug)]
pub enum Point {
    FunEntry,
    BeforeItem(usize),
}

#[derive(Clone, PartialEq, Eq, Debug)]
pub enum GhostStatement {
    Fold(Place),
    Unfold(Place),
}

/// What a statement tells of where it comes from (document 02, F-4).
#[derive(Clone, Copy, PartialEq, Eq, Debug)]
pub enum Told {
    /// Of an unfold from a walk: how many elements it had passed before the step that first changed a
    /// tree.
    Passed(usize),
    /// Of a fold from a walk.
    Nothing,
    /// Of one collected at an edge, at entry or at return.
    Collected,
}

/// A statement with its point and with what it tells.
pub type Placed = (Point, GhostStatement, Told);

/// All statements, in second-pass order.
#[derive(Clone, PartialEq, Eq, Debug, Default)]
pub struct GhostStatements {
    stmts: Vec<Placed>,
}

/// Where statements are collected.
pub struct StatementsAt<'a> {
    stmts: &'a mut GhostStatements,
    point: Point,
}

impl StatementsAt<'_> {
    pub fn insert(&mut self, stmt: GhostStatement) {
        self.stmts.insert_at(self.point, stmt, Told::Collected);
    }
}

impl GhostStatement {
    pub fn place(&self) -> &Place {
        match self {
            GhostStatement::Fold(place) | GhostStatement::Unfold(place) => place,
        }
    }

    pub fn role(&self) -> Role {
        match self {
            GhostStatement::Fold(_) => Role::Folded,
            GhostStatement::Unfold(_) => Role::Unfolded,
        }
    }

    fn code(&self) -> u32 {
        match self {
            GhostStatement::Fold(_) => FOLD,
            GhostStatement::Unfold(_) => UNFOLD,
        }
    }
}

impl GhostStatements {
    pub fn insert_at(&mut self, point: Point, stmt: GhostStatement, told: Told) {
        self.stmts.push((point, stmt, told));
    }

    pub fn at(&mut self, point: Point) -> StatementsAt<'_> {
        StatementsAt { stmts: self, point }
    }

    pub fn statements_at(&self, point: Point) -> impl Iterator<Item = &GhostStatement> {
        self.iter().filter(move |(at, ..)| *at == point).map(|(_, stmt, _)| stmt)
    }

    pub fn iter(&self) -> std::slice::Iter<'_, Placed> {
        self.stmts.iter()
    }

    pub fn len(&self) -> usize {
        self.stmts.len()
    }

    pub fn is_empty(&self) -> bool {
        self.stmts.is_empty()
    }

    /// Writes the record into a buffer of zeros and gives the counts of statements and entries.
    /// A buffer that is too short is 10 and stays as it was.
    pub fn write_record(&self, out: &mut [u32]) -> Result<(usize, usize), Refusal> {
        let entries = self.entries();
        let count = entries.len();
        if out.len() < 2 + 2 * count {
            return Err(Refusal::ShortStore);
        }
        out[0] = self.len() as u32;
        out[1] = count as u32;
        for (i, (op, arg)) in entries.into_iter().enumerate() {
            out[2 + i] = op;
            out[2 + count + i] = arg;
        }
        Ok((self.len(), count))
    }

    /// The numbers beside the record, one a statement.
    pub fn numbers(&self) -> Vec<u32> {
        self.iter().map(|(.., told)| told.number()).collect()
    }

    /// Per statement its point, its verb and its place.
    fn entries(&self) -> Vec<(u32, u32)> {
        let mut entries = vec![];
        for (point, stmt, _) in self.iter() {
            entries.push(point.entry());
            entries.push((stmt.code(), 0));
            entries.extend(stmt.place().to_items());
        }
        entries
    }

    /// Reads back what `write_record` wrote, with the numbers that stand beside it.
    pub fn from_record(words: &[u32], numbers: &[u32]) -> Option<GhostStatements> {
        let (statements, entries) = (*words.first()? as usize, *words.get(1)? as usize);
        let ops = words.get(2..2 + entries)?;
        let args = words.get(2 + entries..2 + 2 * entries)?;
        let mut stmts = GhostStatements::default();
        let mut at = 0;
        while at < entries {
            let point = Point::from_entry(ops[at], args[at])?;
            let verb = *ops.get(at + 1)?;
            let start = at + 2;
            // The place goes on to the next point; its own codes are all below 13.
            at = (start..entries).find(|&i| ops[i] >= AT_ITEM).unwrap_or(entries);
            let place = Place::from_items(&ops[start..at], &args[start..at])?;
            let stmt = statement(verb, place)?;
            let told = Told::from_number(&stmt, *numbers.get(stmts.len())?)?;
            stmts.insert_at(point, stmt, told);
        }
        (stmts.len() == statements).then_some(stmts)
    }

    /// The same of a record that a collecting call wrote, beside which no numbers stand.
    pub fn from_collected(words: &[u32]) -> Option<GhostStatements> {
        GhostStatements::from_record(words, &vec![DASH; words.len()])
    }
}

fn statement(verb: u32, place: Place) -> Option<GhostStatement> {
    match verb {
        FOLD => Some(GhostStatement::Fold(place)),
        UNFOLD => Some(GhostStatement::Unfold(place)),
        _ => None,
    }
}

impl Told {
    /// Its entry in the array beside the record.
    fn number(self) -> u32 {
        match self {
            Told::Passed(passed) => passed as u32,
            Told::Nothing => 0,
            Told::Collected => DASH,
        }
    }

    fn from_number(stmt: &GhostStatement, number: u32) -> Option<Told> {
        match (stmt, number) {
            (_, DASH) => Some(Told::Collected),
            (GhostStatement::Unfold(_), passed) => Some(Told::Passed(passed as usize)),
            (GhostStatement::Fold(_), 0) => Some(Told::Nothing),
            (GhostStatement::Fold(_), _) => None,
        }
    }
}

impl Point {
    fn entry(self) -> (u32, u32) {
        match self {
            Point::FunEntry => (AT_ENTRY, 0),
            Point::BeforeItem(item) => (AT_ITEM, item as u32),
        }
    }

    fn from_entry(op: u32, arg: u32) -> Option<Point> {
        match (op, arg) {
            (AT_ENTRY, 0) => Some(Point::FunEntry),
            (AT_ITEM, item) => Some(Point::BeforeItem(item as usize)),
            _ => None,
        }
    }
}

impl fmt::Display for Point {
    fn fmt(&self, f: &mut fmt::Formatter<'_>) -> fmt::Result {
        match self {
            Point::FunEntry => write!(f, "entry"),
            Point::BeforeItem(item) => write!(f, "at {item}"),
        }
    }
}

impl fmt::Display for GhostStatement {
    fn fmt(&self, f: &mut fmt::Formatter<'_>) -> fmt::Result {
        match self {
            GhostStatement::Fold(place) => write!(f, "fold {place}"),
            GhostStatement::Unfold(place) => write!(f, "unfold {place}"),
        }
    }
}

/// The last word of a line, with the blank before it; nothing for a fold from a walk.
impl fmt::Display for Told {
    fn fmt(&self, f: &mut fmt::Formatter<'_>) -> fmt::Result {
        match self {
            Told::Passed(passed) => write!(f, " {passed}"),
            Told::Nothing => Ok(()),
            Told::Collected => write!(f, " -"),
        }
    }
}

/// One line per statement: point, verb, place, and what it tells.
impl fmt::Display for GhostStatements {
    fn fmt(&self, f: &mut fmt::Formatter<'_>) -> fmt::Result {
        self.iter().try_for_each(|(point, stmt, told)| writeln!(f, "{point} {stmt}{told}"))
    }
}
