//! A function record in the making.

use crate::{
    assign::{statement_items, statement_list, Assign, Items},
    place::Place,
    refusal::Refusal,
    types::Type,
};

type Item = (u32, u32);

const USE: u32 = 5;
const READ: u32 = 6;
const NOTE: u32 = 7;
const SWITCH: u32 = 8;
const ARM: u32 = 9;
pub(crate) const TARGET: u32 = 10;
const RETURN: u32 = 11;
const STOP: u32 = 12;

/// The number of a block, to jump to.
#[derive(Clone, Copy, PartialEq, Eq, PartialOrd, Ord, Hash, Debug)]
pub struct Label(u32);

impl Label {
    /// Its number in the record.
    pub fn number(self) -> u32 {
        self.0
    }
}

/// A block that is being written. It offers what may come next, and nothing else: a use, a read
/// with its note, statements, or an ender, after which there is only a [`Block`] to hand over.
///
/// ```compile_fail
/// use hirvoksne::{Open, Place};
/// // A note without a read.
/// Open::new().note(&Place::local(1));
/// ```
///
/// ```compile_fail
/// use hirvoksne::{Open, Place};
/// // A use after the ender.
/// Open::new().stop().used(&Place::local(1));
/// ```
///
/// ```compile_fail
/// use hirvoksne::{Block, Open};
/// // A switch with no target.
/// let block: Block = Open::new().switch_constant();
/// ```
#[derive(Clone, Default, Debug)]
#[must_use]
pub struct Open {
    items: Vec<Item>,
}

/// A place was read; its note comes next.
#[derive(Clone, Debug)]
#[must_use]
pub struct Read {
    items: Vec<Item>,
}

/// A switch; arms, then the target of all other values.
#[derive(Clone, Debug)]
#[must_use]
pub struct Switch {
    items: Vec<Item>,
}

/// A block with its ender.
#[derive(Clone, Debug)]
#[must_use]
pub struct Block {
    items: Vec<Item>,
}

fn with_place(mut items: Vec<Item>, place: &Place, op: u32) -> Vec<Item> {
    items.extend(place.items());
    items.push((op, 0));
    items
}

fn with(mut items: Vec<Item>, item: Item) -> Vec<Item> {
    items.push(item);
    items
}

impl Open {
    pub fn new() -> Open {
        Open::default()
    }

    /// Uses a place.
    pub fn used(self, place: &Place) -> Open {
        Open { items: with_place(self.items, place, USE) }
    }

    /// Reads the discriminant of a place, which the note then puts into another.
    pub fn read(self, place: &Place) -> Read {
        Read { items: with_place(self.items, place, READ) }
    }

    /// The items of a list of statements.
    pub fn items(mut self, items: &Items) -> Open {
        self.items.extend(items.as_slice());
        self
    }

    /// MIR statements, by the items that they give. The only refusal is [`Refusal::BadFunction`], for
    /// over 16,384 items.
    ///
    /// ```
    /// use hirvoksne::{ghost_statements, Assign, Function, Open, Operand, Place, Rvalue, Types};
    ///
    /// // fn restore(timer: &mut Timer, value: u64), with enum Timer { Off, At { left: u64, next: u64 } }
    /// let mut types = Types::new();
    /// let int = types.opaque();
    /// let off = types.variant(0, &[]);
    /// let at = types.variant(1, &[int, int]);
    /// let timer = types.enumeration(&[off, at]);
    /// let timer = types.mut_ref(timer);
    ///
    /// let mut function = Function::new(int, &[timer, int], &[int, int]);
    /// let [start, armed, done] = function.blocks();
    /// let (value, kind, sum) = (Place::local(2), Place::local(3), Place::local(4));
    /// let timer = Place::local(1).deref();
    /// let [left, next] = [0, 1].map(|field| timer.clone().downcast(1).field(field));
    /// // _3 = discriminant(*_1); match
    /// let seen = Open::new().statements(&[Assign::new(kind.clone(), Rvalue::Discriminant(timer))])?;
    /// function.write(start, seen.switch(&kind).arm(1, armed).otherwise(done));
    /// // _4 = left + value; next = _4; left = 0
    /// let list = [
    ///     Assign::new(sum.clone(), Rvalue::BinaryOp(left.clone().into(), value.into())),
    ///     Assign::new(next, Rvalue::Use(sum.into())),
    ///     Assign::new(left, Rvalue::Use(Operand::Constant)),
    /// ];
    /// function.write(armed, Open::new().statements(&list)?.goto(done));
    /// function.write(done, Open::new().ret());
    ///
    /// let statements = ghost_statements(&types.record(), &function.record())?;
    /// let lines = ["at 2 unfold _1 0", "at 31 fold _1.* -", "at 9 fold _1.* -", "at 32 fold _1.* -"];
    /// assert_eq!(statements.to_string().lines().collect::<Vec<_>>(), lines);
    /// # Ok::<(), hirvoksne::Refusal>(())
    /// ```
    pub fn statements(self, statements: &[Assign]) -> Result<Open, Refusal> {
        Ok(self.items(&statement_items(&statement_list(statements))?))
    }

    /// Goes on to a block.
    pub fn goto(self, target: Label) -> Block {
        Block { items: with(self.items, (TARGET, target.0)) }
    }

    pub fn ret(self) -> Block {
        Block { items: with(self.items, (RETURN, 0)) }
    }

    pub fn stop(self) -> Block {
        Block { items: with(self.items, (STOP, 0)) }
    }

    /// A switch on a place: a match, if a note of this block remembers it. A match on an enum opens
    /// the variant of each arm. One on an element of an array opens nothing, and its arms may have
    /// any values:
    ///
    /// ```
    /// use hirvoksne::{ghost_statements, Function, Open, Place, Types};
    ///
    /// // fn restore(saved: &mut Saved), with struct Saved { timers: [Timer; 8], left: usize }
    /// let mut types = Types::new();
    /// let (int, timers) = (types.opaque(), types.array());
    /// let saved = types.structure(&[timers, int]);
    /// let saved = types.mut_ref(saved);
    ///
    /// let mut function = Function::new(int, &[saved], &[int, int]);
    /// let timer = Place::local(1).deref().field(0).index(); // (*_1).0[_3]
    /// let kind = Place::local(2); // its discriminant
    /// let [next, look, periodic, once, done] = function.blocks();
    /// // while saved.left != 0
    /// let left = Open::new().used(&Place::local(1).deref().field(1)).switch_constant();
    /// function.write(next, left.arm(0, done).otherwise(look));
    /// // match saved.timers[i]
    /// let seen = Open::new().read(&timer).note(&kind).switch(&kind);
    /// function.write(look, seen.arm(0, once).arm(1, periodic).otherwise(once));
    /// let period = timer.clone().downcast(1).field(0); // an element's parts aren't followed
    /// function.write(periodic, Open::new().used(&period).goto(next));
    /// function.write(once, Open::new().used(&timer).goto(next));
    /// function.write(done, Open::new().ret());
    ///
    /// let statements = ghost_statements(&types.record(), &function.record())?;
    /// // The owner of the timers is unfolded at the loop's test, and stays so through the match; it
    /// // is folded at the return, and on both ways back.
    /// let lines = ["at 3 unfold _1.* 0", "at 36 fold _1.* -", "at 29 fold _1 -", "at 35 fold _1 -"];
    /// assert_eq!(statements.to_string().lines().collect::<Vec<_>>(), lines);
    /// # Ok::<(), hirvoksne::Refusal>(())
    /// ```
    pub fn switch(self, place: &Place) -> Switch {
        Switch { items: with_place(self.items, place, SWITCH) }
    }

    pub fn switch_constant(self) -> Switch {
        Switch { items: with(self.items, (SWITCH, 0)) }
    }
}

impl Read {
    /// Where the discriminant is put.
    pub fn note(self, place: &Place) -> Open {
        Open { items: with_place(self.items, place, NOTE) }
    }
}

impl Switch {
    pub fn arm(self, value: u32, target: Label) -> Switch {
        Switch { items: with(with(self.items, (ARM, value)), (TARGET, target.0)) }
    }

    pub fn otherwise(self, target: Label) -> Block {
        Block { items: with(self.items, (TARGET, target.0)) }
    }
}

/// A function: its locals, what is used at its entry, and its blocks.
///
/// Document 01's worked example:
///
/// ```
/// use hirvoksne::{ghost_statements, Function, Open, Place, Types};
///
/// let mut types = Types::new();
/// let int = types.opaque();
/// let pair = types.structure(&[int, int]);
///
/// let mut function = Function::new(int, &[pair], &[]);
/// let one = Place::local(1);
/// let [start, whole, other, end] = function.blocks();
/// let test = Open::new().used(&one.clone().field(0)).switch_constant();
/// function.write(start, test.arm(0, whole).otherwise(other));
/// function.write(whole, Open::new().used(&one).goto(end));
/// function.write(other, Open::new().goto(end));
/// function.write(end, Open::new().ret());
///
/// let statements = ghost_statements(&types.record(), &function.record())?;
/// // The last is collected at an edge: nothing is used there.
/// assert_eq!(statements.to_string(), "at 2 unfold _1 0\nat 8 fold _1\nat 9 unfold _1 -\n");
/// # Ok::<(), hirvoksne::Refusal>(())
/// ```
#[derive(Clone, Debug)]
pub struct Function {
    locals: Vec<Type>,
    arg_count: u32,
    entry: Vec<Item>,
    blocks: Vec<Block>,
    ranks: Option<Vec<u32>>,
}

impl Function {
    /// Local 0 is the return place; then come the arguments, then all other locals.
    pub fn new(returned: Type, arguments: &[Type], others: &[Type]) -> Function {
        let mut locals = vec![returned];
        locals.extend(arguments);
        locals.extend(others);
        let arg_count = arguments.len() as u32;
        Function { locals, arg_count, entry: vec![], blocks: vec![], ranks: None }
    }

    /// Uses a place at the entry.
    pub fn used_at_entry(&mut self, place: &Place) {
        self.entry = with_place(std::mem::take(&mut self.entry), place, USE);
    }

    /// One more block. The first is the start block. A block that isn't written is a stop.
    pub fn block(&mut self) -> Label {
        self.blocks.push(Open::new().stop());
        Label(self.blocks.len() as u32 - 1)
    }

    /// So many blocks more.
    pub fn blocks<const N: usize>(&mut self) -> [Label; N] {
        std::array::from_fn(|_| self.block())
    }

    /// Says what is in a block.
    ///
    /// # Panics
    ///
    /// If the label is another function's, and that has more blocks.
    pub fn write(&mut self, label: Label, block: Block) {
        self.blocks[label.0 as usize] = block;
    }

    /// The rank of each block, in block order: 0 to B − 1, each once. Blocks that wait are taken
    /// by rank, the lowest first; without a call of this the ranks are in block order.
    pub fn set_ranks(&mut self, ranks: &[u32]) {
        self.ranks = Some(ranks.to_vec());
    }

    /// The same function over a merged record, in which the record that it was written over stands behind
    /// another of so many types ([`crate::Types::count`]): its local types are moved up, and nothing else
    /// changes. [`crate::merge_types`] has an example.
    ///
    /// Nothing wraps. A local type that doesn't fit becomes 2^32 − 1, which no record has, so that the
    /// function is refused with [`Refusal::BadFunction`] as it is over its own record: a first record has
    /// at most 4,096 types, and what doesn't fit when it is moved by so many is no record's type.
    pub fn moved(&self, by: u32) -> Function {
        let locals = self.locals.iter().map(|ty| ty.moved(by)).collect();
        Function { locals, ..self.clone() }
    }

    /// The function record.
    pub fn record(&self) -> Vec<u32> {
        let blocks = self.blocks.iter().map(|block| &block.items);
        let items: Vec<Item> = self.entry.iter().chain(blocks.clone().flatten()).copied().collect();
        let count = self.blocks.len() as u32;
        let mut words = vec![self.locals.len() as u32, self.arg_count, count, items.len() as u32];
        words.extend(self.locals.iter().map(|ty| ty.number()));
        words.extend(blocks.scan(self.entry.len() as u32, |next, items| {
            let start = *next;
            *next += items.len() as u32;
            Some(start)
        }));
        match &self.ranks {
            Some(ranks) => words.extend(ranks),
            None => words.extend(0..count),
        }
        words.extend(items.iter().map(|(op, _)| op));
        words.extend(items.iter().map(|(_, arg)| arg));
        words
    }
}
