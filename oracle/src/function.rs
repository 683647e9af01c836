//! The function record, read: blocks, the order of items, join points, and refusal 2.

use std::ops::RangeInclusive;

use crate::{
    place::{Place, PlaceElem, Role, ROOT},
    refusal::Refusal,
    types::{Ty, Types},
};

// Item codes after those of a place.
pub const USE: u32 = 5;
pub const READ: u32 = 6;
pub const NOTE: u32 = 7;
pub const SWITCH: u32 = 8;
pub const ARM: u32 = 9;
pub const TARGET: u32 = 10;
pub const RETURN: u32 = 11;
pub const STOP: u32 = 12;

pub const MAX_LOCALS: usize = 256;
pub const MAX_BLOCKS: usize = 256;
pub const MAX_ITEMS: usize = 16384;

pub type BasicBlock = usize;
pub const START_BLOCK: BasicBlock = 0;

/// A place with the item that uses it.
#[derive(Clone, Debug)]
pub struct Use {
    pub place: Place,
    pub item: usize,
}

#[derive(Clone, Debug)]
pub enum Statement {
    Use(Use),
    /// Read, then note: the source's assignment of a discriminant.
    Discriminant {
        read: Use,
        note: Use,
    },
}

/// A target item and the block that it names.
#[derive(Clone, Copy, Debug)]
pub struct Target {
    pub item: usize,
    pub block: BasicBlock,
}

#[derive(Clone, Debug)]
pub struct Arm {
    pub value: u32,
    pub target: Target,
}

#[derive(Clone, Debug)]
pub enum TerminatorKind {
    Goto(Target),
    Return,
    Stop,
    /// On a place, or on a constant.
    SwitchInt {
        discr: Option<Place>,
        arms: Vec<Arm>,
        otherwise: Target,
    },
}

#[derive(Clone, Debug)]
pub struct Terminator {
    pub kind: TerminatorKind,
    pub item: usize,
}

#[derive(Clone, Debug)]
pub struct BasicBlockData {
    pub statements: Vec<Statement>,
    pub terminator: Terminator,
}

/// A function record that passed refusal 2.
#[derive(Clone, Debug)]
pub struct Body {
    pub local_types: Vec<Ty>,
    pub arg_count: usize,
    pub entry_uses: Vec<Use>,
    pub basic_blocks: Vec<BasicBlockData>,
    pub rank: Vec<u32>,
    incoming: Vec<usize>,
}

/// The length that a function record's sizes say, whatever else is wrong with it.
pub fn written_length(words: &[u32]) -> Option<u64> {
    let sizes = words.get(..4)?;
    let [l, b, i] = [0, 2, 3].map(|at| u64::from(sizes[at]));
    Some(4 + l + 2 * b + 2 * i)
}

impl Body {
    pub fn read(types: &Types, words: &[u32]) -> Result<Body, Refusal> {
        Body::parse(types, words).ok_or(Refusal::BadFunction)
    }

    fn parse(types: &Types, words: &[u32]) -> Option<Body> {
        if written_length(words)? != words.len() as u64 {
            return None;
        }
        let [l, a, b, i] = [0, 1, 2, 3].map(|at| words[at] as usize);
        if !(1..=MAX_LOCALS).contains(&l)
            || !(1..=MAX_BLOCKS).contains(&b)
            || i > MAX_ITEMS
            || a >= l
        {
            return None;
        }
        let (local_types, rest) = words[4..].split_at(l);
        let (start, rest) = rest.split_at(b);
        let (rank, rest) = rest.split_at(b);
        let (op, arg) = rest.split_at(i);
        if !local_types.iter().all(|&ty| types.may_stand(ty))
            || !are_starts(start, i)
            || !are_ranks(rank)
        {
            return None;
        }
        let (entry_uses, basic_blocks) = read_items(start, op, arg)?;
        let incoming = count_incoming(&basic_blocks);
        Some(Body {
            local_types: local_types.to_vec(),
            arg_count: a,
            entry_uses,
            basic_blocks,
            rank: rank.to_vec(),
            incoming,
        })
    }

    /// Refusal 4 over all places, in item order.
    pub fn check_places(&self) -> Result<(), Refusal> {
        self.places().try_for_each(|place| place.check(self.local_types.len(), Role::Used))
    }

    fn places(&self) -> impl Iterator<Item = &Place> {
        let entry = self.entry_uses.iter().map(|used| &used.place);
        entry.chain(self.basic_blocks.iter().flat_map(BasicBlockData::places))
    }

    /// Over one incoming target item, or the start block over none.
    pub fn is_join_point(&self, bb: BasicBlock) -> bool {
        self.incoming[bb] > usize::from(bb != START_BLOCK)
    }

    /// The join points in block order: the order of their shares in the store.
    pub fn join_points(&self) -> impl Iterator<Item = BasicBlock> + '_ {
        (0..self.basic_blocks.len()).filter(|&bb| self.is_join_point(bb))
    }

    pub fn args_iter(&self) -> RangeInclusive<usize> {
        1..=self.arg_count
    }
}

impl BasicBlockData {
    fn places(&self) -> impl Iterator<Item = &Place> {
        let switched = match &self.terminator.kind {
            TerminatorKind::SwitchInt { discr, .. } => discr.as_ref(),
            _ => None,
        };
        let used = self.statements.iter().flat_map(|statement| match statement {
            Statement::Use(used) => vec![&used.place],
            Statement::Discriminant { read, note } => vec![&read.place, &note.place],
        });
        used.chain(switched)
    }

    /// The targets of the block's ender, in item order.
    pub fn targets(&self) -> Vec<Target> {
        match &self.terminator.kind {
            TerminatorKind::Goto(target) => vec![*target],
            TerminatorKind::Return | TerminatorKind::Stop => vec![],
            TerminatorKind::SwitchInt { arms, otherwise, .. } => {
                let arms = arms.iter().map(|arm| arm.target);
                arms.chain(std::iter::once(*otherwise)).collect()
            }
        }
    }
}

fn are_starts(start: &[u32], items: usize) -> bool {
    start.windows(2).all(|pair| pair[0] < pair[1]) && start.iter().all(|&at| (at as usize) < items)
}

/// 0 to B - 1, each once.
fn are_ranks(rank: &[u32]) -> bool {
    let mut seen = vec![false; rank.len()];
    rank.iter()
        .all(|&r| seen.get_mut(r as usize).is_some_and(|seen| !std::mem::replace(seen, true)))
}

fn count_incoming(basic_blocks: &[BasicBlockData]) -> Vec<usize> {
    let mut incoming = vec![0; basic_blocks.len()];
    for target in basic_blocks.iter().flat_map(BasicBlockData::targets) {
        incoming[target.block] += 1;
    }
    incoming
}

/// The entry's uses, then the blocks, each from its start to the next.
fn read_items(start: &[u32], op: &[u32], arg: &[u32]) -> Option<(Vec<Use>, Vec<BasicBlockData>)> {
    let blocks = start.len();
    let reader = |at: u32, end: usize| Items { op, arg, at: at as usize, end, blocks };
    let entry_uses = reader(0, start[0] as usize).entry()?;
    let mut basic_blocks = vec![];
    for (bb, &at) in start.iter().enumerate() {
        let end = start.get(bb + 1).map_or(op.len(), |&next| next as usize);
        basic_blocks.push(reader(at, end).block()?);
    }
    Some((entry_uses, basic_blocks))
}

/// A reader of the items from `at` to `end`. Each function takes one form, or gives none where
/// the items are in no order that document 01 allows.
struct Items<'a> {
    op: &'a [u32],
    arg: &'a [u32],
    at: usize,
    end: usize,
    blocks: usize,
}

impl Items<'_> {
    fn is_at_end(&self) -> bool {
        self.at == self.end
    }

    fn peek(&self) -> Option<u32> {
        (self.at < self.end).then(|| self.op[self.at])
    }

    /// An item with this code; its number and its arg.
    fn item(&mut self, op: u32) -> Option<(usize, u32)> {
        if self.peek()? != op {
            return None;
        }
        self.at += 1;
        Some((self.at - 1, self.arg[self.at - 1]))
    }

    /// An item whose arg isn't named; its number.
    fn plain(&mut self, op: u32) -> Option<usize> {
        let (item, arg) = self.item(op)?;
        (arg == 0).then_some(item)
    }

    fn place(&mut self) -> Option<Place> {
        let (_, local) = self.item(ROOT)?;
        let mut projection = vec![];
        while let Some(1..=4) = self.peek() {
            projection.push(PlaceElem::from_item(self.op[self.at], self.arg[self.at])?);
            self.at += 1;
        }
        Some(Place::new(local as usize, projection))
    }

    fn target(&mut self) -> Option<Target> {
        let (item, block) = self.item(TARGET)?;
        ((block as usize) < self.blocks).then_some(Target { item, block: block as usize })
    }

    /// Before start[0]: only places with use.
    fn entry(&mut self) -> Option<Vec<Use>> {
        let mut uses = vec![];
        while !self.is_at_end() {
            let place = self.place()?;
            uses.push(Use { place, item: self.plain(USE)? });
        }
        Some(uses)
    }

    /// [place use] and [place read place note] as often as they come, then one ender.
    fn block(&mut self) -> Option<BasicBlockData> {
        let mut statements = vec![];
        let terminator = loop {
            let place = match self.peek()? {
                ROOT => Some(self.place()?),
                _ => None,
            };
            match (place, self.peek()?) {
                (Some(place), USE) => {
                    statements.push(Statement::Use(Use { place, item: self.plain(USE)? }));
                }
                (Some(place), READ) => statements.push(self.discriminant(place)?),
                (place, SWITCH) => break self.switch(place)?,
                (None, TARGET) => {
                    let target = self.target()?;
                    break Terminator { kind: TerminatorKind::Goto(target), item: target.item };
                }
                (None, RETURN) => {
                    break Terminator { kind: TerminatorKind::Return, item: self.plain(RETURN)? };
                }
                (None, STOP) => {
                    break Terminator { kind: TerminatorKind::Stop, item: self.plain(STOP)? };
                }
                _ => return None,
            }
        };
        self.is_at_end().then_some(BasicBlockData { statements, terminator })
    }

    fn discriminant(&mut self, place: Place) -> Option<Statement> {
        let read = Use { place, item: self.plain(READ)? };
        let place = self.place()?;
        let note = Use { place, item: self.plain(NOTE)? };
        Some(Statement::Discriminant { read, note })
    }

    fn switch(&mut self, discr: Option<Place>) -> Option<Terminator> {
        let item = self.plain(SWITCH)?;
        let mut arms = vec![];
        while let Some((_, value)) = self.item(ARM) {
            arms.push(Arm { value, target: self.target()? });
        }
        let otherwise = self.target()?;
        Some(Terminator { kind: TerminatorKind::SwitchInt { discr, arms, otherwise }, item })
    }
}
