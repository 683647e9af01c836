//! The blocks that wait; the lowest rank is popped first.

use std::{cmp::Ordering, collections::BinaryHeap};

use crate::function::BasicBlock;

struct Item<'a> {
    bb: BasicBlock,
    rank: &'a [u32],
}

pub struct WorkQueue<'a> {
    heap: BinaryHeap<Item<'a>>,
    set: Vec<bool>,
    rank: &'a [u32],
}

impl<'a> WorkQueue<'a> {
    pub fn empty(len: usize, rank: &'a [u32]) -> Self {
        Self { heap: BinaryHeap::with_capacity(len), set: vec![false; len], rank }
    }

    /// False if the block was waiting already.
    pub fn insert(&mut self, bb: BasicBlock) -> bool {
        if self.set[bb] {
            return false;
        }
        self.set[bb] = true;
        self.heap.push(Item { bb, rank: self.rank });
        true
    }

    pub fn pop(&mut self) -> Option<BasicBlock> {
        let Item { bb, .. } = self.heap.pop()?;
        self.set[bb] = false;
        Some(bb)
    }
}

impl PartialEq for Item<'_> {
    fn eq(&self, other: &Self) -> bool {
        self.bb == other.bb
    }
}

impl Eq for Item<'_> {}

impl PartialOrd for Item<'_> {
    fn partial_cmp(&self, other: &Self) -> Option<Ordering> {
        Some(self.cmp(other))
    }
}

impl Ord for Item<'_> {
    fn cmp(&self, other: &Self) -> Ordering {
        self.rank[other.bb].cmp(&self.rank[self.bb])
    }
}
