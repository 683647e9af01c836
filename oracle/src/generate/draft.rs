//! A function record in the making: blocks as lists of items.

use super::rng::Rng;
use crate::{
    function::{ARM, NOTE, READ, RETURN, SWITCH, TARGET, USE},
    place::{Place, ROOT},
};

pub type Item = (u32, u32);

#[derive(Clone, Default)]
pub struct Draft {
    pub local_types: Vec<u32>,
    pub arg_count: usize,
    pub entry: Vec<Item>,
    pub blocks: Vec<Vec<Item>>,
    pub rank: Vec<u32>,
}

impl Draft {
    /// With no blocks yet.
    pub fn new(local_types: Vec<u32>, arg_count: usize) -> Draft {
        Draft { local_types, arg_count, ..Draft::default() }
    }

    /// Adds a block and gives it the next rank.
    pub fn block(&mut self, items: Vec<Item>) {
        self.rank.push(self.blocks.len() as u32);
        self.blocks.push(items);
    }

    pub fn words(&self) -> Vec<u32> {
        let items: Vec<Item> =
            self.entry.iter().chain(self.blocks.iter().flatten()).copied().collect();
        let sizes = [self.local_types.len(), self.arg_count, self.blocks.len(), items.len()];
        let mut words: Vec<u32> = sizes.iter().map(|&size| size as u32).collect();
        words.extend(&self.local_types);
        let mut start = self.entry.len();
        for block in &self.blocks {
            words.push(start as u32);
            start += block.len();
        }
        words.extend(&self.rank);
        words.extend(items.iter().map(|(op, _)| op));
        words.extend(items.iter().map(|(_, arg)| arg));
        words
    }

    /// Gives the blocks other numbers; the start block keeps its own.
    pub fn renumber(&mut self, rng: &mut Rng) {
        let mut order: Vec<usize> = (0..self.blocks.len()).collect();
        rng.shuffle(&mut order[1..]);
        // order[new] is the old number.
        let mut new_number = vec![0; order.len()];
        for (new, &old) in order.iter().enumerate() {
            new_number[old] = new as u32;
        }
        self.blocks = order.iter().map(|&old| self.blocks[old].clone()).collect();
        self.rank = order.iter().map(|&old| self.rank[old]).collect();
        for item in self.blocks.iter_mut().flatten() {
            if item.0 == TARGET {
                item.1 = new_number[item.1 as usize];
            }
        }
    }

    /// The lists of items, the entry first.
    pub fn lists(&mut self) -> Vec<&mut Vec<Item>> {
        std::iter::once(&mut self.entry).chain(&mut self.blocks).collect()
    }
}

pub fn push_place(items: &mut Vec<Item>, place: &Place) {
    items.extend(place.to_items());
}

pub fn push_use(items: &mut Vec<Item>, place: &Place) {
    push_place(items, place);
    items.push((USE, 0));
}

pub fn push_note(items: &mut Vec<Item>, read: &Place, note: &Place) {
    push_place(items, read);
    items.push((READ, 0));
    push_place(items, note);
    items.push((NOTE, 0));
}

/// A switch on a place or on a constant, with arms as value and block.
pub fn push_switch(
    items: &mut Vec<Item>,
    discr: Option<&Place>,
    arms: &[(u32, usize)],
    otherwise: usize,
) {
    if let Some(place) = discr {
        push_place(items, place);
    }
    items.push((SWITCH, 0));
    for &(value, block) in arms {
        items.push((ARM, value));
        items.push((TARGET, block as u32));
    }
    items.push((TARGET, otherwise as u32));
}

pub fn push_target(items: &mut Vec<Item>, block: usize) {
    items.push((TARGET, block as u32));
}

pub fn push_return(items: &mut Vec<Item>) {
    items.push((RETURN, 0));
}

/// Where a list's places begin and end.
pub fn place_ranges(items: &[Item]) -> Vec<std::ops::Range<usize>> {
    let roots = (0..items.len()).filter(|&at| items[at].0 == ROOT);
    roots
        .map(|at| {
            let rest = items[at + 1..].iter();
            let elems = rest.take_while(|(op, _)| (1..=4).contains(op)).count();
            at..at + 1 + elems
        })
        .collect()
}
