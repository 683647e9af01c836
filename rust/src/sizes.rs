//! What the wrapper has to know of a function record before the call: any words at all.

use crate::{function::TARGET, whole_crate::MOST_FUNCTIONS};

pub const MAX_BLOCKS: u32 = 256;
const MAX_ITEMS: u32 = 16384;

/// An item gives at most so many statements: a use one; a target or a return one for each node of a
/// state. So does the jump from the entry to the start block. (A point may have more: the uses of the
/// entry are all at one.)
const ITEM_STATEMENTS: usize = 512;
/// A point, a verb, a local and at most 128 elements.
const STATEMENT_ENTRIES: usize = 131;

/// Of words that are no function record all is 0: they are refused before anything is lent.
#[derive(Clone, PartialEq, Eq, Default, Debug)]
pub struct Sizes {
    pub blocks: usize,
    pub items: usize,
    /// In block order.
    pub join_points: Vec<u32>,
}

impl Sizes {
    pub fn of(function: &[u32]) -> Sizes {
        Sizes::read(function).unwrap_or_default()
    }

    fn read(function: &[u32]) -> Option<Sizes> {
        let &[locals, _, blocks, items, ..] = function else { return None };
        if blocks > MAX_BLOCKS || items > MAX_ITEMS {
            return None;
        }
        let (locals, blocks, items) = (locals as usize, blocks as usize, items as usize);
        let ops_at = 4 + locals + 2 * blocks;
        if function.len() != ops_at + 2 * items {
            return None;
        }
        let (ops, args) = function[ops_at..].split_at(items);
        let mut incoming = vec![0; blocks];
        for (&op, &arg) in ops.iter().zip(args) {
            if let (TARGET, Some(count)) = (op, incoming.get_mut(arg as usize)) {
                *count += 1;
            }
        }
        // Over one incoming target item, or the start block over none.
        let joins = |&bb: &u32| incoming[bb as usize] > usize::from(bb != 0);
        Some(Sizes { blocks, items, join_points: (0..blocks as u32).filter(joins).collect() })
    }

    /// Words of a statement buffer to begin with: one statement of a few elements per two items.
    pub fn first_buffer(&self) -> usize {
        256 + 8 * self.items
    }

    /// No statement record is longer: two counts, and two words for each entry of what the items and the
    /// entry's jump give. 16,384 items give at most 131 * 512 * 16,385 = 1,098,974,720 entries, which is
    /// below 2^32.
    pub fn longest_record(&self) -> usize {
        2 + 2 * STATEMENT_ENTRIES * ITEM_STATEMENTS * (self.items + 1)
    }
}

/// How many statements a record of so many words holds at the most: each has three entries at the least, a
/// point, a verb and a root.
pub fn most_statements(words: usize) -> usize {
    words.saturating_sub(2) / 6
}

/// The length that a function record's sizes as written say, whatever they are.
fn written_length(words: &[u32]) -> Option<u64> {
    let &[locals, _, blocks, items, ..] = words else { return None };
    let [locals, blocks, items] = [locals, blocks, items].map(u64::from);
    Some(4 + locals + 2 * blocks + 2 * items)
}

/// Whether a function record ends there.
pub fn is_as_long_as_written(function: &[u32]) -> bool {
    written_length(function) == Some(function.len() as u64)
}

/// The most blocks that a function of a crate has, of those whose records are there: the count, then the
/// records one after another.
pub fn most_blocks(words: &[u32]) -> usize {
    let Some((&count, mut words)) = words.split_first() else { return 0 };
    let mut most = 0;
    for _ in 0..count.min(MOST_FUNCTIONS as u32) {
        let Some(length) = written_length(words).filter(|&n| n <= words.len() as u64) else {
            break;
        };
        let (record, behind) = words.split_at(length as usize);
        most = most.max(if record[2] <= MAX_BLOCKS { record[2] } else { 0 });
        words = behind;
    }
    most as usize
}
