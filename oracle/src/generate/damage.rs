//! Damaged copies of good records.

use super::{draft::Draft, rng::Rng};
use crate::state::{State, MAX_NODES};

/// One word changed, the end cut off, or words appended.
pub fn damage_words(rng: &mut Rng, words: &mut Vec<u32>) {
    match rng.below(10) {
        0..=6 => change_word(rng, words),
        7 | 8 => words.truncate(rng.below(words.len())),
        _ => {
            for _ in 0..rng.range(1, 3) {
                words.push(rng.below(4) as u32);
            }
        }
    }
}

fn change_word(rng: &mut Rng, words: &mut [u32]) {
    let at = rng.below(words.len());
    let word = words[at];
    words[at] = match rng.below(7) {
        0 => word.wrapping_add(1),
        1 => word.wrapping_sub(1),
        2 => rng.below(14) as u32,
        3 => words[rng.below(words.len())],
        4 => word ^ (1 << rng.below(32)),
        5 => rng.pick(&[4096, 4097, 16384, 16385, 255, 256, 257, 1 << 31, u32::MAX]),
        _ => 0,
    };
}

/// An item left out, doubled, moved or put in, or a block cut; the sizes stay true.
pub fn damage_draft(rng: &mut Rng, draft: &mut Draft) {
    let mut lists = draft.lists();
    let at = rng.below(lists.len());
    let items = &mut *lists[at];
    if items.is_empty() {
        items.push((rng.below(13) as u32, 0));
        return;
    }
    let (at, other) = (rng.below(items.len()), rng.below(items.len()));
    match rng.below(5) {
        0 => {
            items.remove(at);
        }
        1 => items.insert(at, items[at]),
        2 => items.swap(at, other),
        3 => items.insert(at, (rng.below(14) as u32, 0)),
        _ => items.truncate(at),
    }
}

/// An entry, the count or the tail changed.
pub fn damage_state(rng: &mut Rng, state: &mut State) {
    let inside = rng.below(state.count.clamp(1, MAX_NODES));
    match rng.below(7) {
        0 | 1 => state.forms[inside] = rng.below(7) as u16,
        2 => state.whats[inside] = rng.range(1, 4) as u16,
        3 => state.count += 1,
        4 => state.count = state.count.saturating_sub(1),
        5 => {
            let tail = rng.range(state.count.min(MAX_NODES - 1), MAX_NODES - 1);
            match rng.chance(50) {
                true => state.forms[tail] = 1,
                false => state.whats[tail] = 1,
            }
        }
        _ => state.count = rng.pick(&[0, 511, 512, 513, usize::MAX]),
    }
}

/// Bytes for `ghosts`: other gaps, and perhaps something that is no word.
pub fn damage_text(rng: &mut Rng, text: &mut Vec<u8>) {
    let at = rng.below(text.len() + 1);
    let other: &[u8] = match rng.below(12) {
        0 => b"\t",
        1 => b"\r\n",
        2 => b"-1",
        3 => b"+1",
        4 => b".",
        5 => b" 4294967296 ",
        6 => b" 4294967295 ",
        7 => b"x",
        8 => b" 0",
        9 => b"\0",
        10 => b"\xff",
        _ => b"\n\n  ",
    };
    text.splice(at..at, other.iter().copied());
}
