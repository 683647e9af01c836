//! The waiting blocks as bits (document 02, F-5): every sequence of inserts and pops gives the same
//! answers from the source's heap, from an array that is searched, and from words of bits.

use oracle::{function::BasicBlock, generate::rng::Rng, queue::WorkQueue};

/// Whether each block waits, searched for the lowest rank.
struct Flags<'a> {
    waits: Vec<bool>,
    rank: &'a [u32],
}

impl<'a> Flags<'a> {
    fn empty(rank: &'a [u32]) -> Self {
        Flags { waits: vec![false; rank.len()], rank }
    }

    fn insert(&mut self, bb: BasicBlock) -> bool {
        !std::mem::replace(&mut self.waits[bb], true)
    }

    fn pop(&mut self) -> Option<BasicBlock> {
        let waiting = (0..self.rank.len()).filter(|&bb| self.waits[bb]);
        let bb = waiting.min_by_key(|&bb| self.rank[bb])?;
        self.waits[bb] = false;
        Some(bb)
    }
}

/// A bit for each rank, and the block of each.
struct Bits<'a> {
    words: [u64; 4],
    rank: &'a [u32],
    block: Vec<BasicBlock>,
}

impl<'a> Bits<'a> {
    fn empty(rank: &'a [u32]) -> Self {
        let mut block = vec![0; rank.len()];
        rank.iter().enumerate().for_each(|(bb, &rank)| block[rank as usize] = bb);
        Bits { words: [0; 4], rank, block }
    }

    fn insert(&mut self, bb: BasicBlock) -> bool {
        let rank = self.rank[bb] as usize;
        let (word, bit) = (&mut self.words[rank / 64], 1 << (rank % 64));
        let is_new = *word & bit == 0;
        *word |= bit;
        is_new
    }

    fn pop(&mut self) -> Option<BasicBlock> {
        let at = self.words.iter().position(|&word| word != 0)?;
        let bit = u64::trailing_zeros(self.words[at]) as usize;
        self.words[at] ^= 1 << bit;
        Some(self.block[64 * at + bit])
    }
}

#[test]
fn every_sequence_gives_the_same_answers() {
    let mut rng = Rng::new(5);
    let (mut waited, mut full, mut nothing) = (0, 0, 0);
    for size in [1, 63, 64, 65, 128, 255, 256] {
        for _ in 0..100 {
            let mut rank: Vec<u32> = (0..size as u32).collect();
            rng.shuffle(&mut rank);
            let mut heap = WorkQueue::empty(size, &rank);
            let (mut flags, mut bits) = (Flags::empty(&rank), Bits::empty(&rank));
            // Stretches that fill the queue, that keep it as it is, and that empty it.
            for inserts in [100, 70, 50, 30, 0] {
                for _ in 0..rng.range(1, 8 * size) {
                    if rng.chance(inserts) {
                        let bb = rng.below(size);
                        let is_new = heap.insert(bb);
                        assert_eq!([flags.insert(bb), bits.insert(bb)], [is_new; 2], "{bb}");
                        waited += usize::from(!is_new);
                    } else {
                        let popped = heap.pop();
                        assert_eq!([flags.pop(), bits.pop()], [popped; 2]);
                        nothing += usize::from(popped.is_none());
                    }
                }
                full += usize::from(flags.waits.iter().all(|&waits| waits));
            }
        }
    }
    assert!(waited > 10_000 && full > 100 && nothing > 10_000, "{waited} {full} {nothing}");
}
