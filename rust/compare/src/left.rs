//! What a call leaves in its answer and in what was lent, and where two calls differ.

use std::fmt::Debug;

/// Answer, both store arrays, the statement buffer or output, and the numbers beside it, if they are lent.
pub struct Left<A> {
    pub answer: A,
    pub forms: Vec<u16>,
    pub whats: Vec<u16>,
    pub out: Vec<u32>,
    pub told: Vec<u32>,
}

impl<A: PartialEq + Debug> Left<A> {
    /// By a call to which arrays of these lengths are lent, full of a byte, so that what isn't written
    /// shows.
    pub fn by(
        room: [usize; 4],
        byte: u8,
        call: impl FnOnce(&mut [u16], &mut [u16], &mut [u32], &mut [u32]) -> A,
    ) -> Left<A> {
        let (half, word) = (u16::from_ne_bytes([byte; 2]), u32::from_ne_bytes([byte; 4]));
        let (mut forms, mut whats) = (vec![half; room[0]], vec![half; room[1]]);
        let (mut out, mut told) = (vec![word; room[2]], vec![word; room[3]]);
        let answer = call(&mut forms, &mut whats, &mut out, &mut told);
        Left { answer, forms, whats, out, told }
    }

    /// The first difference of one from the other, by their names.
    pub fn difference(&self, other: &Left<A>, names: [&str; 2]) -> Option<String> {
        let [own, others] = names;
        if self.answer != other.answer {
            return Some(format!("answer: {own} {:?}, {others} {:?}", self.answer, other.answer));
        }
        word("store forms", &self.forms, &other.forms, names)
            .or_else(|| word("store whats", &self.whats, &other.whats, names))
            .or_else(|| word("buffer", &self.out, &other.out, names))
            .or_else(|| word("numbers", &self.told, &other.told, names))
    }
}

fn word<W: PartialEq + Debug>(
    name: &str,
    own: &[W],
    other: &[W],
    names: [&str; 2],
) -> Option<String> {
    // Whole slices are the quicker to compare.
    if own == other {
        return None;
    }
    let mut pairs = own.iter().zip(other).enumerate();
    let (at, (first, second)) = pairs.find(|(_, (first, second))| first != second)?;
    Some(format!("{name}, word {at}: {} {first:?}, {} {second:?}", names[0], names[1]))
}
