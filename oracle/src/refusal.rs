//! The refusals of documents 01 and 02, by number.

#[derive(Clone, Copy, PartialEq, Eq, PartialOrd, Ord, Hash, Debug)]
pub enum Refusal {
    BadTypes = 1,
    BadFunction = 2,
    BadState = 3,
    BadPlace = 4,
    WrongStep = 5,
    OtherVariant = 6,
    BareVariant = 7,
    NoSuchValue = 8,
    StateFull = 9,
    ShortStore = 10,
    UnknownStatement = 11,
    MergedTooLarge = 12,
}

impl Refusal {
    pub fn number(self) -> u32 {
        self as u32
    }
}
