//! The refusals of documents 01 and 02.

use std::{error::Error, fmt};

/// Why a function, a list of statements or a pair of type records was refused, with its number and word.
///
/// ```
/// let refusal = hirvoksne::ghost_statements(&[], &[]).unwrap_err();
/// assert_eq!(refusal, hirvoksne::Refusal::BadTypes);
/// assert_eq!(refusal.number(), 1);
/// assert_eq!(refusal.to_string(), "bad types: the type record breaks its layout");
/// ```
#[derive(Clone, Copy, PartialEq, Eq, PartialOrd, Ord, Hash, Debug)]
pub enum Refusal {
    BadTypes = 1,
    BadFunction = 2,
    /// Of calls on states; the whole-function call never gives it.
    BadState = 3,
    BadPlace = 4,
    WrongStep = 5,
    OtherVariant = 6,
    /// Of calls on states; the whole-function call never gives it.
    BareVariant = 7,
    NoSuchValue = 8,
    StateFull = 9,
    /// Only where the caller lends the buffers: [`crate::ghost_statements_into`].
    ShortStore = 10,
    /// Of lists of statements alone: [`crate::statement_items`].
    UnknownStatement = 11,
    /// Of two type records alone: [`crate::merge_types`].
    MergedTooLarge = 12,
}

impl Refusal {
    /// All of them, in the order of their numbers.
    pub const ALL: [Refusal; 12] = [
        Refusal::BadTypes,
        Refusal::BadFunction,
        Refusal::BadState,
        Refusal::BadPlace,
        Refusal::WrongStep,
        Refusal::OtherVariant,
        Refusal::BareVariant,
        Refusal::NoSuchValue,
        Refusal::StateFull,
        Refusal::ShortStore,
        Refusal::UnknownStatement,
        Refusal::MergedTooLarge,
    ];

    /// Its number: 1 to 10 of document 01's table, 11 and 12 of document 02.
    pub fn number(self) -> u32 {
        self as u32
    }

    /// The refusal with this number.
    pub fn from_number(number: u32) -> Option<Refusal> {
        Refusal::ALL.into_iter().find(|refusal| refusal.number() == number)
    }

    /// Its word there.
    pub fn word(self) -> &'static str {
        match self {
            Refusal::BadTypes => "bad types",
            Refusal::BadFunction => "bad function",
            Refusal::BadState => "bad state",
            Refusal::BadPlace => "bad place",
            Refusal::WrongStep => "wrong step",
            Refusal::OtherVariant => "other variant",
            Refusal::BareVariant => "bare variant",
            Refusal::NoSuchValue => "no such value",
            Refusal::StateFull => "state full",
            Refusal::ShortStore => "short store",
            Refusal::UnknownStatement => "unknown statement",
            Refusal::MergedTooLarge => "merged too large",
        }
    }

    /// When it is given, shortened.
    pub fn when(self) -> &'static str {
        match self {
            Refusal::BadTypes => "the type record breaks its layout",
            Refusal::BadFunction => "the function record or the list of statements breaks its layout",
            Refusal::BadState => "the state record breaks its layout or doesn't fit the types",
            Refusal::BadPlace => {
                "an unknown local, too many elements, or a used place that ends in downcast"
            }
            Refusal::WrongStep => {
                "a step that doesn't fit the type, or a match on what is no enum and no element"
            }
            Refusal::OtherVariant => "a downcast meets another variant than the unfolded one",
            Refusal::BareVariant => {
                "a variant whose fields are all folded must be unfolded, and the statement can't say which"
            }
            Refusal::NoSuchValue => "an arm's value belongs to no variant left",
            Refusal::StateFull => "a state would have over 512 nodes",
            Refusal::ShortStore => {
                "a lent store, statement buffer, array of numbers, item buffer or output is too short"
            },
            Refusal::UnknownStatement => {
                "a statement of no known kind, flag or operand count, or a constant for a place"
            }
            Refusal::MergedTooLarge => {
                "two type records together have over 4,096 types or 16,384 parts"
            }
        }
    }
}

/// The word, then when it is given.
impl fmt::Display for Refusal {
    fn fmt(&self, f: &mut fmt::Formatter<'_>) -> fmt::Result {
        write!(f, "{}: {}", self.word(), self.when())
    }
}

impl Error for Refusal {}
