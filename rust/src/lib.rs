//! Fold and unfold statements for a checked Rust function: at each point of it, which places to
//! fold (to see as one value) and which to unfold (to see as their parts).
//!
//! This is a safe crate over a static library whose every function is proved: for any words that
//! are handed in, the answer is the statement record that the definitions in `crates/model` give, or
//! the refusal that they give; every run ends; and the statements of a function that is accepted can
//! be carried out along any list of jumps, with each place folded where it is used. The wrapper
//! itself is plain Rust, tested and not proved.
//!
//! ```
//! let types = [2, 2, 0, 6, 0, 2, 0, 0]; // an opaque type, and a struct of two fields
//! let function = [2, 0, 1, 6, 0, 1, 0, 0, 0, 2, 5, 0, 5, 11, 1, 0, 0, 1, 0, 0]; // uses _1.0, _1
//! for statement in &hirvoksne::ghost_statements(&types, &function)? {
//!     println!("{statement}"); // at 2 unfold _1 0, at 4 fold _1
//! }
//! # let statements = hirvoksne::ghost_statements(&types, &function)?;
//! # assert_eq!(statements.to_string(), "at 2 unfold _1 0\nat 4 fold _1\n");
//! # Ok::<(), hirvoksne::Refusal>(())
//! ```
//!
//! Records are laid out as document 01 says. [`Types`] and [`Function`] write them; the example
//! beside [`Function`] is the worked example of document 01. [`crate_statements`] takes all functions of
//! a crate at once. [`merge_types`] makes one type record of two that were written apart. The last word of
//! a line is what the statement tells of where it comes from, [`Told`].

#![deny(unsafe_code)]

mod assign;
mod exported_call;
mod function;
mod merge;
mod place;
mod refusal;
mod sizes;
mod stack;
mod statements;
mod types;
mod whole_crate;

pub use assign::{
    statement_items, statement_items_into, statement_list, Assign, Items, Operand, Rvalue,
};
pub use function::{Block, Function, Label, Open, Read, Switch};
pub use merge::{merge_types, merge_types_into};
pub use place::{Elem, Place};
pub use refusal::Refusal;
pub use stack::{CALLERS_BLOCKS, STACK};
pub use statements::{
    read_numbered, read_record, Point, Statement, Statements, Stored, Told, Verb, SHARE,
};
pub use types::{Later, Pointer, Type, Types, Variant};
pub use whole_crate::{
    crate_statements, crate_statements_into, crate_words, CrateRefusal, MOST_FUNCTIONS,
};

use exported_call::{exported, exported_ghosts, PAGE};
use sizes::{most_statements, Sizes, MAX_BLOCKS};

/// How much the statement buffer grows when it was too short.
const GROWTH: usize = 4;

/// The statements of a function, or why it is refused; never [`Refusal::ShortStore`], since the
/// store, the statement buffer and the array for the numbers beside it are made here, as large as they
/// have to be.
///
/// A function of over [`CALLERS_BLOCKS`] blocks is run on a thread with [`STACK`] bytes of stack.
///
/// # Panics
///
/// If such a thread can't be had.
pub fn ghost_statements(types: &[u32], function: &[u32]) -> Result<Statements, Refusal> {
    let sizes = Sizes::of(function);
    let store = sizes.join_points.len() * SHARE;
    let mut forms = vec![0; store];
    let mut whats = vec![0; store];
    let mut record = vec![0; sizes.first_buffer().min(sizes.longest_record())];
    let mut numbers = vec![];
    stack::run(sizes.blocks, || loop {
        numbers.resize(most_statements(record.len()), 0);
        let answer = exported(types, function, &mut forms, &mut whats, &mut record, &mut numbers);
        // The store is large enough, and there are numbers for all that fits the buffer, so it is the
        // buffer that isn't.
        let short = answer == Refusal::ShortStore.number();
        if !short || record.len() >= sizes.longest_record() {
            return counts(answer, &record);
        }
        record = vec![0; (record.len() * GROWTH).min(sizes.longest_record())];
    })
    .map(|(statements, entries)| {
        record.truncate(2 + 2 * entries);
        record.shrink_to_fit();
        numbers.truncate(statements);
        numbers.shrink_to_fit();
        let list = read_numbered(&record, &numbers);
        let list = list.expect("the contract: a statement record, and its numbers");
        Statements { record, numbers, list, join_points: sizes.join_points, forms, whats }
    })
}

/// The same over what the caller lends: 512 entries of each store array per join point, a buffer for the
/// statement record, and an array for the numbers beside it, one a statement. Gives the counts of
/// statements and entries; [`read_numbered`] reads record and numbers. All that is lent is written to the
/// last word, with zeros where nothing else stands, and after a refusal with zeros alone.
///
/// ```
/// use hirvoksne::{ghost_statements_into, read_numbered, Refusal};
///
/// let types = [2, 2, 0, 6, 0, 2, 0, 0]; // an opaque type, and a struct of two fields
/// let function = [2, 0, 1, 6, 0, 1, 0, 0, 0, 2, 5, 0, 5, 11, 1, 0, 0, 1, 0, 0]; // uses _1.0, _1
/// let (mut out, mut told) = ([0; 14], [0; 2]);
/// let counts = ghost_statements_into(&types, &function, &mut [], &mut [], &mut out, &mut told)?;
/// assert_eq!(counts, (2, 6));
/// let lines = read_numbered(&out, &told).unwrap();
/// assert_eq!(lines[0].to_string(), "at 2 unfold _1 0");
///
/// let refused =
///     ghost_statements_into(&types, &function, &mut [], &mut [], &mut out, &mut told[..1]);
/// assert_eq!(refused, Err(Refusal::ShortStore));
/// # Ok::<(), hirvoksne::Refusal>(())
/// ```
///
/// # Panics
///
/// As [`ghost_statements`].
pub fn ghost_statements_into(
    types: &[u32],
    function: &[u32],
    forms: &mut [u16],
    whats: &mut [u16],
    out: &mut [u32],
    told: &mut [u32],
) -> Result<(usize, usize), Refusal> {
    let blocks = Sizes::of(function).blocks;
    stack::run(blocks, || on_this_thread(types, function, forms, whats, out, told))
}

/// The same on the caller's thread, whatever its stack. A thread that has too little of it ends the
/// process.
pub fn on_this_thread(
    types: &[u32],
    function: &[u32],
    forms: &mut [u16],
    whats: &mut [u16],
    out: &mut [u32],
    told: &mut [u32],
) -> Result<(usize, usize), Refusal> {
    counts(exported(types, function, forms, whats, out, told), out)
}

/// The counts of statements and entries, which stand first in the record, or the refusal.
fn counts(answer: u32, out: &[u32]) -> Result<(usize, usize), Refusal> {
    match answer {
        0 => Ok((out[0] as usize, out[1] as usize)),
        number => Err(Refusal::from_number(number).expect("the contract: a refusal's number")),
    }
}

/// What the program `ghosts` prints of a text: of both records as decimal words, parted by blanks or
/// newlines, a line per statement, or `refused` and the number. It takes 4,096 words, 16 join points and
/// 1,024 entries at the most.
///
/// ```
/// let text = "2 2 0 6 0 2 0 0  2 0 1 6 0 1 0 0 0 2 5 0 5 11 1 0 0 1 0 0";
/// assert_eq!(hirvoksne::ghosts(text.as_bytes()), "at 2 unfold _1 0\nat 4 fold _1\n");
/// assert_eq!(hirvoksne::ghosts(b"2 2 0 6"), "refused 1\n");
/// ```
///
/// # Panics
///
/// If no thread with [`STACK`] bytes of stack can be had.
pub fn ghosts(text: &[u8]) -> String {
    let mut page = [0; PAGE];
    let length = stack::run(MAX_BLOCKS as usize, || exported_ghosts(text, &mut page));
    let printed = std::str::from_utf8(&page[..length]).expect("the contract: digits and words");
    printed.to_string()
}
