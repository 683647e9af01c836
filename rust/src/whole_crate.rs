//! A whole crate in one call: up to 64 functions over one type record.

use std::{error::Error, fmt};

use crate::{
    exported_call::exported_crate,
    refusal::Refusal,
    sizes::{is_as_long_as_written, most_blocks, Sizes},
    stack,
    statements::{read_record, Statements, SHARE},
    GROWTH,
};

/// The functions that one call takes at the most.
pub const MOST_FUNCTIONS: usize = 64;

/// The exported call answers with a refusal's number and so many times the position.
const POSITION: u32 = 256;

/// Why a crate was refused, and which of its functions.
///
/// ```
/// use hirvoksne::{crate_statements, Refusal};
///
/// let types = [2, 2, 0, 6, 0, 2, 0, 0]; // an opaque type, and a struct of two fields
/// let good = [2, 0, 1, 4, 0, 1, 0, 0, 0, 2, 5, 11, 1, 0, 0, 0]; // uses _1.0
/// let bad = [2, 0, 1, 4, 0, 1, 0, 0, 0, 1, 5, 11, 1, 0, 0, 0]; // uses *_1
/// let refused = crate_statements(&types, &[good, bad]).unwrap_err();
/// assert_eq!((refused.position, refused.refusal), (2, Refusal::WrongStep));
/// assert!(refused.to_string().starts_with("function 2: wrong step: "));
/// ```
#[derive(Clone, Copy, PartialEq, Eq, Debug)]
pub struct CrateRefusal {
    /// The function's position, counted from 1; 0 where it is no function's: too many functions, the
    /// types, words after the last record.
    pub position: usize,
    /// What the function's own call says; at position 0, [`Refusal::BadTypes`] or
    /// [`Refusal::BadFunction`].
    pub refusal: Refusal,
}

impl fmt::Display for CrateRefusal {
    fn fmt(&self, f: &mut fmt::Formatter<'_>) -> fmt::Result {
        match (self.position, self.refusal) {
            (0, Refusal::BadFunction) => {
                write!(
                    f,
                    "bad function: no count, over {MOST_FUNCTIONS}, or words after the last record"
                )
            }
            (0, refusal) => write!(f, "{refusal}"),
            (position, refusal) => write!(f, "function {position}: {refusal}"),
        }
    }
}

impl Error for CrateRefusal {}

/// The statements of each function of a crate, in order, or the first refusal: what
/// [`crate::ghost_statements`] says of each alone, with the types tested once.
///
/// Of the states at join points one call keeps the last function's alone, so [`Statements::stored`]
/// gives none of the others. No numbers stand beside the records, so what a statement tells is
/// [`crate::Told::Unknown`], and its line has no last word for it.
///
/// ```
/// use hirvoksne::{crate_statements, Function, Open, Place, Types};
///
/// let mut types = Types::new();
/// let int = types.opaque();
/// let timer = types.structure(&[int, int]);
/// // fn armed(timer: Timer) uses a field, fn restored(timer: Timer) first a field and then all of it.
/// let mut armed = Function::new(int, &[timer], &[]);
/// let start = armed.block();
/// armed.write(start, Open::new().used(&Place::local(1).field(0)).ret());
/// let mut restored = Function::new(int, &[timer], &[]);
/// let start = restored.block();
/// let block = Open::new().used(&Place::local(1).field(1)).used(&Place::local(1));
/// restored.write(start, block.ret());
///
/// let functions = [armed.record(), restored.record()];
/// let statements = crate_statements(&types.record(), &functions)?;
/// assert_eq!(statements[0].to_string(), "at 2 unfold _1\n");
/// assert_eq!(statements[1].to_string(), "at 2 unfold _1\nat 4 fold _1\n");
/// # Ok::<(), hirvoksne::CrateRefusal>(())
/// ```
///
/// # Panics
///
/// As [`crate::ghost_statements`].
pub fn crate_statements<F: AsRef<[u32]>>(
    types: &[u32],
    functions: &[F],
) -> Result<Vec<Statements>, CrateRefusal> {
    if functions.len() > MOST_FUNCTIONS {
        return Err(CrateRefusal { position: 0, refusal: Refusal::BadFunction });
    }
    let functions: Vec<&[u32]> = functions.iter().map(AsRef::as_ref).collect();
    // A record that isn't as long as its sizes say would move those behind it. It is refused once those
    // before it are accepted, as it is alone.
    let odd = functions.iter().position(|function| !is_as_long_as_written(function));
    let statements = in_a_row(types, &functions[..odd.unwrap_or(functions.len())])?;
    match odd {
        None => Ok(statements),
        Some(at) => Err(CrateRefusal { position: at + 1, refusal: Refusal::BadFunction }),
    }
}

/// Of functions that are as long as their sizes say.
fn in_a_row(types: &[u32], functions: &[&[u32]]) -> Result<Vec<Statements>, CrateRefusal> {
    let words = crate_words(functions);
    let sizes: Vec<Sizes> = functions.iter().map(|function| Sizes::of(function)).collect();
    let join_points = sizes.iter().map(|sizes| sizes.join_points.len()).max().unwrap_or(0);
    let (mut forms, mut whats) = (vec![0; join_points * SHARE], vec![0; join_points * SHARE]);
    let longest = sizes.iter().map(Sizes::longest_record).sum();
    let mut out = vec![0; sizes.iter().map(Sizes::first_buffer).sum()];
    stack::run(most_blocks(&words), || loop {
        let answer = exported_crate(types, &words, &mut forms, &mut whats, &mut out);
        // The store is large enough for each function, so it is the output that isn't.
        let short = answer % POSITION == Refusal::ShortStore.number();
        if !short || out.len() >= longest {
            return verdict(answer);
        }
        out = vec![0; (out.len() * GROWTH).min(longest)];
    })?;
    Ok(read_records(&out, sizes, forms, whats))
}

/// The statement records one after another; the store is the last function's.
fn read_records(
    out: &[u32],
    sizes: Vec<Sizes>,
    forms: Vec<u16>,
    whats: Vec<u16>,
) -> Vec<Statements> {
    let mut used = 0;
    let statements = sizes.into_iter().map(|sizes| {
        let record = out[used..used + 2 + 2 * out[used + 1] as usize].to_vec();
        used += record.len();
        let list = read_record(&record).expect("the contract: a statement record");
        let join_points = sizes.join_points;
        let (numbers, forms, whats) = (vec![], vec![], vec![]);
        Statements { record, numbers, list, join_points, forms, whats }
    });
    let mut statements: Vec<Statements> = statements.collect();
    if let Some(last) = statements.last_mut() {
        (last.forms, last.whats) = (forms, whats);
        let store = last.join_points.len() * SHARE;
        last.forms.truncate(store);
        last.whats.truncate(store);
    }
    statements
}

/// What [`crate_statements_into`] takes: the count, then the function records one after another.
pub fn crate_words<F: AsRef<[u32]>>(functions: &[F]) -> Vec<u32> {
    let mut words = vec![u32::try_from(functions.len()).unwrap_or(u32::MAX)];
    functions.iter().for_each(|function| words.extend(function.as_ref()));
    words
}

/// The same over words as they are and what the caller lends: the store that the function with the most
/// join points needs, 512 entries of each array for each, and an output for the statement records one
/// after another. A record ends where its sizes say. All that is lent is written to the last word: behind
/// the records zeros, in the store what the last function leaves, after a refusal zeros alone.
///
/// # Panics
///
/// As [`crate::ghost_statements`].
pub fn crate_statements_into(
    types: &[u32],
    words: &[u32],
    forms: &mut [u16],
    whats: &mut [u16],
    out: &mut [u32],
) -> Result<(), CrateRefusal> {
    stack::run(most_blocks(words), || verdict(exported_crate(types, words, forms, whats, out)))
}

fn verdict(answer: u32) -> Result<(), CrateRefusal> {
    if answer == 0 {
        return Ok(());
    }
    let refusal =
        Refusal::from_number(answer % POSITION).expect("the contract: a refusal's number");
    Err(CrateRefusal { position: (answer / POSITION) as usize, refusal })
}
