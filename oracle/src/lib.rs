//! The test oracle: the fold/unfold analysis of the source with boxed trees, and exactly the
//! differences that document 01 names. In the order in which a reader should meet them:

/// The public calls, on records.
pub mod calls;
/// One tree per local.
pub mod env;
/// The two passes over a function.
pub mod fold_unfold;
/// The function record, the order of items, join points and refusal 2.
pub mod function;
/// Points, statements, the statement record and the numbers beside it.
pub mod ghost_statements;
/// The text program.
pub mod ghosts;
/// Two type records become one.
pub mod merge;
/// Places, their items and refusal 4.
pub mod place;
/// A tree: one place with what is unfolded below it.
pub mod place_node;
/// The blocks that wait.
pub mod queue;
/// The refusals.
pub mod refusal;
/// The replay of recorded statements along a list of jumps.
pub mod replay;
/// The state record and refusal 3.
pub mod state;
/// MIR statements as they are, and the items that they give.
pub mod statements;
/// The type record and refusal 1.
pub mod types;
/// A whole crate in one call.
pub mod whole_crate;

/// One test case with its answer, as lines of words.
pub mod case;
/// The generator of cases.
pub mod generate;
