//! What the programs of this package share.

/// Functions to measure.
pub mod inputs;
/// What a call leaves.
pub mod left;
/// Options of the programs.
pub mod options;
