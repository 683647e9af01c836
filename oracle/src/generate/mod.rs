//! The generator of cases, from a seed. `random` gives one case of a kind; `limits` the cases
//! round each limit.

pub mod crates;
pub mod damage;
pub mod draft;
pub mod full;
pub mod function;
pub mod limits;
pub mod merge;
pub mod numbers;
pub mod order;
pub mod places;
pub mod requests;
pub mod rng;
pub mod statements;
pub mod states;
pub mod types;
pub mod whole;

use crate::case::{Call, Case};
use rng::Rng;

#[derive(Clone, Copy, PartialEq, Eq, Debug)]
pub enum Size {
    /// Few types and blocks, at most 60 items (but for refusals 4 and 9).
    Small,
    Normal,
    /// Many blocks.
    Large,
}

#[derive(Clone, Copy, PartialEq, Eq, Debug)]
pub enum Kind {
    /// One call.
    Call(Call),
    /// Any of the calls on states.
    States,
    /// Functions of a few random items.
    Items,
    /// Any words as records, and good records with a word changed.
    Words,
}

impl Kind {
    pub fn from_name(name: &str) -> Option<Kind> {
        match name {
            "states" => return Some(Kind::States),
            "items" => return Some(Kind::Items),
            "words" => return Some(Kind::Words),
            _ => {}
        }
        let calls = [Call::Types, Call::Function, Call::Whole, Call::Ghosts];
        let requests = [Call::StatementItems, Call::CrateStatements, Call::MergeTypes];
        let mut calls = calls.into_iter().chain(requests).chain(Call::ON_STATES);
        calls.find(|call| call.name() == name).map(Kind::Call)
    }
}

/// How often each answer comes up among whole functions, of a hundred.
const WHOLE: [(usize, u32); 9] =
    [(60, 0), (3, 1), (6, 2), (5, 4), (6, 5), (6, 6), (5, 8), (4, 9), (5, 10)];

/// A case of this kind, with the refusal asked for (0 for none); nothing if there is no such.
pub fn random(rng: &mut Rng, kind: Kind, size: Size, want: Option<u32>) -> Option<Case> {
    if kind == Kind::Call(Call::Whole) {
        let want = want.unwrap_or_else(|| rng.weighted(&WHOLE));
        return whole::whole_case(rng, size, want);
    }
    let tries = if want.is_some() { 5000 } else { 1 };
    let mut cases = (0..tries).map(|_| any(rng, kind, size));
    cases.find(|case| want.is_none_or(|want| case.refusal() == want))
}

fn any(rng: &mut Rng, kind: Kind, size: Size) -> Case {
    match kind {
        Kind::States => {
            let call = rng.pick(&Call::ON_STATES);
            states::random_case(rng, call, size)
        }
        Kind::Items => whole::items_case(rng),
        Kind::Words => whole::words_case(rng, size),
        Kind::Call(Call::Types) => whole::types_case(rng, size),
        Kind::Call(Call::Function) => whole::function_case(rng, size),
        Kind::Call(Call::Ghosts) => whole::ghosts_case(rng, size),
        Kind::Call(Call::StatementItems) => statements::statements_case(rng, size),
        Kind::Call(Call::CrateStatements) => crates::crate_case(rng, size),
        Kind::Call(Call::MergeTypes) => merge::merge_case(rng, size),
        Kind::Call(Call::Whole) => unreachable!("made by `whole_case`"),
        Kind::Call(call) => states::random_case(rng, call, size),
    }
}
