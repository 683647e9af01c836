//! The public calls, on records. Each tests its own input in document 01's order: types (1),
//! function (2), local types and states (3), places (4), store (10), then the run's 5 to 9, and
//! last a short statement buffer or a short array for its numbers (10). A refusal leaves states as
//! they came and zeroes what is lent.

use std::collections::HashMap;

use crate::{
    env::{Env, ProjResult},
    fold_unfold::{add_ghost_statements, Copies, Room},
    function::{BasicBlock, Body},
    ghost_statements::{GhostStatements, Point, StatementsAt},
    place::{Place, Role},
    place_node::Modified,
    refusal::Refusal,
    state::{State, MAX_NODES},
    types::{Ty, Types, VariantIdx},
};

/// Counts of statements and entries.
pub type Counts = (usize, usize);

/// The statements of a whole function, and beside their record, in `told`, a number for each. Each
/// join point's share of the store is left with the block's final state, or zeros if none arrived;
/// the rest of all that is lent is zero.
pub fn ghost_statements(
    types: &[u32],
    function: &[u32],
    store_forms: &mut [u16],
    store_whats: &mut [u16],
    out: &mut [u32],
    told: &mut [u32],
) -> Result<Counts, Refusal> {
    statements_of(types, function, [store_forms, store_whats], out, told, Room::Tested)
}

/// The source's way: refusal 9 is not tested. The stored states have to fit their shares all the same,
/// or it panics.
pub fn ghost_statements_unlimited(
    types: &[u32],
    function: &[u32],
    store_forms: &mut [u16],
    store_whats: &mut [u16],
    out: &mut [u32],
    told: &mut [u32],
) -> Result<Counts, Refusal> {
    statements_of(types, function, [store_forms, store_whats], out, told, Room::Untested)
}

/// How many states the call would copy as arrays, or why it refuses, whatever were lent.
pub fn copies(types: &[u32], function: &[u32]) -> Result<Copies, Refusal> {
    let (genv, body) = read(types, function)?;
    let mut stmts = GhostStatements::default();
    add_ghost_statements(&mut stmts, &genv, &body, &mut HashMap::new(), Room::Tested)
}

fn read(types: &[u32], function: &[u32]) -> Result<(Types, Body), Refusal> {
    let genv = Types::read(types)?;
    let body = Body::read(&genv, function)?;
    body.check_places()?;
    Ok((genv, body))
}

fn statements_of(
    types: &[u32],
    function: &[u32],
    [store_forms, store_whats]: [&mut [u16]; 2],
    out: &mut [u32],
    told: &mut [u32],
    room: Room,
) -> Result<Counts, Refusal> {
    store_forms.fill(0);
    store_whats.fill(0);
    out.fill(0);
    told.fill(0);
    let (genv, body) = read(types, function)?;
    let shares = body.join_points().count() * MAX_NODES;
    if store_forms.len() < shares || store_whats.len() < shares {
        return Err(Refusal::ShortStore);
    }
    let mut bb_envs = HashMap::new();
    let mut stmts = GhostStatements::default();
    add_ghost_statements(&mut stmts, &genv, &body, &mut bb_envs, room)?;
    let numbers = stmts.numbers();
    // Found last, as a short buffer is: both are 10, so that no order shows.
    let told = told.get_mut(..numbers.len()).ok_or(Refusal::ShortStore)?;
    let counts = stmts.write_record(out)?;
    told.copy_from_slice(&numbers);
    write_shares(&body, &bb_envs, store_forms, store_whats);
    Ok(counts)
}

fn write_shares(
    body: &Body,
    bb_envs: &HashMap<BasicBlock, Env>,
    store_forms: &mut [u16],
    store_whats: &mut [u16],
) {
    for (share, bb) in body.join_points().enumerate() {
        if let Some(env) = bb_envs.get(&bb) {
            let state = State::encode(env).expect("a stored state fits its share");
            let entries = share * MAX_NODES..(share + 1) * MAX_NODES;
            store_forms[entries.clone()].copy_from_slice(&state.forms);
            store_whats[entries].copy_from_slice(&state.whats);
        }
    }
}

/// Walks a place and folds what it reaches. Gives the walk's number too, whatever the answer.
pub fn projection(
    types: &[u32],
    locals: &[u32],
    state: &State,
    place_ops: &[u32],
    place_args: &[u32],
) -> (Result<(ProjResult, usize), Refusal>, State) {
    on_place(types, locals, state, place_ops, place_args, Role::Used, |env, genv, place| {
        env.projection(genv, place)
    })
}

/// Walks a place, then downcasts what it reaches to a variant.
pub fn downcast(
    types: &[u32],
    locals: &[u32],
    state: &State,
    place_ops: &[u32],
    place_args: &[u32],
    variant: VariantIdx,
) -> (Result<(), Refusal>, State) {
    on_place(types, locals, state, place_ops, place_args, Role::Used, |env, genv, place| {
        env.downcast(genv, place, variant)
    })
}

/// Carries out one fold statement.
pub fn fold(
    types: &[u32],
    locals: &[u32],
    state: &State,
    place_ops: &[u32],
    place_args: &[u32],
) -> (Result<(), Refusal>, State) {
    on_place(types, locals, state, place_ops, place_args, Role::Folded, |env, genv, place| {
        env.fold(genv, place)
    })
}

/// Carries out one unfold statement.
pub fn unfold(
    types: &[u32],
    locals: &[u32],
    state: &State,
    place_ops: &[u32],
    place_args: &[u32],
) -> (Result<(), Refusal>, State) {
    on_place(types, locals, state, place_ops, place_args, Role::Unfolded, |env, genv, place| {
        env.unfold(genv, place)
    })
}

/// The first state after the join, and whether it changed.
pub fn join(
    types: &[u32],
    locals: &[u32],
    first: &State,
    second: &State,
) -> Result<(State, Modified), Refusal> {
    let genv = Types::read(types)?;
    let mut env = first.decode(&genv, locals)?;
    let other = second.decode(&genv, locals)?;
    let modified = env.join(&genv, other)?;
    Ok((State::encode(&env)?, modified))
}

/// The join of two trees of one type, given as states of one local: both trees and both flags.
pub fn join_nodes(
    types: &[u32],
    ty: Ty,
    in_mut_ref: bool,
    first: &State,
    second: &State,
) -> Result<(State, State, Modified, Modified), Refusal> {
    let genv = Types::read(types)?;
    let mut env1 = first.decode(&genv, &[ty])?;
    let mut env2 = second.decode(&genv, &[ty])?;
    let (m1, m2) = env1.map[0].join(&genv, &mut env2.map[0], in_mut_ref)?;
    Ok((State::encode(&env1)?, State::encode(&env2)?, m1, m2))
}

/// The statements that lead from the first state to the second.
pub fn collect_fold_unfolds(
    types: &[u32],
    locals: &[u32],
    first: &State,
    second: &State,
    out: &mut [u32],
) -> Result<Counts, Refusal> {
    out.fill(0);
    let genv = Types::read(types)?;
    let env = first.decode(&genv, locals)?;
    let target = second.decode(&genv, locals)?;
    collect(out, |stmts| env.collect_fold_unfolds_at_goto(&genv, &target, stmts))
}

/// The statements that lead from all folded to a state.
pub fn collect_unfolds(
    types: &[u32],
    locals: &[u32],
    state: &State,
    out: &mut [u32],
) -> Result<Counts, Refusal> {
    out.fill(0);
    let genv = Types::read(types)?;
    let env = state.decode(&genv, locals)?;
    collect(out, |stmts| env.collect_unfolds(&genv, stmts))
}

/// The folds at return, over the arguments: locals 1 to `arg_count`.
pub fn collect_folds_at_ret(
    types: &[u32],
    locals: &[u32],
    arg_count: usize,
    state: &State,
    out: &mut [u32],
) -> Result<Counts, Refusal> {
    out.fill(0);
    let genv = Types::read(types)?;
    let env = state.decode(&genv, locals)?;
    if arg_count >= locals.len() {
        return Err(Refusal::BadState);
    }
    collect(out, |stmts| {
        env.collect_folds_at_ret(&genv, 1..=arg_count, stmts);
        Ok(())
    })
}

/// A call on one state and one place.
fn on_place<A>(
    types: &[u32],
    locals: &[u32],
    state: &State,
    place_ops: &[u32],
    place_args: &[u32],
    role: Role,
    act: impl FnOnce(&mut Env, &Types, &Place) -> Result<A, Refusal>,
) -> (Result<A, Refusal>, State) {
    let call = || {
        let genv = Types::read(types)?;
        let mut env = state.decode(&genv, locals)?;
        let place = Place::from_items(place_ops, place_args).ok_or(Refusal::BadPlace)?;
        place.check(locals.len(), role)?;
        let answer = act(&mut env, &genv, &place)?;
        Ok((answer, State::encode(&env)?))
    };
    match call() {
        Ok((answer, after)) => (Ok(answer), after),
        Err(refusal) => (Err(refusal), state.clone()),
    }
}

/// Writes a collected list as a record whose every point is the entry.
fn collect(
    out: &mut [u32],
    fill: impl FnOnce(&mut StatementsAt) -> Result<(), Refusal>,
) -> Result<Counts, Refusal> {
    let mut stmts = GhostStatements::default();
    fill(&mut stmts.at(Point::FunEntry))?;
    stmts.write_record(out)
}
