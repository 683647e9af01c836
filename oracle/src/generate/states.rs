//! Random cases of the calls on states.

use super::{
    damage::damage_state,
    full::full_state,
    function::some_locals,
    places::{
        bad_place, enum_place, open_place, random_place, unfolded_enums, wrong_place, FAR, NEAR,
    },
    rng::Rng,
    types::random_types,
    Size,
};
use crate::{
    case::{Call, Case},
    env::Env,
    place::{Place, PlaceElem},
    place_node::PlaceNode,
    state::{State, MAX_DEPTH, MAX_NODES},
    types::{Ty, TyKind, Types},
};

/// Entries of a statement, at most: point, verb, root and 127 elements.
const MAX_STATEMENT: usize = 130;

/// One case of a call on states, of any answer.
pub fn random_case(rng: &mut Rng, call: Call, size: Size) -> Case {
    let mut case = match rng.chance(if size == Size::Small { 3 } else { 10 }) {
        true => full_case(rng, call, size),
        false => usual_case(rng, call, size),
    };
    case.number = match call {
        Call::Downcast => variant_for(rng, &case),
        Call::JoinNodes => rng.below(2) as u32,
        Call::CollectFoldsAtRet => rng.below(case.locals.len()) as u32,
        _ => 0,
    };
    if call.collects() {
        case.room = vec![random_room(rng, &case)];
    }
    if rng.chance(12) {
        spoil(rng, &mut case);
    }
    case
}

fn usual_case(rng: &mut Rng, call: Call, size: Size) -> Case {
    let types = random_types(rng, size);
    let words = types.words();
    let genv = Types::read(&words).expect("good types");
    let most = match (call, size) {
        (Call::JoinNodes, _) => 1,
        (_, Size::Small) => 3,
        _ => 6,
    };
    let standing = types.standing();
    let count = rng.range(1, most);
    let locals = some_locals(rng, &genv, &standing, count);
    let nodes = match size {
        Size::Small => 24,
        Size::Normal | Size::Large => rng.pick(&[20, 60, 200, MAX_NODES]),
    };
    let first = random_env(rng, &genv, &locals, nodes);
    let mut case = Case { types: words, locals: locals.clone(), ..Case::new(call) };
    if call.has_place() {
        case.set_place(&place_for(rng, call, &genv, &first).to_items());
    }
    let mut envs = vec![first];
    if call.has_two_states() {
        let second = second_env(rng, call, &genv, &envs[0], nodes);
        envs.push(second);
        if call != Call::CollectFoldUnfolds && rng.chance(50) {
            envs.swap(0, 1);
        }
    }
    case.states = encode_all(&envs);
    case
}

fn encode_all(envs: &[Env]) -> Vec<State> {
    envs.iter().map(|env| State::encode(env).expect("at most 512 nodes")).collect()
}

/// A state of all locals with at most so many nodes.
pub fn random_env(rng: &mut Rng, genv: &Types, locals: &[Ty], nodes: usize) -> Env {
    let mut budget = nodes.saturating_sub(locals.len());
    let open = rng.pick(&[30, 60, 80, 95]);
    let mut map: Vec<PlaceNode> = locals.iter().map(|&ty| PlaceNode::Ty(ty)).collect();
    for node in &mut map {
        grow(rng, genv, node, 0, open, &mut budget);
    }
    Env { map }
}

/// Opens a node and, in turn, what is below it.
fn grow(
    rng: &mut Rng,
    genv: &Types,
    node: &mut PlaceNode,
    depth: usize,
    open: usize,
    budget: &mut usize,
) {
    if depth > MAX_DEPTH || !rng.chance(open) {
        return;
    }
    let mut opened = node.clone();
    if opened.is_ty() && !open_any(rng, genv, &mut opened) {
        return;
    }
    let added = opened.node_count() - node.node_count();
    if added > *budget {
        return;
    }
    *budget -= added;
    *node = opened;
    let children: &mut [PlaceNode] = match node {
        PlaceNode::Deref(_, child) => std::slice::from_mut(&mut **child),
        PlaceNode::Downcast(.., fields)
        | PlaceNode::Closure(_, fields)
        | PlaceNode::Generator(_, fields)
        | PlaceNode::Tuple(_, fields) => fields,
        PlaceNode::Ty(_) => return,
    };
    for child in children {
        grow(rng, genv, child, depth + 1, open, budget);
    }
}

/// Opens a folded node, an enum at any variant. False if it has no way to open.
fn open_any(rng: &mut Rng, genv: &Types, node: &mut PlaceNode) -> bool {
    if genv.kind(node.ty()) != TyKind::Enum {
        return node.unfold(genv).is_ok();
    }
    let count = genv.discriminants(node.ty()).count();
    count > 0 && node.downcast(genv, rng.below(count) as u32).is_ok()
}

/// A second state: any, one near the first, or one that the first was joined into.
fn second_env(rng: &mut Rng, call: Call, genv: &Types, first: &Env, nodes: usize) -> Env {
    let locals: Vec<Ty> = first.map.iter().map(PlaceNode::ty).collect();
    match rng.below(10) {
        0..=2 => random_env(rng, genv, &locals, nodes),
        3..=6 => near_env(rng, genv, first),
        _ => {
            let other = random_env(rng, genv, &locals, nodes);
            let mut joined = first.clone();
            let in_mut_ref = call == Call::JoinNodes && rng.chance(50);
            for (node, mut other) in joined.map.iter_mut().zip(other.map) {
                node.join(genv, &mut other, in_mut_ref).expect("two trees of one type");
            }
            match joined.check_room() {
                Ok(()) => joined,
                Err(_) => first.clone(),
            }
        }
    }
}

/// A copy with some places used.
fn near_env(rng: &mut Rng, genv: &Types, env: &Env) -> Env {
    let mut near = env.clone();
    for _ in 0..rng.range(1, 4) {
        let mut next = near.clone();
        let place = random_place(rng, genv, &near, NEAR);
        if next.projection(genv, &place).is_ok() && next.check_room().is_ok() {
            near = next;
        }
    }
    near
}

/// A place for the call: mostly one that fits.
fn place_for(rng: &mut Rng, call: Call, genv: &Types, env: &Env) -> Place {
    let reach = if rng.chance(8) { FAR } else { NEAR };
    let place = random_place(rng, genv, env, reach);
    let better = match rng.below(100) {
        0..=6 => return bad_place(rng, &place, env.map.len()),
        7..=16 => return wrong_place(rng, genv, env),
        17..=31 => other_variant(rng, genv, env),
        32..=75 if call == Call::Downcast => enum_place(rng, genv, env),
        76..=99 if call == Call::Downcast => open_place(rng, genv, env),
        32..=45 if call == Call::Unfold => variant_place(rng, genv, env),
        46..=90 if call == Call::Unfold => open_place(rng, genv, env),
        _ => None,
    };
    better.unwrap_or(place)
}

/// A variant for the place of a downcast: mostly one that its type has.
fn variant_for(rng: &mut Rng, case: &Case) -> u32 {
    let any = rng.below(3) as u32;
    let genv = Types::read(&case.types).expect("good types");
    let env = case.states[0].decode(&genv, &case.locals).expect("a good state");
    let Some(place) = Place::from_items(&case.place_ops, &case.place_args) else { return any };
    if place.local >= env.map.len() || rng.chance(10) {
        return any;
    }
    match env.walked_type(&genv, &place) {
        Ok(ty) if genv.is_enum(ty) => rng.below(genv.discriminants(ty).count().max(1)) as u32,
        Ok(_) => 0,
        Err(_) => any,
    }
}

/// A place that ends in downcast.
fn variant_place(rng: &mut Rng, genv: &Types, env: &Env) -> Option<Place> {
    let mut place = enum_place(rng, genv, env)?;
    place.projection.push(PlaceElem::Downcast(rng.below(3) as u32));
    Some(place)
}

/// A place below another variant than the unfolded one.
fn other_variant(rng: &mut Rng, genv: &Types, env: &Env) -> Option<Place> {
    let enums = unfolded_enums(genv, env);
    if enums.is_empty() {
        return None;
    }
    let (mut place, idx) = enums[rng.below(enums.len())].clone();
    let other = (idx + 1) % genv.discriminants(env.walked_type(genv, &place).ok()?).count() as u32;
    place.projection.push(PlaceElem::Downcast(other));
    place.projection.push(PlaceElem::Field(0));
    Some(place)
}

/// A case whose result has about 512 nodes.
fn full_case(rng: &mut Rng, call: Call, size: Size) -> Case {
    let total = rng.range(510, 514);
    let (types, mut locals, env, place) = full_state(rng, total, size);
    let genv = Types::read(&types.words()).expect("good types");
    let mut case = Case { types: types.words(), ..Case::new(call) };
    let mut second = Env::new(&locals);
    second.projection(&genv, &place).expect("a field");
    let mut envs = vec![env, second];
    if call == Call::JoinNodes {
        // The wide tree alone, against a folded one.
        locals = vec![locals[1]];
        envs = vec![Env { map: vec![envs[0].map[1].clone()] }, Env::new(&locals)];
    }
    if !call.has_two_states() {
        envs.truncate(1);
    }
    case.set_place(&place_in_full(rng, call, &place).to_items());
    case.states = encode_all(&envs);
    case.locals = locals;
    case
}

/// Downcast and unfold open the place's root themselves.
fn place_in_full(rng: &mut Rng, call: Call, place: &Place) -> Place {
    match call {
        Call::Downcast => place.truncate(0),
        Call::Unfold if rng.chance(60) => place.truncate(0),
        _ => place.clone(),
    }
}

/// Exactly enough, one short, plenty or nothing.
fn random_room(rng: &mut Rng, case: &Case) -> usize {
    // A node gives one statement at most.
    let nodes: usize = case.states.iter().map(|state| state.count).sum();
    let roomy = Case { room: vec![2 + 2 * nodes * MAX_STATEMENT], ..case.clone() };
    let exact = match roomy.answer().result {
        Ok(counts) => 2 + 2 * counts[1],
        Err(_) => 2,
    };
    match rng.below(10) {
        0 | 1 => exact - 1,
        2 => rng.below(exact),
        3..=5 => exact,
        6 => exact + 1,
        _ => exact + rng.range(2, 64),
    }
}

/// Breaks one of the inputs.
fn spoil(rng: &mut Rng, case: &mut Case) {
    match rng.below(10) {
        0 => {
            let at = rng.below(case.types.len());
            case.types[at] = rng.below(12) as u32;
        }
        1 => {
            let at = rng.below(case.locals.len());
            case.locals[at] = rng.below(case.types[0] as usize + 2) as u32;
        }
        // The type of `join_nodes` is one local.
        2 if case.call != Call::JoinNodes => match rng.chance(50) {
            true => case.locals.push(0),
            false => {
                case.locals.pop();
            }
        },
        3 if case.call == Call::CollectFoldsAtRet => {
            case.number = case.locals.len() as u32 + rng.below(2) as u32;
        }
        _ => {
            let at = rng.below(case.states.len());
            damage_state(rng, &mut case.states[at]);
        }
    }
}
