//! Random places that fit a state, and places that don't.

use super::rng::Rng;
use crate::{
    env::Env,
    place::{Place, PlaceElem},
    place_node::PlaceNode,
    types::{Ty, TyKind, Types},
};

/// How far a random place goes.
#[derive(Clone, Copy)]
pub struct Reach {
    pub most: usize,
    /// Of a hundred, at each step.
    pub stop: usize,
}

pub const NEAR: Reach = Reach { most: 6, stop: 25 };
pub const FAR: Reach = Reach { most: 63, stop: 2 };

/// A place whose walk the env accepts (unless it passes 512 nodes). It never ends in downcast.
pub fn random_place(rng: &mut Rng, genv: &Types, env: &Env, reach: Reach) -> Place {
    let mut local = rng.below(env.map.len());
    if !opens(genv, env.map[local].ty()) {
        local = rng.below(env.map.len());
    }
    let mut place = Place::new(local, vec![]);
    let mut ty = env.map[local].ty();
    let mut node = Some(&env.map[local]);
    let mut steps = 0;
    while steps < reach.most && !rng.chance(reach.stop) {
        let Some((next, child)) = step(rng, genv, ty, node, &mut place.projection) else {
            break;
        };
        ty = next;
        node = node.and_then(|node| node.children().get(child));
        steps += 1;
    }
    if genv.is_array(ty) && rng.chance(60) {
        index(rng, &mut place.projection);
    }
    place
}

/// One step down: its elements are pushed; gives the type below and which child it is.
fn step(
    rng: &mut Rng,
    genv: &Types,
    ty: Ty,
    node: Option<&PlaceNode>,
    elems: &mut Vec<PlaceElem>,
) -> Option<(Ty, usize)> {
    match genv.kind(ty) {
        TyKind::Opaque | TyKind::Array | TyKind::Variant => None,
        TyKind::Pointer | TyKind::MutRef | TyKind::Box => {
            elems.push(PlaceElem::Deref);
            Some((genv.deref(ty)?, 0))
        }
        TyKind::Tuple | TyKind::Struct | TyKind::Closure | TyKind::Coroutine => {
            let fields = genv.fields(ty)?;
            let f = pick_field(rng, fields)?;
            if genv.is_struct(ty) && rng.chance(8) {
                elems.push(PlaceElem::Downcast(0));
            }
            elems.push(PlaceElem::Field(f as u32));
            Some((fields[f], f))
        }
        TyKind::Enum => {
            let unfolded = match node {
                Some(PlaceNode::Downcast(_, idx, _)) => Some(*idx),
                _ => None,
            };
            let idx = unfolded.or_else(|| pick_variant(rng, genv, ty))?;
            let fields = genv.variant(ty, idx)?;
            let f = pick_field(rng, fields)?;
            if unfolded.is_none() || rng.chance(60) {
                elems.push(PlaceElem::Downcast(idx));
            }
            elems.push(PlaceElem::Field(f as u32));
            Some((fields[f], f))
        }
    }
}

fn pick_field(rng: &mut Rng, fields: &[Ty]) -> Option<usize> {
    (!fields.is_empty()).then(|| rng.below(fields.len()))
}

fn pick_variant(rng: &mut Rng, genv: &Types, ty: Ty) -> Option<u32> {
    let count = genv.discriminants(ty).count();
    (count > 0).then(|| rng.below(count) as u32)
}

/// An index, and perhaps elements behind it that aren't looked at.
fn index(rng: &mut Rng, elems: &mut Vec<PlaceElem>) {
    elems.push(PlaceElem::Index);
    while rng.chance(25) {
        elems.push(rng.pick(&[
            PlaceElem::Deref,
            PlaceElem::Field(2),
            PlaceElem::Downcast(9),
            PlaceElem::Index,
        ]));
    }
}

/// A random place whose type is an enum.
pub fn enum_place(rng: &mut Rng, genv: &Types, env: &Env) -> Option<Place> {
    (0..12).find_map(|_| {
        let place = random_place(rng, genv, env, NEAR);
        let ty = env.walked_type(genv, &place).ok()?;
        genv.is_enum(ty).then_some(place)
    })
}

/// An element of an array, and perhaps elements behind its index.
pub fn element_place(rng: &mut Rng, genv: &Types, env: &Env) -> Option<Place> {
    (0..12).find_map(|_| {
        let mut place = random_place(rng, genv, env, NEAR);
        if !place.holds_index() {
            let ty = env.walked_type(genv, &place).ok()?;
            if !genv.is_array(ty) {
                return None;
            }
            index(rng, &mut place.projection);
        }
        Some(place)
    })
}

/// A place that isn't opaque, and no array.
pub fn open_place(rng: &mut Rng, genv: &Types, env: &Env) -> Option<Place> {
    (0..12).find_map(|_| {
        let place = random_place(rng, genv, env, NEAR);
        let ty = env.walked_type(genv, &place).ok()?;
        opens(genv, ty).then_some(place)
    })
}

fn opens(genv: &Types, ty: Ty) -> bool {
    genv.deref(ty).is_some() || genv.fields(ty).is_some() || genv.is_enum(ty)
}

/// The unfolded enums of a state, each with its place and its variant.
pub fn unfolded_enums(genv: &Types, env: &Env) -> Vec<(Place, u32)> {
    let mut found = vec![];
    for (local, node) in env.map.iter().enumerate() {
        find_enums(genv, node, &mut Place::new(local, vec![]), &mut found);
    }
    found
}

fn find_enums(genv: &Types, node: &PlaceNode, place: &mut Place, found: &mut Vec<(Place, u32)>) {
    if let PlaceNode::Downcast(ty, idx, _) = node {
        if genv.is_enum(*ty) {
            found.push((place.clone(), *idx));
        }
    }
    for (i, child) in (0..).zip(node.children()) {
        place.projection.push(match node {
            PlaceNode::Deref(..) => PlaceElem::Deref,
            _ => PlaceElem::Field(i),
        });
        find_enums(genv, child, place, found);
        place.projection.pop();
    }
}

/// A place that goes wrong in its last step, with 5.
pub fn wrong_place(rng: &mut Rng, genv: &Types, env: &Env) -> Place {
    let mut place = random_place(rng, genv, env, NEAR);
    if let Some(at) = place.projection.iter().position(|&elem| elem == PlaceElem::Index) {
        place.projection.truncate(at);
    }
    let mut copy = env.clone();
    let Ok(walk) = copy.ensure_unfolded(genv, &place) else { return place };
    let tail = rng.pick(&wrong_steps(genv, walk.node));
    place.projection.push(tail);
    if matches!(tail, PlaceElem::Downcast(_)) {
        place.projection.push(PlaceElem::Field(0));
    }
    place
}

fn wrong_steps(genv: &Types, node: &PlaceNode) -> Vec<PlaceElem> {
    let ty = node.ty();
    let mut wrong = vec![];
    if genv.deref(ty).is_none() {
        wrong.push(PlaceElem::Deref);
    }
    if !genv.is_array(ty) {
        wrong.push(PlaceElem::Index);
    }
    let variants = match genv.kind(ty) {
        TyKind::Enum => genv.discriminants(ty).count() as u32,
        TyKind::Struct => 1,
        _ => 0,
    };
    wrong.push(PlaceElem::Downcast(variants));
    let fields = match node {
        PlaceNode::Ty(ty) => genv.fields(*ty).map_or(0, <[Ty]>::len),
        PlaceNode::Deref(..) => 0,
        _ => node.children().len(),
    };
    wrong.push(PlaceElem::Field(fields as u32));
    wrong
}

/// A place that breaks refusal 4.
pub fn bad_place(rng: &mut Rng, place: &Place, locals: usize) -> Place {
    let mut bad = place.clone();
    match rng.below(6) {
        0 => bad.local = locals,
        1 => bad.local = locals + rng.below(1 << 20),
        2 => bad.projection = vec![PlaceElem::Deref; rng.range(65, 66)],
        3 => bad.projection = vec![PlaceElem::Field(0); rng.range(65, 128)],
        4 => {
            bad.projection = vec![PlaceElem::Downcast(0); rng.range(128, 130)];
            bad.projection.push(PlaceElem::Index);
        }
        _ => {
            bad.projection.retain(|&elem| elem != PlaceElem::Index);
            bad.projection.push(PlaceElem::Downcast(rng.below(3) as u32));
        }
    }
    bad
}
