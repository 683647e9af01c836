//! Functions and states of about 512 nodes. A few locals are structs of many opaque fields, and
//! one more opens the rest, so that the total is exactly the one asked for.

use super::{
    draft::{push_note, push_return, push_switch, push_target, push_use, Draft, Item},
    rng::Rng,
    types::TypeList,
    Size,
};
use crate::{
    env::Env,
    place::{Place, PlaceElem},
    state::MAX_NODES,
    types::{Ty, TyKind, Types},
};

/// Where the last nodes are added.
#[derive(Clone, Copy, PartialEq, Eq, Debug)]
pub enum Where {
    Use,
    Walk,
    Arm,
    Otherwise,
    Join,
    Loop,
}

pub const PLACES: [Where; 6] =
    [Where::Use, Where::Walk, Where::Arm, Where::Otherwise, Where::Join, Where::Loop];

/// Locals: 0 opaque, then `wide` ones of `fields` fields, then the one that opens the rest, then
/// an opaque one to note in.
struct Plan {
    wide: usize,
    fields: usize,
    rest: usize,
}

impl Plan {
    /// With more locals to open, a small record has fewer parts.
    fn new(rng: &mut Rng, total: usize, size: Size) -> Plan {
        let wide = if size == Size::Small { rng.range(6, 10) } else { rng.range(2, 8) };
        let to_open = total - (wide + 3);
        let fields = to_open / wide - rng.range(0, 3) - 1;
        Plan { wide, fields, rest: to_open - wide * fields }
    }

    fn opener(&self) -> usize {
        self.wide + 1
    }

    fn note(&self) -> Place {
        Place::new(self.wide + 2, vec![])
    }
}

/// A function whose state reaches exactly `total` nodes, at the place asked for.
pub fn full_function(rng: &mut Rng, total: usize, at: Where, size: Size) -> (TypeList, Draft) {
    if at == Where::Walk {
        return full_walk(rng, total, size);
    }
    let plan = Plan::new(rng, total, size);
    let mut types = TypeList::default();
    types.push(TyKind::Opaque, vec![]);
    let wide = types.push(struct_kind(rng), vec![0; plan.fields]);
    let opener = match at {
        Where::Arm | Where::Otherwise => {
            let bare = types.push(TyKind::Variant, vec![0]);
            let rest = vec![1].into_iter().chain(vec![0; plan.rest]).collect();
            let full = types.push(TyKind::Variant, rest);
            types.push(TyKind::Enum, vec![bare, full])
        }
        _ => types.push(struct_kind(rng), vec![0; plan.rest]),
    };
    let mut local_types = vec![0];
    local_types.extend(vec![wide; plan.wide]);
    local_types.extend([opener, 0]);
    let arg_count = rng.below(local_types.len());
    let mut draft = Draft::new(local_types, arg_count);
    write_blocks(rng, &plan, &mut draft, at);
    (types, draft)
}

/// All of these open by a field step and stay open in a join.
fn struct_kind(rng: &mut Rng) -> TyKind {
    rng.pick(&[TyKind::Struct, TyKind::Struct, TyKind::Tuple, TyKind::Closure, TyKind::Coroutine])
}

fn write_blocks(rng: &mut Rng, plan: &Plan, draft: &mut Draft, at: Where) {
    let mut wide: Vec<usize> = (1..=plan.wide).collect();
    rng.shuffle(&mut wide);
    let opener = Place::new(plan.opener(), vec![]);
    let mut items = vec![];
    match at {
        Where::Use | Where::Walk => {
            open(rng, &mut items, &wide, plan.fields);
            open(rng, &mut items, &[plan.opener()], plan.rest);
            push_return(&mut items);
            draft.block(items);
        }
        Where::Arm | Where::Otherwise => {
            open(rng, &mut items, &wide, plan.fields);
            push_note(&mut items, &opener, &plan.note());
            let value = u32::from(at == Where::Arm);
            push_switch(&mut items, Some(&plan.note()), &[(value, 1)], 2);
            draft.block(items);
            for _ in 0..2 {
                draft.block(vec![(11, 0)]);
            }
        }
        Where::Join => {
            let cut = rng.range(1, plan.wide);
            push_switch(&mut items, None, &[(0, 1)], 2);
            draft.block(items);
            let mut left = vec![];
            open(rng, &mut left, &wide[..cut], plan.fields);
            push_target(&mut left, 3);
            draft.block(left);
            let mut right = vec![];
            open(rng, &mut right, &wide[cut..], plan.fields);
            open(rng, &mut right, &[plan.opener()], plan.rest);
            push_target(&mut right, 3);
            draft.block(right);
            draft.block(vec![(11, 0)]);
        }
        Where::Loop => {
            push_target(&mut items, 1);
            draft.block(items);
            let cut = rng.range(1, plan.wide);
            let mut head = vec![];
            open(rng, &mut head, &wide[..cut], plan.fields);
            push_switch(&mut head, None, &[(0, 2)], 3);
            draft.block(head);
            let mut body = vec![];
            open(rng, &mut body, &wide[cut..], plan.fields);
            open(rng, &mut body, &[plan.opener()], plan.rest);
            push_target(&mut body, 1);
            draft.block(body);
            draft.block(vec![(11, 0)]);
        }
    }
}

/// Uses one field of each local.
fn open(rng: &mut Rng, items: &mut Vec<Item>, locals: &[usize], fields: usize) {
    for &local in locals {
        let field = PlaceElem::Field(rng.below(fields) as u32);
        push_use(items, &Place::new(local, vec![field]));
    }
}

/// One use that opens all: a box in each field of a struct, and a struct in each box.
fn full_walk(rng: &mut Rng, total: usize, size: Size) -> (TypeList, Draft) {
    let fields = if size == Size::Small { rng.range(17, 30) } else { rng.range(17, 60) };
    let pairs = (total - 4) / (fields + 1);
    let rest = total - 3 - pairs * (fields + 1);
    let mut types = TypeList::default();
    types.push(TyKind::Opaque, vec![]);
    let kind = rng.pick(&[TyKind::Pointer, TyKind::MutRef, TyKind::Box]);
    types.push(kind, vec![2]);
    types.push(TyKind::Struct, vec![1; fields]);
    let opener = types.push(TyKind::Tuple, vec![0; rest]);
    let mut draft = Draft::new(vec![0, 2, opener], 1);
    let mut projection = vec![];
    for _ in 0..pairs {
        projection.push(PlaceElem::Field(rng.below(fields) as u32));
        projection.push(PlaceElem::Deref);
    }
    let deep = Place::new(1, projection);
    let last = Place::new(2, vec![PlaceElem::Field(rng.below(rest) as u32)]);
    let mut items = vec![];
    let mut uses = [deep, last];
    rng.shuffle(&mut uses);
    uses.iter().for_each(|place| push_use(&mut items, place));
    push_return(&mut items);
    draft.block(items);
    (types, draft)
}

/// Types, locals, a state of at most 512 nodes, and a place that opens it to exactly `total`.
pub fn full_state(rng: &mut Rng, total: usize, size: Size) -> (TypeList, Vec<Ty>, Env, Place) {
    let (types, draft) = full_function(rng, total, Where::Use, size);
    let genv = Types::read(&types.words()).expect("good types");
    let mut env = Env::new(&draft.local_types);
    let opener = draft.local_types.len() - 2;
    for local in 1..opener {
        let place = Place::new(local, vec![PlaceElem::Field(0)]);
        env.projection(&genv, &place).expect("a field");
    }
    debug_assert!(env.node_count() <= MAX_NODES);
    (types, draft.local_types, env, Place::new(opener, vec![PlaceElem::Field(0)]))
}
