//! Where openings begin (document 02, F-4): functions whose statements come from every kind of point, and
//! arrays for their numbers round each length.

use std::slice;

use super::{
    draft::{push_note, push_return, push_switch, push_target, push_use, Draft, Item},
    limits::{encode, nested, on_state, root, round, whole, Named},
    types::TypeList,
};
use crate::{
    case::{Call, Case},
    env::Env,
    function::STOP,
    place::{Place, PlaceElem, MAX_ELEMENTS, MAX_STEPS},
    types::{Ty, TyKind, Types},
};
use PlaceElem::{Deref, Downcast, Field, Index};

const PAIR: Ty = 2;
const REF: Ty = 3;
const OUTER: Ty = 4;
const OUTMOST: Ty = 5;
const ENUM: Ty = 8;

/// 0 opaque, 1 an array, struct(0, 0), a mutable reference to it, struct(that reference, array), a struct
/// of this one, and an enum: variant 0 with no field, variant 1 (the first struct).
fn types() -> TypeList {
    let mut types = TypeList::default();
    types.push(TyKind::Opaque, vec![]);
    types.push(TyKind::Array, vec![]);
    types.push(TyKind::Struct, vec![0, 0]);
    types.push(TyKind::MutRef, vec![PAIR]);
    types.push(TyKind::Struct, vec![REF, 1]);
    types.push(TyKind::Struct, vec![OUTER]);
    types.push(TyKind::Variant, vec![0]);
    types.push(TyKind::Variant, vec![1, PAIR]);
    types.push(TyKind::Enum, vec![6, 7]);
    types
}

pub fn numbers(cases: &mut Vec<Named>) {
    uses(cases);
    other_points(cases);
    long_places(cases);
    lengths(cases);
    before_it(cases);
    projections(cases);
}

fn one(elems: &[PlaceElem]) -> Place {
    Place::new(1, elems.to_vec())
}

/// Local 1 of a type; each place is used in one block, then it stops.
fn used(ty: Ty, places: &[Place]) -> Draft {
    let mut draft = Draft::new(vec![0, ty], 1);
    let mut items = vec![];
    places.iter().for_each(|place| push_use(&mut items, place));
    items.push((STOP, 0));
    draft.block(items);
    draft
}

fn push(cases: &mut Vec<Named>, name: &str, draft: &Draft) {
    cases.push((format!("F-4, {name}"), whole(types().words(), draft)));
}

fn uses(cases: &mut Vec<Named>) {
    let deep = one(&[Field(0), Deref, Field(1)]);
    let in_array = one(&[Field(0), Field(1), Index, Deref]);
    let in_enum = one(&[Downcast(1), Field(0), Field(1)]);
    let lists: [(&str, Ty, Vec<Place>); 8] = [
        ("one step that opens", PAIR, vec![one(&[Field(1)])]),
        ("three steps that open", OUTER, vec![deep.clone()]),
        ("two that open behind one that is open", OUTER, vec![one(&[Field(1)]), deep.clone()]),
        ("one that opens behind two that are open", OUTER, vec![deep.truncate(2), deep.clone()]),
        ("a fold, and the opening again", OUTER, vec![deep.clone(), deep.truncate(1), deep]),
        ("an index cuts", OUTMOST, vec![in_array.clone(), in_array.clone()]),
        ("an index cuts behind what is open", OUTMOST, vec![in_array.truncate(1), in_array]),
        (
            "a downcast that opens, and one that is passed",
            ENUM,
            vec![in_enum.clone(), in_enum.truncate(2), in_enum],
        ),
    ];
    for (name, ty, places) in lists {
        push(cases, name, &used(ty, &places));
    }
}

fn block(write: impl FnOnce(&mut Vec<Item>)) -> Vec<Item> {
    let mut items = vec![];
    write(&mut items);
    items
}

fn other_points(cases: &mut Vec<Named>) {
    let field = one(&[Field(0)]);
    let mut entry = used(PAIR, &[]);
    push_use(&mut entry.entry, &field);
    push_use(&mut entry.entry, &root(1));
    push(cases, "uses at entry", &entry);
    entry.blocks[0] = block(|items| {
        push_use(items, &field);
        push_target(items, 0);
    });
    push(cases, "uses at entry, and an unfold collected there", &entry);
    push_use(&mut entry.entry, &field);
    entry.blocks[0] = block(|items| {
        push_switch(items, None, &[(0, 1)], 1);
    });
    entry.block(block(|items| push_target(items, 0)));
    push(cases, "uses at entry, and nothing collected there", &entry);
    // Behind a mutable reference the join folds.
    let inside = one(&[Deref, Field(0)]);
    let mut folded = Draft::new(vec![0, REF], 1);
    push_use(&mut folded.entry, &inside);
    folded.block(block(|items| {
        push_use(items, &one(&[Deref]));
        push_target(items, 0);
    }));
    push(cases, "uses at entry, and a fold collected there", &folded);

    let mut at_return = used(REF, &[inside]);
    at_return.blocks[0].pop();
    push_return(&mut at_return.blocks[0]);
    push(cases, "a fold collected at return", &at_return);

    let mut read = Draft::new(vec![0, OUTMOST, PAIR, PAIR], 1);
    read.block(block(|items| {
        push_use(items, &field);
        push_note(items, &one(&[Field(0), Field(0)]), &Place::new(2, vec![Field(0)]));
        push_switch(items, Some(&Place::new(3, vec![Field(1)])), &[(0, 1)], 1);
    }));
    read.block(block(push_return));
    push(cases, "at a read, a note and a switch", &read);

    // One side of the join has opened, the other hasn't.
    let mut joined = Draft::new(vec![0, PAIR, REF], 1);
    joined.block(block(|items| push_switch(items, None, &[(0, 1)], 2)));
    joined.block(block(|items| {
        push_use(items, &field);
        push_target(items, 3);
    }));
    joined.block(block(|items| {
        push_use(items, &Place::new(2, vec![Deref]));
        push_target(items, 3);
    }));
    joined.block(block(push_return));
    push(cases, "at plain targets", &joined);

    let mut matched = Draft::new(vec![0, ENUM, 0], 1);
    matched.block(block(|items| {
        push_note(items, &root(1), &root(2));
        push_switch(items, Some(&root(2)), &[(0, 1), (1, 2)], 2);
    }));
    matched.block(block(|items| push_target(items, 3)));
    matched.block(block(|items| {
        push_use(items, &one(&[Downcast(1), Field(0), Field(0)]));
        push_target(items, 3);
    }));
    matched.block(block(push_return));
    push(cases, "at the targets of a match", &matched);
}

/// The last step opens: as many elements as a place may have, and as many fields.
fn long_places(cases: &mut Vec<Named>) {
    for n in round(MAX_ELEMENTS) {
        let mut elems = vec![Downcast(0); n - 2];
        elems.extend([Field(0); 2]);
        let types = nested(TyKind::Opaque, 2).words();
        let draft = used(2, &[one(&[Field(0)]), one(&elems)]);
        cases.push((format!("F-4, the last of {n} elements opens"), whole(types, &draft)));
    }
    for n in round(MAX_STEPS) {
        let types = nested(TyKind::Opaque, 70).words();
        let draft = used(70, &[one(&vec![Field(0); n - 1]), one(&vec![Field(0); n])]);
        cases.push((format!("F-4, the last of {n} fields opens"), whole(types, &draft)));
    }
}

/// An unfold and a fold from uses, and a fold collected at return: three statements, twelve entries.
fn three_statements() -> Draft {
    let inside = one(&[Deref, Field(0)]);
    let mut draft = used(REF, &[inside.clone(), one(&[Deref])]);
    draft.blocks[0].pop();
    push_return(&mut draft.blocks[0]);
    draft
}

fn lengths(cases: &mut Vec<Named>) {
    let of = |draft: &Draft, room: [usize; 2]| {
        let mut case = whole(types().words(), draft);
        case.room[2..].copy_from_slice(&room);
        case
    };
    for n in 0..=4 {
        let case = of(&three_statements(), [26, n]);
        cases.push((format!("F-4, {n} numbers for 3 statements"), case));
    }
    for n in [0, 1] {
        let case = of(&used(PAIR, &[]), [2, n]);
        cases.push((format!("F-4, {n} numbers for no statement"), case));
    }
    for n in [2, 3] {
        let case = of(&three_statements(), [25, n]);
        cases.push((format!("F-4, {n} numbers for 3 statements, and a short buffer"), case));
    }
}

/// No numbers are lent, and another refusal comes before that.
fn before_it(cases: &mut Vec<Named>) {
    let opens = one(&[Field(0)]);
    let good = used(PAIR, slice::from_ref(&opens));
    let mut joins = good.clone();
    joins.blocks[0].pop();
    push_target(&mut joins.blocks[0], 0);
    let of = |draft: &Draft| {
        let mut case = whole(types().words(), draft);
        case.room[3] = 0;
        case
    };
    let mut store = of(&joins);
    store.room[0] = 0;
    let bad_types = Case { types: vec![], ..of(&good) };
    let mut cut_off = of(&good);
    cut_off.function.pop();
    let wrong = used(PAIR, &[opens.clone(), one(&[Deref])]);
    let unknown = used(PAIR, &[opens, root(2)]);
    for (name, case) in [
        ("bad types", bad_types),
        ("a bad function", cut_off),
        ("a bad place", of(&unknown)),
        ("a short store", store),
        ("a wrong step", of(&wrong)),
        ("a wrong step and a short buffer", Case { room: vec![0, 0, 0, 0], ..of(&wrong) }),
    ] {
        cases.push((format!("F-4, no numbers lent, and {name}"), case));
    }
}

/// The number in each answer of a projection: the place is used first as `before` says.
fn projections(cases: &mut Vec<Named>) {
    let types = types();
    let genv = Types::read(&types.words()).expect("good types");
    let inside = [Field(0), Field(0), Deref, Field(1)];
    let in_array = [Field(0), Field(1), Index, Downcast(7), Field(9)];
    for (name, before, used) in [
        ("nothing of no element", 0, &[][..]),
        ("an unfold of four elements", 0, &inside[..]),
        ("an unfold behind one element", 1, &inside),
        ("an unfold behind three elements", 3, &inside),
        ("nothing of four elements", 4, &inside),
        ("a fold of no element", 4, &inside[..0]),
        ("a fold of three elements", 4, &inside[..3]),
        ("an unfold up to an index", 0, &in_array),
        ("an unfold up to an index behind one element", 1, &in_array),
        ("nothing up to an index", 2, &in_array),
    ] {
        let locals = vec![0, OUTMOST];
        let mut env = Env::new(&locals);
        env.projection(&genv, &one(&inside[..before])).expect("it fits the types");
        let case = on_state(Call::Projection, &types, locals, encode(&env), &one(used));
        cases.push((format!("F-4, {name}"), case));
    }
}
