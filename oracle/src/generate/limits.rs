//! The cases round each limit: one below, at it and one above, where there are such; and those of
//! the requests.

use super::{
    draft::{push_note, push_return, push_switch, push_target, push_use, Draft, Item},
    full::{full_function, full_state, PLACES},
    requests::requests,
    rng::Rng,
    types::TypeList,
    Size,
};
use crate::{
    case::{Call, Case},
    env::Env,
    function::{RETURN, TARGET, USE},
    ghosts::{MAX_ENTRIES, MAX_JOIN_POINTS, MAX_WORDS},
    place::{Place, PlaceElem, INDEX, ROOT},
    state::{State, MAX_NODES},
    types::{Ty, TyKind, Types, MAX_PARTS, MAX_TYPES},
};

pub type Named = (String, Case);

/// The worked example of document 01.
pub const EXAMPLE: &str = "2 2 0 6 0 2 0 0 2 1 4 12 0 1 0 7 10 11 0 1 2 3 \
    0 2 5 8 9 10 10 0 5 10 10 11 1 0 0 0 0 1 2 1 0 3 3 0";

pub fn limits() -> Vec<Named> {
    let mut cases = vec![];
    record_sizes(&mut cases);
    item_count(&mut cases);
    node_count(&mut cases);
    place_lengths(&mut cases);
    rooms(&mut cases);
    matches(&mut cases);
    state_shapes(&mut cases);
    state_places(&mut cases);
    state_results(&mut cases);
    collected(&mut cases);
    texts(&mut cases);
    requests(&mut cases);
    cases
}

/// One below, at it, one above.
pub(super) fn round(limit: usize) -> [usize; 3] {
    [limit - 1, limit, limit + 1]
}

/// Room for all join points and many statements, and for their numbers.
pub(super) fn whole(types: Vec<u32>, draft: &Draft) -> Case {
    let function = draft.words();
    let checked = Case { types, function, ..Case::new(Call::Function) };
    let joins = checked.answer().result.map_or(0, |words| words[0]);
    let store = joins * MAX_NODES;
    Case { call: Call::Whole, room: vec![store, store, 1 << 14, 1 << 12], ..checked }
}

fn opaque() -> TypeList {
    let mut types = TypeList::default();
    types.push(TyKind::Opaque, vec![]);
    types
}

/// Uses the places in one block, then returns.
fn uses(local_types: Vec<Ty>, places: &[Place]) -> Draft {
    let arg_count = local_types.len() - 1;
    let mut draft = Draft::new(local_types, arg_count);
    let mut items = vec![];
    places.iter().for_each(|place| push_use(&mut items, place));
    push_return(&mut items);
    draft.block(items);
    draft
}

pub(super) fn root(local: usize) -> Place {
    Place::new(local, vec![])
}

fn record_sizes(cases: &mut Vec<Named>) {
    for n in round(MAX_TYPES) {
        let mut types = TypeList::default();
        for _ in 0..n {
            types.push(TyKind::Opaque, vec![]);
        }
        let draft = uses(vec![n as Ty - 1], &[root(0)]);
        cases.push((format!("types {n}"), whole(types.words(), &draft)));
    }
    for n in round(MAX_PARTS) {
        let mut types = opaque();
        types.push(TyKind::Struct, vec![0; n]);
        let draft = uses(vec![1], &[root(0)]);
        cases.push((format!("parts {n}"), whole(types.words(), &draft)));
    }
    for n in [0, 1, 255, 256, 257] {
        let mut draft = uses(vec![0], &[root(0)]);
        draft.local_types = vec![0; n];
        cases.push((format!("locals {n}"), whole(opaque().words(), &draft)));
    }
    for n in [2, 3] {
        let mut draft = uses(vec![0; 3], &[root(2)]);
        draft.arg_count = n;
        cases.push((format!("arguments {n} of 3 locals"), whole(opaque().words(), &draft)));
    }
    for n in round(256) {
        cases.push((format!("blocks {n} in a chain"), whole(opaque().words(), &chain(n, 1))));
        cases.push((format!("join points {n} less one"), whole(opaque().words(), &chain(n, 2))));
    }
    for n in round(MAX_NODES) {
        cases.push((format!("blocks 256 in a chain with {n} nodes"), full_chain(256, n)));
    }
}

/// Such a chain whose first block opens all that brings the state to so many nodes.
fn full_chain(blocks: usize, nodes: usize) -> Case {
    let mut types = opaque();
    types.push(TyKind::Struct, vec![0; 2]);
    let opened = (nodes - 2) / 3;
    let mut draft = chain(blocks, 1);
    draft.local_types = vec![0; nodes - 3 * opened];
    draft.local_types.extend(vec![1; opened]);
    let first = nodes - 3 * opened;
    let mut items = vec![];
    for local in first..first + opened {
        push_use(&mut items, &Place::new(local, vec![PlaceElem::Field(0)]));
    }
    draft.blocks[0].splice(0..0, items);
    whole(types.words(), &draft)
}

/// Blocks that lead each to the next by so many target items.
fn chain(blocks: usize, edges: usize) -> Draft {
    let mut draft = Draft::new(vec![0], 0);
    for next in 1..blocks {
        let mut items = vec![];
        match edges {
            1 => push_target(&mut items, next),
            _ => push_switch(&mut items, None, &[(0, next)], next),
        }
        draft.block(items);
    }
    draft.block(vec![(RETURN, 0)]);
    draft
}

/// So many items in one block over an array local.
fn items(count: usize) -> Vec<Item> {
    let mut items = vec![];
    if count.is_multiple_of(2) {
        items.extend([(ROOT, 0), (INDEX, 0), (USE, 0)]);
    }
    while items.len() + 1 < count {
        items.extend([(ROOT, 0), (USE, 0)]);
    }
    items.push((RETURN, 0));
    items
}

/// A record of one array type.
fn array() -> Vec<u32> {
    vec![1, 0, TyKind::Array as u32, 0]
}

fn item_count(cases: &mut Vec<Named>) {
    for n in round(16384) {
        let mut draft = Draft::new(vec![0], 0);
        draft.block(items(n));
        cases.push((format!("items {n}"), whole(array(), &draft)));
    }
    for target in [1, 2] {
        let mut draft = chain(2, 1);
        draft.blocks[0] = vec![(TARGET, target)];
        cases.push((format!("target {target} of 2 blocks"), whole(opaque().words(), &draft)));
    }
    for local in [1, 2] {
        let draft = uses(vec![0; 2], &[root(local)]);
        cases.push((format!("root {local} of 2 locals"), whole(opaque().words(), &draft)));
    }
}

fn node_count(cases: &mut Vec<Named>) {
    let mut rng = Rng::new(512);
    for at in PLACES {
        for total in round(MAX_NODES) {
            let (types, draft) = full_function(&mut rng, total, at, Size::Normal);
            cases.push((format!("nodes {total} at {at:?}"), whole(types.words(), &draft)));
        }
    }
    let (types, local_types, env, place) = full_state(&mut rng, MAX_NODES + 1, Size::Normal);
    let mut places: Vec<Place> = (1..place.local)
        .filter(|&local| !env.map[local].is_ty())
        .map(|local| Place::new(local, vec![PlaceElem::Field(0)]))
        .collect();
    let mut wrong = place;
    wrong.projection.push(PlaceElem::Deref);
    places.push(wrong);
    let case = whole(types.words(), &uses(local_types, &places));
    cases.push(("a wrong step behind the 512th node".to_string(), case));
}

/// Structs of one field, each in the next, `bottom` innermost.
pub(super) fn nested(bottom: TyKind, depth: usize) -> TypeList {
    let mut types = TypeList::default();
    types.push(bottom, vec![]);
    for below in 0..depth as Ty {
        types.push(TyKind::Struct, vec![below]);
    }
    types
}

/// A pointer to its own type.
fn endless(kind: TyKind) -> TypeList {
    let mut types = TypeList::default();
    types.push(kind, vec![0]);
    types
}

fn place_lengths(cases: &mut Vec<Named>) {
    for n in round(63) {
        let fields = Place::new(0, vec![PlaceElem::Field(0); n]);
        let types = nested(TyKind::Opaque, 70).words();
        cases.push((format!("fields {n}"), whole(types, &uses(vec![70], &[fields]))));
        let derefs = Place::new(0, vec![PlaceElem::Deref; n]);
        let types = endless(TyKind::MutRef).words();
        cases.push((format!("derefs {n}"), whole(types, &uses(vec![0], &[derefs]))));
        let mut indexed = Place::new(0, vec![PlaceElem::Field(0); n]);
        indexed.projection.push(PlaceElem::Index);
        indexed.projection.extend([PlaceElem::Field(9); 10]);
        let types = nested(TyKind::Array, n).words();
        let draft = uses(vec![n as Ty], &[indexed]);
        cases.push((format!("fields {n} then an index"), whole(types, &draft)));
    }
    for n in round(128) {
        let mut downcasts = Place::new(0, vec![PlaceElem::Downcast(0); n - 1]);
        downcasts.projection.push(PlaceElem::Field(0));
        let types = nested(TyKind::Opaque, 1).words();
        cases.push((format!("elements {n}"), whole(types, &uses(vec![1], &[downcasts]))));
        let indexed = Place::new(0, vec![PlaceElem::Index; n]);
        cases.push((
            format!("elements {n} with an index"),
            whole(array(), &uses(vec![0], &[indexed])),
        ));
    }
    for indexed in [false, true] {
        let mut place = root(0);
        if indexed {
            place.projection.push(PlaceElem::Index);
        }
        place.projection.push(PlaceElem::Downcast(0));
        let name = format!("ending downcast, index before: {indexed}");
        cases.push((name, whole(array(), &uses(vec![0], &[place]))));
    }
}

fn example() -> Case {
    let words: Vec<u32> = EXAMPLE.split_whitespace().map(|word| word.parse().unwrap()).collect();
    Case::whole(words[..8].to_vec(), words[8..].to_vec(), [512, 512, 20, 3])
}

fn rooms(cases: &mut Vec<Named>) {
    for (which, name) in ["store forms", "store whats", "output", "numbers"].iter().enumerate() {
        for change in [0, 1, 2] {
            let mut case = example();
            case.room[which] = case.room[which] + change - 1;
            cases.push((format!("{name} {}", case.room[which]), case));
        }
    }
    for n in [0, 1, 2] {
        let mut case = whole(opaque().words(), &chain(1, 1));
        case.room[2] = n;
        cases.push((format!("output {n} for no statement"), case));
    }
}

/// Types: 0 opaque, 3 an enum of two variants with large values.
fn large_values() -> TypeList {
    let mut types = opaque();
    types.push(TyKind::Variant, vec![u32::MAX, 0]);
    types.push(TyKind::Variant, vec![u32::MAX - 1, 0]);
    types.push(TyKind::Enum, vec![1, 2]);
    types
}

fn matches(cases: &mut Vec<Named>) {
    for value in [u32::MAX, u32::MAX - 1, u32::MAX - 2] {
        let mut draft = Draft::new(vec![3, 0], 0);
        let mut items = vec![];
        push_note(&mut items, &root(0), &root(1));
        push_switch(&mut items, Some(&root(1)), &[(value, 1)], 2);
        draft.block(items);
        for _ in 0..2 {
            let mut items = vec![];
            push_use(&mut items, &root(0));
            push_return(&mut items);
            draft.block(items);
        }
        cases.push((format!("arm {value}"), whole(large_values().words(), &draft)));
    }
    cases.push(first_walk());
}

/// The first walk of a match passes 512 nodes, and none of its changes is kept.
fn first_walk() -> Named {
    let mut types = large_values();
    let inner = types.push(TyKind::Struct, [3].into_iter().chain(vec![0; 300]).collect());
    let outer = types.push(TyKind::Struct, vec![inner]);
    let wide = types.push(TyKind::Struct, vec![0; 250]);
    let mut draft = Draft::new(vec![outer, wide, 0], 0);
    let read = Place::new(0, vec![PlaceElem::Field(0); 2]);
    let mut items = vec![];
    push_note(&mut items, &read, &root(2));
    push_use(&mut items, &root(0));
    push_use(&mut items, &Place::new(1, vec![PlaceElem::Field(0)]));
    push_switch(&mut items, Some(&root(2)), &[], 1);
    draft.block(items);
    draft.block(vec![(RETURN, 0)]);
    ("first walk of a match past 512 nodes".to_string(), whole(types.words(), &draft))
}

/// A case of one state and, if the call wants it, one place.
pub(super) fn on_state(
    call: Call,
    types: &TypeList,
    locals: Vec<Ty>,
    state: State,
    place: &Place,
) -> Case {
    let mut case = Case { types: types.words(), locals, states: vec![state], ..Case::new(call) };
    case.set_place(&place.to_items());
    case
}

pub(super) fn encode(env: &Env) -> State {
    State::encode(env).expect("at most 512 nodes")
}

fn state_shapes(cases: &mut Vec<Named>) {
    for n in [0, 1, 255, 256, 257] {
        let locals = vec![0; n];
        let state = encode(&Env::new(&locals));
        let case = on_state(Call::Projection, &opaque(), locals, state, &root(0));
        cases.push((format!("state of {n} locals"), case));
    }
    // So many open nodes, each below the one before.
    for n in round(64) {
        let mut state = State { count: n + 1, ..State::empty() };
        state.forms[..n].fill(1);
        let case = on_state(Call::Projection, &endless(TyKind::Box), vec![0], state, &root(0));
        cases.push((format!("state of depth {n}"), case));
    }
    for at in [1, 2, 511] {
        for form in [true, false] {
            let mut state = encode(&Env::new(&[0, 0]));
            match form {
                true => state.forms[at] = 1,
                false => state.whats[at] = 1,
            }
            let name = format!("entry {at} of a state of 2 nodes, form: {form}");
            let case = on_state(Call::Projection, &opaque(), vec![0, 0], state, &root(0));
            cases.push((name, case));
        }
    }
    for count in [0, 1, 2, 3, 512, 513, usize::MAX] {
        let state = State { count, ..encode(&Env::new(&[0, 0])) };
        let case = on_state(Call::Projection, &opaque(), vec![0, 0], state, &root(0));
        cases.push((format!("count {count} of 2 locals"), case));
    }
}

fn state_places(cases: &mut Vec<Named>) {
    for call in [Call::Projection, Call::Downcast, Call::Fold, Call::Unfold] {
        for n in [62, 63, 64, 65] {
            let place = Place::new(0, vec![PlaceElem::Field(0); n]);
            let types = nested(TyKind::Opaque, 70);
            let state = encode(&Env::new(&[70]));
            let case = on_state(call, &types, vec![70], state, &place);
            cases.push((format!("{} of {n} fields", call.name()), case));
        }
        for n in round(128) {
            let mut elems = vec![PlaceElem::Downcast(0); n - 1];
            elems.push(PlaceElem::Field(0));
            let types = nested(TyKind::Opaque, 2);
            let state = encode(&Env::new(&[2]));
            let case = on_state(call, &types, vec![2], state, &Place::new(0, elems));
            cases.push((format!("{} of {n} elements", call.name()), case));
        }
        let types = nested(TyKind::Opaque, 70);
        let mut elems = vec![PlaceElem::Field(0); 63];
        elems.push(PlaceElem::Downcast(0));
        let state = encode(&Env::new(&[70]));
        let case = on_state(call, &types, vec![70], state, &Place::new(0, elems));
        cases.push((format!("{} ending in downcast", call.name()), case));
    }
}

fn state_results(cases: &mut Vec<Named>) {
    let mut rng = Rng::new(513);
    for total in round(MAX_NODES) {
        let (types, locals, env, place) = full_state(&mut rng, total, Size::Normal);
        for call in [Call::Projection, Call::Fold, Call::Unfold] {
            let at = if call == Call::Unfold { place.truncate(0) } else { place.clone() };
            let case = on_state(call, &types, locals.clone(), encode(&env), &at);
            cases.push((format!("{} to {total} nodes", call.name()), case));
        }
        let genv = Types::read(&types.words()).expect("good types");
        let mut second = Env::new(&locals);
        second.projection(&genv, &place).expect("a field");
        let states = vec![encode(&env), encode(&second)];
        let case = Case { types: types.words(), locals, states, ..Case::new(Call::Join) };
        cases.push((format!("join to {total} nodes"), case));
    }
}

fn collected(cases: &mut Vec<Named>) {
    let mut types = opaque();
    types.push(TyKind::Struct, vec![0, 0]);
    let reference = types.push(TyKind::MutRef, vec![1]);
    let genv = Types::read(&types.words()).expect("good types");
    let locals = vec![0, reference];
    let mut env = Env::new(&locals);
    let place = Place::new(1, vec![PlaceElem::Deref, PlaceElem::Field(0)]);
    env.projection(&genv, &place).expect("a deref and a field");
    let folded = Env::new(&locals);
    for call in [Call::CollectFoldUnfolds, Call::CollectUnfolds, Call::CollectFoldsAtRet] {
        for room in [0, 1, 2, 8, 9, 10, 11] {
            let states = match call {
                Call::CollectFoldUnfolds => vec![encode(&folded), encode(&env)],
                _ => vec![encode(&env)],
            };
            let case = Case {
                types: types.words(),
                locals: locals.clone(),
                states,
                number: 1,
                room: vec![room],
                ..Case::new(call)
            };
            cases.push((format!("{} into {room} words", call.name()), case));
        }
    }
    for arg_count in [0, 1, 2] {
        let case = Case {
            types: types.words(),
            locals: locals.clone(),
            states: vec![encode(&env)],
            number: arg_count,
            room: vec![10],
            ..Case::new(Call::CollectFoldsAtRet)
        };
        cases.push((format!("{arg_count} arguments of 2 locals"), case));
    }
}

fn text_of(types: &[u32], draft: &Draft) -> Case {
    let words: Vec<String> =
        types.iter().chain(&draft.words()).map(|word| word.to_string()).collect();
    Case::ghosts(words.join(" ").as_bytes())
}

fn texts(cases: &mut Vec<Named>) {
    for n in round(MAX_WORDS) {
        // 8 + L + 2B + 2I words.
        let locals = if n % 2 == 0 { 2 } else { 1 };
        let mut draft = Draft::new(vec![0; locals], 0);
        draft.block(items((n - 10 - locals) / 2));
        cases.push((format!("text of {n} words"), text_of(&array(), &draft)));
    }
    for n in round(MAX_JOIN_POINTS) {
        let case = text_of(&opaque().words(), &chain(n + 1, 2));
        cases.push((format!("text of {n} join points"), case));
    }
    for n in round(MAX_ENTRIES) {
        cases.push((format!("text of {n} entries"), text_of_entries(n)));
    }
    let words: Vec<&str> = EXAMPLE.split_whitespace().collect();
    for n in 0..=words.len() {
        cases.push((
            format!("text cut to {n} words"),
            Case::ghosts(words[..n].join(" ").as_bytes()),
        ));
    }
    for tail in [" 0", " 00", "\n", "\t", "\r", " -0", " 4294967295", " 4294967296", " x"] {
        let text = EXAMPLE.to_string() + tail;
        cases.push((format!("text with a tail {tail:?}"), Case::ghosts(text.as_bytes())));
    }
    for head in ["00000000000000000000", "4294967296 ", " \n ", "\t", "+", "1.", "4294967295 "] {
        let text = head.to_string() + EXAMPLE;
        cases.push((format!("text with a head {head:?}"), Case::ghosts(text.as_bytes())));
    }
    // The sizes as written: bad types, then a function with a spare word or one too few.
    for (name, text) in [
        ("bad types and a spare word", "0 0 1 0 1 1 0 0 0 11 0 0"),
        ("bad types and a function cut off", "0 0 1 0 1 1 0 0 0 11"),
        ("bad types alone", "0 0"),
        ("sizes that don't fit in 32 bits", "4294967295 4294967295 0 0"),
        ("good types alone", "1 0 0 0"),
        ("a function's sizes cut off", "1 0 0 0 1 0 1"),
        ("a function's sizes that don't fit in 32 bits", "1 0 0 0 4294967295 0 4294967295 1"),
    ] {
        cases.push((format!("text of {name}"), Case::ghosts(text.as_bytes())));
    }
}

/// Opens and folds one struct in turn: three entries a statement, four where it is a field.
fn text_of_entries(entries: usize) -> Case {
    let fours = entries % 3;
    let threes = (entries - 4 * fours) / 3;
    let types = nested(TyKind::Opaque, 2);
    let mut draft = Draft::new(vec![1, 2, 2], 0);
    let mut items = vec![];
    for i in 0..threes {
        let elems = if i % 2 == 0 { vec![PlaceElem::Field(0)] } else { vec![] };
        push_use(&mut items, &Place::new(0, elems));
    }
    for local in 1..=fours {
        push_use(&mut items, &Place::new(local, vec![PlaceElem::Field(0); 2]));
    }
    push_return(&mut items);
    draft.block(items);
    text_of(&types.words(), &draft)
}
