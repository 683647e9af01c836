//! The order of items (document 02, F-7): each item code, and codes that are none, behind all that can
//! stand before an item, with a rest that makes a function of it if the item is taken.

use super::{
    draft::{Draft, Item},
    limits::{whole, Named},
    types::TypeList,
};
use crate::{
    function::{ARM, NOTE, READ, STOP, SWITCH, TARGET, USE},
    place::{DEREF, DOWNCAST, FIELD, INDEX, ROOT},
    types::TyKind,
};

#[derive(Clone, Copy)]
enum Before {
    Entry,
    EntryPlace,
    Begin,
    Place,
    Read,
    NotePlace,
    Switch,
    Arm,
    End,
}
use Before::{Arm, Begin, End, Entry, EntryPlace, NotePlace, Place, Read, Switch};

/// What stands before the item, and the items that lead there.
const BEFORE: [(&str, Before, &[u32]); 13] = [
    ("the entry part's begin", Entry, &[]),
    ("a use in the entry part", Entry, &[ROOT, USE]),
    ("a place in the entry part", EntryPlace, &[ROOT]),
    ("a block's begin", Begin, &[]),
    ("a use", Begin, &[ROOT, USE]),
    ("a note", Begin, &[ROOT, READ, ROOT, NOTE]),
    ("a place", Place, &[ROOT]),
    ("a read", Read, &[ROOT, READ]),
    ("the place of a note", NotePlace, &[ROOT, READ, ROOT]),
    ("a switch", Switch, &[SWITCH]),
    ("an arm's target", Switch, &[SWITCH, ARM, TARGET]),
    ("an arm", Arm, &[SWITCH, ARM]),
    ("a block's end", End, &[STOP]),
];

/// The codes of items, those that only a statement record has, two that are none yet, and two far off.
fn codes() -> impl Iterator<Item = u32> {
    (0..=18).chain([1 << 31, u32::MAX])
}

pub fn orders(cases: &mut Vec<Named>) {
    for (name, before, leading) in BEFORE {
        for code in codes() {
            let mut case = whole(types().words(), &draft(before, leading, code));
            // A few statements at most.
            case.room[2..].copy_from_slice(&[64, 8]);
            cases.push((format!("F-7, item {code} behind {name}"), case));
        }
    }
}

/// 0 opaque, 1 a mutable reference, 2 a struct, 3 an array, 5 an enum with the one variant 4.
fn types() -> TypeList {
    let mut types = TypeList::default();
    types.push(TyKind::Opaque, vec![]);
    types.push(TyKind::MutRef, vec![0]);
    types.push(TyKind::Struct, vec![0]);
    types.push(TyKind::Array, vec![]);
    types.push(TyKind::Variant, vec![0, 0]);
    types.push(TyKind::Enum, vec![4]);
    types
}

fn draft(before: Before, leading: &[u32], code: u32) -> Draft {
    // Local 1 is deref'd, 2 has a field, 3 a variant, 4 an element.
    let mut draft = Draft::new(vec![0, 1, 2, 5, 3], 4);
    let local = if (DEREF..=INDEX).contains(&code) { code } else { 0 };
    let item = |&code: &u32| (code, if code == ROOT { local } else { 0 });
    // A place that is used doesn't end in a downcast.
    let field: &[u32] = match (code, before) {
        (DOWNCAST, EntryPlace | Place | NotePlace) => &[FIELD],
        _ => &[],
    };
    let items = leading.iter().chain([&code]).chain(field).chain(rest(then(before, code)));
    let items: Vec<Item> = items.map(item).collect();
    match before {
        Entry | EntryPlace => {
            draft.entry = items;
            draft.block(vec![(STOP, 0)]);
        }
        _ => draft.block(items),
    }
    draft
}

/// What would stand before the next item, if this one were taken.
fn then(before: Before, code: u32) -> Before {
    match (code, before) {
        (ROOT, Entry) => EntryPlace,
        (ROOT, Begin) => Place,
        (ROOT, _) => NotePlace,
        (DEREF..=INDEX, _) => before,
        (USE, EntryPlace) => Entry,
        (USE | NOTE, _) => Begin,
        (READ, _) => Read,
        (SWITCH, _) | (TARGET, Arm) => Switch,
        (ARM, _) => Arm,
        _ => End,
    }
}

/// The items that make it whole.
fn rest(before: Before) -> &'static [u32] {
    match before {
        Entry | End => &[],
        EntryPlace => &[USE],
        Begin => &[STOP],
        Place => &[USE, STOP],
        Read => &[ROOT, NOTE, STOP],
        NotePlace => &[NOTE, STOP],
        Switch => &[TARGET],
        Arm => &[TARGET, TARGET],
    }
}
