//! Cases for the requests of document 02, each with a name.

use super::{
    crates::crates,
    draft::{push_note, push_return, push_switch, push_use, Draft},
    limits::{root, whole, Named},
    merge::merges,
    numbers::numbers,
    order::orders,
    statements::lists,
    types::TypeList,
};
use crate::{
    place::{Place, PlaceElem},
    types::{Ty, TyKind},
};
use PlaceElem::{Deref, Downcast, Field, Index};

pub fn requests(cases: &mut Vec<Named>) {
    elements(cases);
    lists(cases);
    crates(cases);
    numbers(cases);
    merges(cases);
    orders(cases);
}

const ARRAY: Ty = 1;
const STRUCT: Ty = 2;
const REF: Ty = 3;
const ENUM: Ty = 6;

/// 0 opaque, an array, struct(array, 0), a mutable reference to it, an enum: variant 0 (array),
/// variant 1 (0).
fn with_arrays() -> TypeList {
    let mut types = TypeList::default();
    types.push(TyKind::Opaque, vec![]);
    types.push(TyKind::Array, vec![]);
    types.push(TyKind::Struct, vec![ARRAY, 0]);
    types.push(TyKind::MutRef, vec![STRUCT]);
    types.push(TyKind::Variant, vec![0, ARRAY]);
    types.push(TyKind::Variant, vec![1, 0]);
    types.push(TyKind::Enum, vec![4, 5]);
    types
}

/// A match in block 0. Its arms lead to block 1, which uses `then`; the otherwise target to block 2.
struct Match<'a> {
    /// Of local 1, and of local 2, in which the place read is noted.
    types: [Ty; 2],
    before: &'a [Place],
    read: Place,
    note: Place,
    /// Used between note and switch.
    between: &'a [Place],
    arms: &'a [u32],
    then: &'a [Place],
}

impl Match<'_> {
    /// On a place of local 1, which has this type.
    fn on(ty: Ty, elems: &[PlaceElem]) -> Self {
        Match {
            types: [ty, 0],
            before: &[],
            read: one(elems),
            note: root(2),
            between: &[],
            arms: &[0, 1],
            then: &[],
        }
    }

    fn draft(&self) -> Draft {
        let mut draft = Draft::new(vec![0, self.types[0], self.types[1]], 1);
        let mut items = vec![];
        self.before.iter().for_each(|place| push_use(&mut items, place));
        push_note(&mut items, &self.read, &self.note);
        self.between.iter().for_each(|place| push_use(&mut items, place));
        let arms: Vec<_> = self.arms.iter().map(|&value| (value, 1)).collect();
        push_switch(&mut items, Some(&self.note), &arms, 2);
        draft.block(items);
        let mut items = vec![];
        self.then.iter().for_each(|place| push_use(&mut items, place));
        push_return(&mut items);
        draft.block(items);
        let mut items = vec![];
        push_return(&mut items);
        draft.block(items);
        draft
    }
}

fn one(elems: &[PlaceElem]) -> Place {
    Place::new(1, elems.to_vec())
}

/// F-1.
fn elements(cases: &mut Vec<Named>) {
    let any = [7, 7, u32::MAX];
    let other = [one(&[]), one(&[Downcast(1), Field(0)])];
    let in_enum = [Downcast(0), Field(0), Index];
    let matches = [
        ("an element of a local", Match { arms: &any, ..Match::on(ARRAY, &[Index]) }),
        ("an element of a field", Match { arms: &any, ..Match::on(STRUCT, &[Field(0), Index]) }),
        (
            "an element behind a reference",
            Match { then: &[one(&[Deref])], ..Match::on(REF, &[Deref, Field(0), Index]) },
        ),
        ("an element and more behind it", Match::on(ARRAY, &[Index, Downcast(1)])),
        (
            "an element and another index behind it",
            Match::on(ARRAY, &[Index, Deref, Index, Field(9)]),
        ),
        (
            "an element noted in another",
            Match { types: [ARRAY; 2], note: two_index(), ..Match::on(ARRAY, &[Index]) },
        ),
        (
            "an enum noted in an element",
            Match { types: [ENUM, ARRAY], note: two_index(), ..Match::on(ENUM, &[]) },
        ),
        (
            "an enum noted in an element, any values",
            Match { types: [ENUM, ARRAY], note: two_index(), arms: &any, ..Match::on(ENUM, &[]) },
        ),
        ("an array, no index", Match::on(ARRAY, &[])),
        ("a struct that holds an array", Match::on(STRUCT, &[])),
        ("an index at a struct", Match::on(STRUCT, &[Index])),
        ("an index at a field that is no array", Match::on(STRUCT, &[Field(1), Index])),
        (
            "an element, its struct folded by then",
            Match {
                between: &[one(&[])],
                then: &[one(&[Field(0), Index])],
                ..Match::on(STRUCT, &[Field(0), Index])
            },
        ),
        (
            "an element, its enum at another variant by then",
            Match { between: &other, ..Match::on(ENUM, &in_enum) },
        ),
        (
            "an element, its enum folded by then",
            Match { between: &other[..1], ..Match::on(ENUM, &in_enum) },
        ),
        (
            "an element with no downcast, its enum folded by then",
            Match {
                before: &[one(&in_enum)],
                between: &other[..1],
                ..Match::on(ENUM, &in_enum[1..])
            },
        ),
        (
            "an element with no downcast, its enum at another variant by then",
            Match { before: &[one(&in_enum)], between: &other, ..Match::on(ENUM, &in_enum[1..]) },
        ),
    ];
    for (name, on) in matches {
        cases.push((format!("F-1, a match on {name}"), whole(with_arrays().words(), &on.draft())));
    }
}

fn two_index() -> Place {
    Place::new(2, vec![Index])
}
