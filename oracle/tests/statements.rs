//! Lists of MIR statements (document 02, F-2), by the points of its reading, and their limits.

mod common;

use common::*;
use oracle::{
    case::{Call, Case},
    generate::{
        draft::{Draft, Item},
        limits::limits,
    },
    statements::{statement_items, Listed, Operand},
    types::TyKind,
};

/// `0`, or a place.
fn operand(text: &str) -> Operand {
    match text {
        "0" => Operand::Constant,
        _ => Operand::Place(place(text)),
    }
}

/// A statement: its kind and flag, its operands, then the destination.
fn statement(kind: u32, flag: u32, texts: &[&str]) -> Vec<u32> {
    let mut operands: Vec<Operand> = texts.iter().map(|text| operand(text)).collect();
    let destination = operands.pop().expect("a destination");
    Listed { kind, flag, operands, destination }.words()
}

/// What a list gives: `use _1`, `read _1`, `note _2`.
fn given(words: &[u32]) -> Result<Vec<String>, u32> {
    let mut out = vec![7; 1 << 17];
    let count = statement_items(words, &mut out).map_err(|refusal| refusal.number())?;
    assert_eq!(out[0] as usize, count);
    assert!(out[1 + 2 * count..].iter().all(|&word| word == 0));
    let items = out[1..1 + count].iter().zip(&out[1 + count..1 + 2 * count]);
    Ok(spelled(items.map(|(&op, &arg)| (op, arg)).collect()))
}

fn spelled(items: Vec<Item>) -> Vec<String> {
    let mut texts = vec![];
    let mut place = String::new();
    for (op, arg) in items {
        match op {
            0 => place = format!("_{arg}"),
            1 => place += ".*",
            2 => place += &format!(".{arg}"),
            3 => place += &format!(".as{arg}"),
            4 => place += ".[]",
            _ => texts.push(format!("{} {place}", ["use", "read", "note"][op as usize - 5])),
        }
    }
    texts
}

/// What a statement gives, with `; ` between.
fn gives(kind: u32, flag: u32, texts: &[&str]) -> Result<String, u32> {
    given(&statement(kind, flag, texts)).map(|list| list.join("; "))
}

#[test]
fn one_rule_of_order() {
    for kind in [0, 1, 2, 3, 4, 6] {
        let found = gives(kind, 0, &["_1.0", "_2"]);
        assert_eq!(found.unwrap(), "use _1.0; use _2", "kind {kind}");
    }
    assert_eq!(gives(5, 0, &["_3", "_1.*", "_2"]).unwrap(), "use _3; use _1.*; use _2");
    assert_eq!(gives(7, 0, &["_1.as1.0", "_2"]).unwrap(), "read _1.as1.0; note _2");
    assert_eq!(gives(8, 0, &["_2"]).unwrap(), "use _2");
    let found = gives(8, 0, &["_1", "_1.0", "_1", "_1"]);
    assert_eq!(found.unwrap(), "use _1; use _1.0; use _1; use _1");
}

#[test]
fn constants_give_none() {
    for kind in [0, 1, 4, 6] {
        assert_eq!(gives(kind, 0, &["0", "_2"]).unwrap(), "use _2");
    }
    assert_eq!(gives(5, 0, &["0", "_1", "_2"]).unwrap(), "use _1; use _2");
    assert_eq!(gives(5, 0, &["_1", "0", "_2"]).unwrap(), "use _1; use _2");
    assert_eq!(gives(8, 0, &["0", "_1", "0", "_2"]).unwrap(), "use _1; use _2");
    // In kinds 2, 3 and 7, and as destination, there is none.
    for (kind, flag) in [(2, 0), (2, 1), (3, 0), (7, 0)] {
        assert_eq!(gives(kind, flag, &["0", "_2"]), Err(11));
    }
    for kind in 0..9 {
        let texts = if kind == 5 { vec!["_1", "_1", "0"] } else { vec!["_1", "0"] };
        assert_eq!(gives(kind, 0, &texts), Err(11), "kind {kind}");
    }
}

#[test]
fn fake_borrows_and_metadata() {
    assert_eq!(gives(2, 1, &["_1.0", "_2"]).unwrap(), "use _2");
    assert_eq!(gives(2, 1, &["_1.0", "_1", "_2"]), Err(11), "two operands");
    assert_eq!(gives(2, 1, &["_2"]), Err(11), "none");
    assert_eq!(gives(6, 1, &["_1.0", "_2"]).unwrap(), "use _1.0.*; use _2");
    assert_eq!(gives(6, 1, &["_1.[]", "_2"]).unwrap(), "use _1.[].*; use _2");
    assert_eq!(gives(6, 1, &["0", "_2"]).unwrap(), "use _2", "the source's next clause");
    for kind in [0, 1, 3, 4, 5, 7, 8] {
        let texts = if kind == 5 { vec!["_1", "_1", "_2"] } else { vec!["_1", "_2"] };
        assert_eq!(gives(kind, 1, &texts), Err(11), "kind {kind} has no flag 1");
    }
    for kind in 0..9 {
        let texts = if kind == 5 { vec!["_1", "_1", "_2"] } else { vec!["_1", "_2"] };
        for flag in [2, 3, 1 << 31, u32::MAX] {
            assert_eq!(gives(kind, flag, &texts), Err(11), "kind {kind}, flag {flag}");
        }
    }
}

#[test]
fn two_then_eleven_then_ten() {
    let unknown = statement(9, 0, &["_1", "_2"]);
    let cut = [0, 0, 1, 2, 0, 0];
    assert_eq!(given(&[&unknown[..], &cut].concat()), Err(2));
    assert_eq!(given(&unknown), Err(11));
    assert_eq!(Case::statement_items(unknown, 0).refusal(), 11);
    let one = statement(0, 0, &["_1", "_2"]);
    assert_eq!(
        [8, 9, 10].map(|room| Case::statement_items(one.clone(), room).refusal()),
        [10, 0, 0]
    );
    // Of no statements the count is 0, and a word is needed for it.
    assert_eq!([0, 1].map(|room| Case::statement_items(vec![], room).refusal()), [10, 0]);
    // A refusal leaves zeros.
    for words in [&cut[..], &statement(9, 0, &["_1", "_2"]), &one] {
        let mut out = [7; 8];
        assert!(statement_items(words, &mut out).is_err());
        assert_eq!(out, [0; 8]);
    }
}

#[test]
fn items_that_are_no_place() {
    let of =
        |items: &[u32]| given(&[&[0, 0, 1, items.len() as u32 / 2], items, &[1, 0, 0]].concat());
    assert_eq!(of(&[1, 0]), Err(2), "no root");
    assert_eq!(of(&[0, 1, 0, 1]), Err(2), "a second root");
    assert_eq!(of(&[0, 1, 5, 0]), Err(2), "a use");
    assert_eq!(of(&[0, 1, 1, 1]), Err(2), "a deref with an arg");
    assert_eq!(of(&[0, 1, 4, 1]), Err(2), "an index with an arg");
    // Refusal 4 waits for the record: no such local, too many elements, a downcast last.
    assert!(of(&[0, u32::MAX]).is_ok());
    assert!(of(&[0, 1, 3, 9]).is_ok());
    assert!(of(&[vec![0, 1], [1, 0].repeat(129)].concat()).is_ok());
    // A fake borrow's operand isn't given, but it is read.
    assert_eq!(given(&[2, 1, 1, 1, 5, 0, 1, 0, 0]), Err(2));
}

#[test]
fn items_are_counted_as_they_stand() {
    // 8,192 pairs of roots, each with the deref that is added and two uses: 40,960 items.
    let pairs = statement(6, 1, &["_1", "_2"]).repeat(8192);
    assert_eq!(Case::statement_items(pairs.clone(), 81_921).refusal(), 0);
    assert_eq!(Case::statement_items(pairs.clone(), 81_920).refusal(), 10);
    let more = [pairs, statement(8, 0, &["_2"])].concat();
    assert_eq!(given(&more), Err(2));
    // A fake borrow's operand counts.
    let fake = statement(2, 1, &["_1", "_2"]).repeat(8192);
    assert_eq!(given(&fake).unwrap().len(), 8192);
    assert_eq!(given(&[fake, statement(8, 0, &["_2"])].concat()), Err(2));
}

#[test]
fn a_record_from_statements() {
    // match *_1 { B(n) => _0 = n, _ => _0 = 0 }
    let types = types(&[
        (TyKind::Opaque, &[]),
        (TyKind::Variant, &[0]),
        (TyKind::Variant, &[1, 0]),
        (TyKind::Enum, &[1, 2]),
        (TyKind::MutRef, &[3]),
    ]);
    let items = |words: Vec<u32>| {
        let mut out = [0; 64];
        let count = statement_items(&words, &mut out).unwrap();
        (1..=count).map(|at| (out[at], out[at + count])).collect::<Vec<Item>>()
    };
    let mut draft = Draft::new(vec![0, 4, 0], 1);
    let switch = vec![(0, 2), (8, 0), (9, 1), (10, 1), (10, 2)];
    draft.block([items(statement(7, 0, &["_1.*", "_2"])), switch].concat());
    draft.block([items(statement(0, 0, &["_1.*.as1.0", "_0"])), vec![(11, 0)]].concat());
    draft.block([items(statement(0, 0, &["0", "_0"])), vec![(11, 0)]].concat());
    let lines = run(&types, &draft).unwrap();
    assert_eq!(lines, ["at 2 unfold _1 0", "at 17 fold _1.* -", "at 20 fold _1.* -"]);
}

const NO_PLACE: [&str; 6] = [
    "an element first",
    "a use",
    "a second root",
    "a deref with an arg",
    "an index with an arg",
    "a use behind a root",
];

/// The refusal of a limit, by its name and the numbers in it.
fn expected(name: &str) -> u32 {
    let numbers = name.split([' ', ',']).filter_map(|word| word.parse().ok());
    let numbers: Vec<u32> = numbers.collect();
    let has_flag = |kind, flag| flag == 0 || (flag == 1 && [2, 6].contains(&kind));
    let known = |known: bool| if known { 0 } else { 11 };
    let whole = |whole: bool| if whole { 0 } else { 2 };
    match numbers[..] {
        [kind, flag, count] => {
            let operands = if kind == 5 { 2 } else { 1 };
            known(kind < 9 && has_flag(kind, flag) && (kind == 8 || count == operands))
        }
        [kind, flag] => known(has_flag(kind, flag) && ![2, 3, 7].contains(&kind)),
        [_] if name.starts_with("kind") => 11,
        [n] if name.contains("items in") => whole(n <= 16384),
        [n] if name.starts_with("the first") => whole([0, 11, 25].contains(&n)),
        // Then the destination is a constant.
        [2] if name == "a count of 2 items" => 11,
        [n] if name.starts_with("a count") => whole(n == 1),
        [0] | [10] if name.contains("room for") => 10,
        _ if NO_PLACE.iter().any(|part| name.starts_with(part)) => 2,
        _ => match name {
            "an unknown kind, cut off" | "an unknown kind to no place" => 2,
            "an unknown kind and no room" => 11,
            _ => 0,
        },
    }
}

#[test]
fn each_limit() {
    let cases = limits().into_iter().filter(|(_, case)| case.call == Call::StatementItems);
    let mut counts = [0; 12];
    for (name, case) in cases {
        let name = name.strip_prefix("F-2, ").expect("a list's name");
        assert_eq!(case.refusal(), expected(name), "{name}");
        counts[expected(name) as usize] += 1;
    }
    assert!([0, 2, 10, 11].iter().all(|&number| counts[number] > 1), "{counts:?}");
}
