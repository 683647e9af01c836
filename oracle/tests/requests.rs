//! The requests of document 02, each by the points of its reading.

mod common;

use common::*;
use oracle::{
    fold_unfold::{add_ghost_statements, Room},
    function::Body,
    generate::limits::limits,
    ghost_statements::GhostStatements,
    replay::Replay,
    types::{TyKind, Types},
};

/// 0 opaque, 1 array, 2 struct(1, 0), 3 mutable reference to 2, 4 variant value 0 (1), 5 variant
/// value 1 (0), 6 enum(4, 5).
fn types_with_arrays() -> Vec<u32> {
    types(&[
        (TyKind::Opaque, &[]),
        (TyKind::Array, &[]),
        (TyKind::Struct, &[1, 0]),
        (TyKind::MutRef, &[2]),
        (TyKind::Variant, &[0, 1]),
        (TyKind::Variant, &[1, 0]),
        (TyKind::Enum, &[4, 5]),
    ])
}

fn blocks(locals: &[u32], texts: &[&str]) -> Result<Vec<String>, u32> {
    run(&types_with_arrays(), &function(locals, "", texts))
}

/// One block that goes back to itself.
fn only(locals: &[u32], text: &str) -> Result<(), u32> {
    blocks(locals, &[text]).map(|_| ())
}

#[test]
fn f1_an_element_is_matched_on() {
    // Arm values are anything and may repeat; the otherwise target opens nothing.
    let texts = ["note _1.[] _2; switch _2 7>1 7>1 4294967295>2 2", "return", "stop"];
    assert_eq!(blocks(&[0, 1, 0], &texts), Ok(vec![]));
    // Behind a reference, and of a field: the owner stays open in the targets.
    let texts = ["note _1.*.0.[] _2; switch _2 0>1 2", "use _1.*.0.[]; return", "stop"];
    assert_eq!(blocks(&[0, 3, 0], &texts).unwrap(), ["at 4 unfold _1.* 0", "at 17 fold _1.* -"]);
}

#[test]
fn f1_the_place_that_decides_is_the_place_read() {
    // An index in the place switched on alone changes nothing: 8 stands, arms unfold.
    assert_eq!(only(&[0, 6, 1], "note _1 _2.[]; switch _2.[] 9>0 0"), Err(8));
    let texts = ["note _1 _2.[]; switch _2.[] 1>1 2", "use _1.as0.0; stop", "stop"];
    assert_eq!(blocks(&[0, 6, 1], &texts), Err(6), "the arm has opened variant 1");
    assert_eq!(only(&[0, 1, 1], "note _1.[] _2.[]; switch _2.[] 9>0 9>0 0"), Ok(()));
}

#[test]
fn f1_wrong_steps_stay() {
    assert_eq!(only(&[0, 1, 0], "note _1 _2; switch _2 0"), Err(5), "an array with no index");
    assert_eq!(only(&[0, 2, 0], "note _1 _2; switch _2 0"), Err(5), "a struct that holds one");
    assert_eq!(only(&[0, 2, 0], "note _1.0 _2; switch _2 0"), Err(5));
    assert_eq!(only(&[0, 2, 0], "note _1.[] _2; switch _2 0"), Err(5), "an index at a struct");
    assert_eq!(only(&[0, 2, 0], "note _1.1.[] _2; switch _2 0"), Err(5));
}

#[test]
fn f1_what_is_behind_the_index_is_not_looked_at() {
    for place in ["_1.[].as1", "_1.[].as1.7", "_1.[].*.[]", "_1.[].[].as9"] {
        assert_eq!(only(&[0, 1, 0], &format!("note {place} _2; switch _2 3>0 0")), Ok(()));
    }
}

#[test]
fn f1_the_walk_is_made_at_the_switch() {
    // Through an enum with no downcast: at the switch it is folded again, or at another variant.
    let note = "use _1.as0.0; note _1.0.[] _0";
    assert_eq!(only(&[0, 6], &format!("{note}; switch _0 9>0 0")), Ok(()));
    assert_eq!(only(&[0, 6], &format!("{note}; use _1; switch _0 9>0 0")), Err(5));
    let other = "use _1; use _1.as1.0";
    assert_eq!(only(&[0, 6], &format!("{note}; {other}; switch _0 9>0 0")), Err(5));
    // With one: another variant.
    let note = "note _1.as0.0.[] _0";
    assert_eq!(only(&[0, 6], &format!("{note}; {other}; switch _0 9>0 0")), Err(6));
    assert_eq!(only(&[0, 6], &format!("{note}; use _1; switch _0 9>0 0")), Ok(()));
    // The switch's own place is used before that.
    let text = format!("note _1.as0.0.[] _2.9; {other}; switch _2.9 0");
    assert_eq!(only(&[0, 6, 0], &text), Err(5));
}

#[test]
fn f1_its_changes_are_dropped() {
    // _1 is folded between note and switch: the walk would open it, the targets find it folded.
    let texts = ["note _1.0.[] _0; use _1; switch _0 0>1 1", "use _1.0.[]; return"];
    let lines = blocks(&[0, 2], &texts).unwrap();
    assert_eq!(lines, ["at 3 unfold _1 0", "at 7 fold _1", "at 16 unfold _1 0"]);
    // 9 isn't tested by it: 512 nodes stand as the switch is met, and the walk needs more.
    let wide = types(&[(TyKind::Opaque, &[]), (TyKind::Array, &[]), (TyKind::Struct, &[1, 0])]);
    let mut locals = vec![0, 2];
    locals.extend([2; 170]);
    let mut text = String::from("note _1.0.[] _0; use _1; ");
    for local in 2..172 {
        text += &format!("use _{local}.1; ");
    }
    assert_eq!(locals.len() + 2 * 170, 512);
    let draft = function(&locals, "", &[&format!("{text} switch _0 0>1 1"), "return"]);
    assert!(run(&wide, &draft).is_ok());
}

#[test]
fn f1_a_loop_over_saved_timers() {
    // Each round matches on one element; the arms meet again, and the loop goes on.
    let texts = [
        "use _1.*.1; switch 0>1 4",
        "note _1.*.0.[] _2; switch _2 0>2 1>3 3",
        "use _1.*.0.[].as1.0; goto 0",
        "use _1.*; goto 0",
        "return",
    ];
    let lines = blocks(&[0, 3, 0], &texts).unwrap();
    assert!(lines.contains(&"at 3 unfold _1.* 0".to_string()), "{lines:?}");
    replays(&[0, 3, 0], &texts);
}

/// Every list of up to six jumps is replayed without refusal, and each place used walks unchanged to
/// a folded node.
fn replays(locals: &[u32], texts: &[&str]) {
    let words = types_with_arrays();
    let genv = Types::read(&words).unwrap();
    let record = function(locals, "", texts).words();
    let body = Body::read(&genv, &record).unwrap();
    let mut stmts = GhostStatements::default();
    let mut stored = Default::default();
    add_ghost_statements(&mut stmts, &genv, &body, &mut stored, Room::Tested).unwrap();
    let mut lists: Vec<Vec<usize>> = vec![vec![]];
    for _ in 0..6 {
        let mut longer = vec![];
        for jumps in &lists {
            let mut replay = Replay::start(&genv, &body, &stmts).unwrap();
            for &item in jumps {
                assert!(replay.go_through().unwrap());
                replay.jump(item).unwrap();
            }
            assert!(replay.go_through().unwrap());
            for target in body.basic_blocks[replay.block].targets() {
                longer.push([&jumps[..], &[target.item]].concat());
            }
        }
        lists = longer;
    }
}

/// The items that may stand behind each, by document 01's sentences on blocks and the entry.
const MAY_FOLLOW: [(&str, &[u32]); 13] = [
    ("the entry part's begin", &[0]),
    ("a use in the entry part", &[0]),
    ("a place in the entry part", &[1, 2, 3, 4, 5]),
    ("a block's begin", &[0, 8, 10, 11, 12]),
    ("a use", &[0, 8, 10, 11, 12]),
    ("a note", &[0, 8, 10, 11, 12]),
    ("a place", &[1, 2, 3, 4, 5, 6, 8]),
    ("a read", &[0]),
    ("the place of a note", &[1, 2, 3, 4, 7]),
    ("a switch", &[9, 10]),
    ("an arm's target", &[9, 10]),
    ("an arm", &[10]),
    ("a block's end", &[]),
];

#[test]
fn f7_each_item_behind_each() {
    let cases = limits();
    let mut found = 0;
    for (name, case) in &cases {
        let Some(name) = name.strip_prefix("F-7, item ") else { continue };
        let (code, before) = name.split_once(" behind ").expect("a code and what stands before");
        let (_, may) = MAY_FOLLOW.iter().find(|(name, _)| *name == before).expect("a row");
        let stands = may.contains(&code.parse().expect("a code"));
        assert_eq!(case.refusal(), if stands { 0 } else { 2 }, "item {code} behind {before}");
        found += 1;
    }
    assert_eq!(found, 13 * 21, "codes 0 to 18, 2^31 and 2^32 - 1");
}
