//! What the source does, function by function, where the table W1 to W14 doesn't say.

mod common;

use common::*;
use oracle::{
    calls,
    ghost_statements::{GhostStatements, Point},
    queue::WorkQueue,
    types::TyKind,
};

/// Types: 1 struct(0,0), 2 mutable reference to 1, 3 box of 1, 4 mutable reference to 3,
/// 5 box of 2, 6 tuple(1), 7 closure(1), 8 coroutine(1), 9 variant(1), 10 variant(1,2),
/// 11 enum(9,10), 12 to 15 mutable references to 6, 7, 8, 11, 16 plain pointer to 1,
/// 17 plain pointer to 2, 18 tuple(2,3,16,11).
fn rich_types() -> Vec<u32> {
    types(&[
        (TyKind::Opaque, &[]),
        (TyKind::Struct, &[0, 0]),
        (TyKind::MutRef, &[1]),
        (TyKind::Box, &[1]),
        (TyKind::MutRef, &[3]),
        (TyKind::Box, &[2]),
        (TyKind::Tuple, &[1]),
        (TyKind::Closure, &[1]),
        (TyKind::Coroutine, &[1]),
        (TyKind::Variant, &[0, 1]),
        (TyKind::Variant, &[1, 1, 2]),
        (TyKind::Enum, &[9, 10]),
        (TyKind::MutRef, &[6]),
        (TyKind::MutRef, &[7]),
        (TyKind::MutRef, &[8]),
        (TyKind::MutRef, &[11]),
        (TyKind::Pointer, &[1]),
        (TyKind::Pointer, &[2]),
        (TyKind::Tuple, &[2, 3, 16, 11]),
    ])
}

/// Joins two trees, and the same the other way round.
fn check_join(ty: u32, in_mut_ref: bool, trees: [&str; 2], result: &str, flags: (bool, bool)) {
    let words = rich_types();
    let genv = read_types(&words);
    let join = |first: &str, second: &str| {
        let (mut node1, mut node2) = (tree(&genv, ty, first), tree(&genv, ty, second));
        let flags = node1.join(&genv, &mut node2, in_mut_ref).unwrap();
        assert_eq!([&node1, &node2], [&tree(&genv, ty, result); 2], "{trees:?}");
        flags
    };
    assert_eq!(join(trees[0], trees[1]), flags, "{trees:?}");
    assert_eq!(join(trees[1], trees[0]), (flags.1, flags.0), "{trees:?} swapped");
}

#[test]
fn join_below_a_mutable_reference() {
    // Any step above counts, not only the nearest pointer.
    check_join(4, false, ["**S(F,F)", "**F"], "**F", (true, false));
    check_join(5, false, ["**S(F,F)", "**F"], "**F", (true, false));
    check_join(3, false, ["*S(F,F)", "*F"], "*S(F,F)", (false, true));
    check_join(3, true, ["*S(F,F)", "*F"], "*F", (true, false));
    check_join(1, true, ["S(F,F)", "F"], "F", (true, false));
    // A pointer that meets a folded node folds, whatever it is.
    check_join(4, false, ["**F", "*F"], "*F", (true, false));
    check_join(5, false, ["**F", "*F"], "*F", (true, false));
}

#[test]
fn join_of_tuples_closures_and_generators() {
    for (ty, reference, form) in [(6, 12, "T"), (7, 13, "C"), (8, 14, "G")] {
        let [open, wide] = [format!("{form}(F)"), format!("{form}(S(F,F))")];
        check_join(ty, false, [&open, "F"], &open, (false, true));
        check_join(ty, false, [&wide, "F"], &wide, (false, true));
        check_join(ty, false, [&wide, &open], &wide, (false, true));
        check_join(ty, true, [&wide, "F"], &open, (true, true));
        check_join(ty, true, [&wide, &open], &open, (true, false));
        let [open, wide] = [format!("*{open}"), format!("*{wide}")];
        check_join(reference, false, [&wide, "*F"], &open, (true, true));
        check_join(reference, false, [&wide, "F"], "F", (true, false));
    }
}

#[test]
fn join_of_enums() {
    check_join(11, false, ["V0(F)", "F"], "F", (true, false));
    check_join(11, false, ["V0(F)", "V1(F,F)"], "F", (true, true));
    check_join(11, false, ["V0(S(F,F))", "V0(F)"], "V0(S(F,F))", (false, true));
    check_join(11, false, ["V1(S(F,F),F)", "V1(F,*F)"], "V1(S(F,F),F)", (false, true));
    check_join(15, false, ["*V0(S(F,F))", "*V0(F)"], "*V0(F)", (true, false));
    check_join(15, false, ["*V1(F,*S(F,F))", "*V1(F,*F)"], "*V1(F,*F)", (true, false));
}

/// What is collected from one tree of `_0` to another.
fn collect(ty: u32, from: &str, to: &str) -> Result<Vec<String>, u32> {
    let words = rich_types();
    let genv = read_types(&words);
    let [first, second] = [from, to].map(|text| state(&genv, &[ty], &[text]));
    let mut out = [7; 256];
    let answer = calls::collect_fold_unfolds(&words, &[ty], &first, &second, &mut out);
    answer.map(|_| collected_lines(&out)).map_err(|refusal| refusal.number())
}

fn list(lines: &[&str]) -> Result<Vec<String>, u32> {
    Ok(lines.iter().map(|line| format!("entry {line} -")).collect())
}

#[test]
fn collected_between_two_trees() {
    assert_eq!(collect(1, "S(F,F)", "F"), list(&["fold _0"]));
    assert_eq!(collect(1, "F", "S(F,F)"), list(&["unfold _0"]));
    assert_eq!(collect(4, "F", "**F"), list(&["unfold _0.*"]));
    assert_eq!(collect(4, "F", "**S(F,F)"), list(&["unfold _0.*.*"]));
    assert_eq!(collect(4, "*F", "**S(F,F)"), list(&["unfold _0.*.*"]));
    assert_eq!(collect(4, "**S(F,F)", "*F"), list(&["fold _0.*"]));
    for (ty, form) in [(6, "T"), (7, "C"), (8, "G")] {
        assert_eq!(collect(ty, "F", &format!("{form}(F)")), list(&["unfold _0"]));
        assert_eq!(collect(ty, "F", &format!("{form}(S(F,F))")), list(&["unfold _0.0"]));
        let [open, wide] = [format!("{form}(F)"), format!("{form}(S(F,F))")];
        assert_eq!(collect(ty, &open, &wide), list(&["unfold _0.0"]));
        assert_eq!(collect(ty, &wide, &open), list(&["fold _0.0"]));
    }
}

#[test]
fn collected_below_an_enum() {
    // Between two open enums a field is written without downcast, below a folded one with it.
    assert_eq!(collect(11, "V0(F)", "V0(S(F,F))"), list(&["unfold _0.0"]));
    assert_eq!(collect(11, "V0(S(F,F))", "V0(F)"), list(&["fold _0.0"]));
    assert_eq!(collect(11, "F", "V0(S(F,F))"), list(&["unfold _0.as0.0"]));
    assert_eq!(collect(11, "F", "V1(F,*S(F,F))"), list(&["unfold _0.as1.1.*"]));
    assert_eq!(collect(11, "F", "V1(F,*F)"), list(&["unfold _0.as1.1"]));
    assert_eq!(collect(11, "V1(F,F)", "V1(S(F,F),*F)"), list(&["unfold _0.0", "unfold _0.1"]));
    assert_eq!(collect(15, "*V0(F)", "F"), list(&["fold _0"]));
    assert_eq!(collect(11, "V0(S(F,F))", "F"), list(&["fold _0"]));
    assert_eq!(collect(11, "F", "V1(F,F)"), Err(7));
    assert_eq!(collect(15, "F", "*V1(F,F)"), Err(7));
    assert_eq!(collect(15, "*V0(S(F,F))", "*V1(F,F)"), Err(6));
}

fn at_return(ty: u32, text: &str) -> Vec<String> {
    let words = rich_types();
    let genv = read_types(&words);
    let node = tree(&genv, ty, text);
    let mut stmts = GhostStatements::default();
    node.collect_folds_at_ret(&genv, &mut place("_1"), &mut stmts.at(Point::FunEntry));
    stmts.iter().map(|(_, stmt, _)| stmt.to_string()).collect()
}

#[test]
fn folds_at_return() {
    assert_eq!(at_return(2, "*S(F,F)"), ["fold _1.*"]);
    assert_eq!(at_return(2, "F"), [""; 0]);
    assert_eq!(at_return(1, "S(F,F)"), [""; 0]);
    assert_eq!(at_return(4, "**F"), ["fold _1.*"], "no further below a mutable reference");
    assert_eq!(at_return(5, "**F"), ["fold _1.*.*"], "through a box");
    assert_eq!(at_return(5, "*F"), [""; 0]);
    assert_eq!(at_return(17, "**F"), [""; 0], "not through a plain pointer");
    assert_eq!(at_return(11, "V1(F,*F)"), ["fold _1.as1.1.*"], "with downcast");
    assert_eq!(at_return(18, "T(*F,*S(F,F),*F,V1(F,*F))"), ["fold _1.0.*", "fold _1.3.as1.1.*"]);
}

#[test]
fn only_arguments_are_folded_at_return() {
    let words = rich_types();
    let mut draft = function(&[2, 2, 2], "", &["use _0.*; use _1.*; use _2.*; return"]);
    let folds = |draft: &_| {
        let lines = run(&words, draft).unwrap();
        lines.into_iter().filter(|line| line.contains(" fold ")).collect::<Vec<_>>()
    };
    assert_eq!(folds(&draft), ["at 9 fold _1.* -", "at 9 fold _2.* -"]);
    draft.arg_count = 1;
    assert_eq!(folds(&draft), ["at 9 fold _1.* -"]);
    draft.arg_count = 0;
    assert!(folds(&draft).is_empty());
}

#[test]
fn the_lowest_rank_is_popped_first() {
    let rank = [2, 0, 3, 1];
    let mut queue = WorkQueue::empty(4, &rank);
    assert!(queue.insert(2) && queue.insert(0) && queue.insert(1));
    assert!(!queue.insert(0), "it waits already");
    assert_eq!([queue.pop(), queue.pop()], [Some(1), Some(0)]);
    assert!(queue.insert(3) && queue.insert(0), "it may wait again");
    assert_eq!([queue.pop(), queue.pop(), queue.pop()], [Some(3), Some(0), Some(2)]);
    assert_eq!(queue.pop(), None);
}

#[test]
fn second_pass_order_follows_the_ranks() {
    // Blocks 1 and 2 are join points and wait together.
    let texts = ["switch 0>1 1>1 2>2 2", "use _0.0; stop", "use _0.1; stop"];
    let mut draft = function(&[1], "", &texts);
    let words = rich_types();
    assert_eq!(run(&words, &draft).unwrap(), ["at 10 unfold _0 0", "at 14 unfold _0 0"]);
    draft.rank = vec![0, 2, 1];
    assert_eq!(run(&words, &draft).unwrap(), ["at 14 unfold _0 0", "at 10 unfold _0 0"]);
}

#[test]
fn blocks_entered_at_once_come_before_what_waits() {
    // Block 3 is entered at once from 0, and so its statement precedes those of block 1.
    let texts = ["switch 0>1 1>1 3", "use _0.0; stop", "stop", "use _0.1; goto 2"];
    let draft = function(&[1], "", &texts);
    let lines = run(&rich_types(), &draft).unwrap();
    assert_eq!(lines, ["at 13 unfold _0 0", "at 8 unfold _0 0"]);
}

#[test]
fn statements_of_the_start_block_as_a_join_point() {
    // The entry opens _0; the loop brings it back folded, behind a mutable reference.
    let texts = ["use _0.*; switch 0>0 1", "stop"];
    let draft = function(&[2], "use _0.*.0", &texts);
    let lines = run(&rich_types(), &draft).unwrap();
    assert_eq!(lines, ["entry unfold _0.* 0", "entry fold _0.* -"]);
}

#[test]
fn a_loop_that_opens_and_folds() {
    // Behind a mutable reference the head's state folds; each round opens it again.
    let texts = ["goto 1", "use _0.*.0; switch 0>1 2", "return"];
    let lines = run(&rich_types(), &function(&[2], "", &texts)).unwrap();
    assert_eq!(lines, ["at 4 unfold _0.* 0", "at 7 fold _0 -"]);
    // A struct stays open round the loop.
    let texts = ["goto 1", "use _0.0; switch 0>1 2", "return"];
    let lines = run(&rich_types(), &function(&[1], "", &texts)).unwrap();
    assert_eq!(lines, ["at 0 unfold _0 -"]);
}

#[test]
fn an_index_ends_the_walk() {
    let words = types(&[(TyKind::Array, &[]), (TyKind::Struct, &[0]), (TyKind::MutRef, &[1])]);
    let lines = |text: &str| run(&words, &function(&[2], "", &[text]));
    assert_eq!(lines("use _0.*.0.[].7.*; stop").unwrap(), ["at 6 unfold _0.* 0"]);
    assert_eq!(lines("use _0.*.0; use _0.*.0.[]; stop").unwrap(), ["at 3 unfold _0.* 0"]);
    assert_eq!(lines("use _0.*.0; use _0.*.[]; stop"), Err(5), "an open struct is no array");
    assert_eq!(lines("use _0.[]; stop"), Err(5));
}

#[test]
fn a_match_opens_its_variants_unrecorded() {
    let texts = [
        "note _1 _0; switch _0 0>1 1>2 3",
        "use _1.as0.0.0; return",
        "use _1.1; return",
        "use _1; return",
    ];
    let lines = run(&rich_types(), &function(&[0, 11], "", &texts)).unwrap();
    assert_eq!(lines, ["at 15 unfold _1.as0.0 2"]);
    // One variant is left: the otherwise target opens it.
    let texts = ["note _1 _0; switch _0 0>1 2", "return", "use _1.1; return"];
    let lines = run(&rich_types(), &function(&[0, 11], "", &texts)).unwrap();
    assert_eq!(lines, [""; 0]);
    // Two are left: it stays folded, and a field of it is a wrong step.
    let texts = ["note _1 _0; switch _0 1", "use _1.1; return"];
    assert_eq!(run(&rich_types(), &function(&[0, 11], "", &texts)), Err(5));
}
