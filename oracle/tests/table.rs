//! W1 to W14, and the worked example.

mod common;

use common::*;
use oracle::{calls, env::ProjResult, generate::limits::EXAMPLE, ghosts::ghosts, state::State};

/// A row of the joins: type, both trees, the result, both flags.
fn check_join(ty: u32, first: &str, second: &str, result: &str, flags: (bool, bool)) {
    let words = table_types();
    let genv = read_types(&words);
    let mut node1 = tree(&genv, ty, first);
    let mut node2 = tree(&genv, ty, second);
    assert_eq!(node1.join(&genv, &mut node2, false), Ok(flags));
    assert_eq!(node1, tree(&genv, ty, result));
    assert_eq!(node2, node1, "both come to one shape");

    let one = |text: &str| state(&genv, &[ty], &[text]);
    let joined = calls::join(&words, &[ty], &one(first), &one(second));
    assert_eq!(joined, Ok((one(result), flags.0)));
    let nodes = calls::join_nodes(&words, ty, false, &one(first), &one(second));
    assert_eq!(nodes, Ok((one(result), one(result), flags.0, flags.1)));
}

#[test]
fn w1() {
    check_join(0, "F", "F", "F", (false, false));
}

#[test]
fn w2() {
    check_join(1, "S(F,F)", "F", "S(F,F)", (false, true));
}

#[test]
fn w3() {
    check_join(6, "*F", "F", "F", (true, false));
}

#[test]
fn w4() {
    check_join(2, "*S(F,F)", "*F", "*F", (true, false));
}

#[test]
fn w5() {
    check_join(9, "*T(F)", "*F", "*T(F)", (false, true));
}

#[test]
fn w6() {
    check_join(9, "*T(S(F,F))", "*F", "*T(F)", (true, true));
}

#[test]
fn w7() {
    check_join(5, "V0", "V1(F)", "F", (true, true));
}

#[test]
fn w8() {
    check_join(6, "*S(F,F)", "*F", "*S(F,F)", (false, true));
}

/// The answer of a projection of `_1`, whose tree is given, and the walk's number.
fn project(ty: u32, before: &str, used: &str) -> (ProjResult, usize) {
    let words = table_types();
    let genv = read_types(&words);
    let locals = [0, ty];
    let (ops, args) = items(used);
    let (answer, _) =
        calls::projection(&words, &locals, &state(&genv, &locals, &["F", before]), &ops, &args);
    answer.expect("accepted")
}

#[test]
fn w9() {
    assert_eq!(project(2, "F", "_1.*.0"), (ProjResult::Unfold(1), 0));
    let draft = function(&[0, 2], "", &["use _1.*.0; stop"]);
    assert_eq!(run(&table_types(), &draft), Ok(vec!["at 3 unfold _1.* 0".to_string()]));
}

#[test]
fn w10() {
    assert_eq!(project(1, "S(F,F)", "_1"), (ProjResult::Fold, 0));
    let draft = function(&[0, 1], "", &["use _1.0; use _1; stop"]);
    assert_eq!(run(&table_types(), &draft).unwrap()[1], "at 4 fold _1");
}

#[test]
fn w11() {
    assert_eq!(project(5, "F", "_1.as1.0"), (ProjResult::Unfold(1), 0));
    let draft = function(&[0, 5], "", &["use _1.as1.0; stop"]);
    assert_eq!(run(&table_types(), &draft), Ok(vec!["at 3 unfold _1.as1 0".to_string()]));
}

/// What is collected for `_1` from one tree to another.
fn collect(ty: u32, from: &str, to: &str) -> Result<Vec<String>, u32> {
    let words = table_types();
    let genv = read_types(&words);
    let locals = [0, ty];
    let [first, second] = [from, to].map(|text| state(&genv, &locals, &["F", text]));
    let mut out = [1; 64];
    match calls::collect_fold_unfolds(&words, &locals, &first, &second, &mut out) {
        Ok(_) => Ok(collected_lines(&out)),
        Err(refusal) => {
            assert_eq!(out, [0; 64]);
            Err(refusal.number())
        }
    }
}

#[test]
fn w12() {
    assert_eq!(collect(5, "F", "V1(F)"), Err(7));
    assert_eq!(collect(5, "V0", "V1(F)"), Err(6));
}

#[test]
fn w13() {
    assert_eq!(collect(7, "F", "T(S(F,F))"), Ok(vec!["entry unfold _1.0 -".to_string()]));
}

#[test]
fn w14() {
    let words = table_types();
    let genv = read_types(&words);
    let locals = [0, 2];
    let before = state(&genv, &locals, &["F", "*F"]);
    let mut out = [1; 64];
    calls::collect_folds_at_ret(&words, &locals, 1, &before, &mut out).unwrap();
    assert_eq!(collected_lines(&out), ["entry fold _1.* -"]);
    let draft = function(&locals, "", &["use _1.*; return"]);
    assert_eq!(run(&words, &draft).unwrap(), ["at 2 unfold _1 0", "at 3 fold _1.* -"]);
}

#[test]
fn worked_example() {
    let output = "at 2 unfold _1 0\nat 8 fold _1\nat 9 unfold _1 -\n";
    assert_eq!(ghosts(EXAMPLE.as_bytes()), output);
}

#[test]
fn worked_example_to_the_last_word() {
    let words: Vec<u32> = EXAMPLE.split_whitespace().map(|word| word.parse().unwrap()).collect();
    let (types, function) = words.split_at(8);
    let (mut forms, mut whats, mut out, mut told) = ([9; 600], [9; 513], [9; 24], [9; 5]);
    let counts =
        calls::ghost_statements(types, function, &mut forms, &mut whats, &mut out, &mut told);
    assert_eq!(counts, Ok((3, 9)));
    assert_eq!(told, [0, 0, 255, 0, 0]);
    let mut record = vec![3, 9];
    record.extend([13, 16, 0, 13, 15, 0, 13, 16, 0]);
    record.extend([2, 0, 1, 8, 0, 1, 9, 0, 1]);
    record.extend([0; 4]);
    assert_eq!(out.to_vec(), record);
    // Block 3 is the only join point; its state is _0 folded, _1 open with two folded fields.
    let genv = read_types(types);
    let share: State = state(&genv, &[0, 1], &["F", "S(F,F)"]);
    assert_eq!(forms[..512], share.forms);
    assert_eq!(forms[..4], [0, 2, 0, 0]);
    assert_eq!(forms[512..], [0; 88]);
    assert_eq!(whats, [0; 513]);
}
