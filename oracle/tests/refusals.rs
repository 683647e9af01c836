//! Each refusal 1 to 10, and the order in which they are tested.

mod common;

use common::*;
use oracle::{calls, state::State, types::TyKind};

/// Two locals: 0 opaque, 1 of the type.
fn one_block(ty: u32, text: &str) -> Result<Vec<String>, u32> {
    run(&table_types(), &function(&[0, ty, 0], "", &[text]))
}

#[test]
fn refusal_1_bad_types() {
    let good = vec![(TyKind::Opaque, &[][..]), (TyKind::Struct, &[0, 0][..])];
    assert!(oracle::types::Types::read(&types(&good)).is_ok());
    let refused = |words: &[u32]| number(oracle::types::Types::read(words)) == 1;
    assert!(refused(&[]));
    assert!(refused(&[0, 0]), "T is at least 1");
    assert!(refused(&[1, 0, 11, 0]), "kind above 10");
    assert!(refused(&types(&[(TyKind::Opaque, &[0])])), "opaque has no parts");
    assert!(refused(&types(&[(TyKind::Array, &[0])])), "array has no parts");
    assert!(refused(&types(&[(TyKind::Pointer, &[])])), "a pointer has one part");
    assert!(refused(&types(&[(TyKind::Box, &[0, 0])])), "a box has no fields");
    assert!(refused(&types(&[(TyKind::MutRef, &[1])])), "a pointee is below T");
    assert!(refused(&types(&[(TyKind::Struct, &[0])])), "a field is below its owner");
    assert!(refused(&types(&[(TyKind::Tuple, &[1]), (TyKind::Opaque, &[])])));
    assert!(refused(&types(&[(TyKind::Variant, &[])])), "a variant has a discriminant");
    assert!(refused(&types(&[(TyKind::Variant, &[0, 0])])), "a variant's field is below it");
    let variant = (TyKind::Variant, &[0][..]);
    for kind in [TyKind::Struct, TyKind::Tuple, TyKind::Closure, TyKind::Coroutine] {
        assert!(refused(&types(&[variant, (kind, &[0])])), "a variant is no field");
    }
    for kind in [TyKind::Pointer, TyKind::MutRef, TyKind::Box] {
        assert!(refused(&types(&[variant, (kind, &[0])])), "a variant is no pointee");
    }
    assert!(refused(&types(&[variant, (TyKind::Variant, &[0, 0])])), "nor a variant's field");
    assert!(refused(&types(&[(TyKind::Opaque, &[]), (TyKind::Enum, &[0])])), "an enum's parts");
    assert!(refused(&types(&[variant, variant, (TyKind::Enum, &[0, 1])])), "equal discriminants");
    assert!(refused(&types(&[(TyKind::Enum, &[1]), variant])), "a variant is below its enum");
}

#[test]
fn refusal_2_bad_function() {
    let draft = function(&[0, 1], "use _1.0", &["switch 0>1 1", "return"]);
    let good = draft.words();
    let types = table_types();
    assert!(run_words(&types, &good).is_ok());
    let changed = |at: usize, word: u32| {
        let mut words = good.clone();
        words[at] = word;
        run_words(&types, &words)
    };
    // Sizes, then local types, starts, ranks, codes and args.
    assert_eq!(good[..10], [2, 1, 2, 8, 0, 1, 3, 7, 0, 1]);
    assert_eq!(changed(1, 2), Err(2), "A is below L");
    assert_eq!(changed(5, 10), Err(2), "a local type is below T");
    assert_eq!(changed(5, 3), Err(2), "and no variant");
    assert_eq!(changed(6, 2), Err(2), "the entry ends before a use");
    assert_eq!(changed(7, 3), Err(2), "starts rise strictly");
    assert_eq!(changed(7, 8), Err(2), "a start lies below I");
    assert_eq!(changed(9, 0), Err(2), "each rank once");
    assert_eq!(changed(9, 2), Err(2), "ranks are below B");
    assert_eq!(run_words(&types, &good[..good.len() - 1]), Err(2));
    assert_eq!(run_words(&types, &[]), Err(2));
    assert_eq!(
        run_words(&types, &[1, 0, 1, 0, 0, 0, 0]),
        Err(2),
        "a start is below I, so I isn't 0"
    );
}

#[test]
fn refusal_3_bad_state() {
    let words = table_types();
    let genv = read_types(&words);
    let locals = [5, 1];
    let good = state(&genv, &locals, &["V1(F)", "S(F,F)"]);
    assert!(good.decode(&genv, &locals).is_ok());
    let refused = |change: &dyn Fn(&mut State)| {
        let mut bad = good.clone();
        change(&mut bad);
        let (ops, args) = items("_1");
        let (answer, after) = calls::projection(&words, &locals, &bad, &ops, &args);
        assert!(answer.is_ok() || after == bad, "a refusal leaves the state as it came");
        assert_eq!(number(calls::join(&words, &locals, &good, &bad)), number(answer));
        assert_eq!(number(calls::join(&words, &locals, &bad, &good)), number(answer));
        number(answer) == 3
    };
    assert!(!refused(&|_| {}));
    assert!(refused(&|state| state.whats[0] = 0), "variant 0 has no field");
    assert!(refused(&|state| state.whats[0] = 2), "a variant out of range");
    assert!(refused(&|state| state.whats[1] = 1), "what of a folded node");
    assert!(refused(&|state| state.whats[2] = 1), "what of a struct");
    assert!(refused(&|state| state.forms[0] = 1), "an enum is no deref");
    assert!(refused(&|state| state.forms[2] = 5), "a struct is no tuple");
    assert!(refused(&|state| state.forms[1] = 2), "opaque never opens");
    assert!(refused(&|state| state.forms[0] = 6), "no such form");
    assert!(refused(&|state| state.count = 4), "too few nodes");
    assert!(refused(&|state| state.count = 6), "too many nodes");
    assert!(refused(&|state| state.count = 513), "over 512");
    assert!(refused(&|state| state.forms[511] = 1), "a tail that isn't zero");
    assert!(refused(&|state| state.whats[5] = 1), "a tail that isn't zero");
}

#[test]
fn refusal_3_local_types() {
    let words = table_types();
    let genv = read_types(&words);
    let folded = |locals: &[u32]| state(&genv, &vec![0; locals.len()], &vec!["F"; locals.len()]);
    let call = |locals: &[u32]| {
        let (ops, args) = items("_0");
        number(calls::projection(&words, locals, &folded(locals), &ops, &args).0)
    };
    assert_eq!(call(&[]), 3);
    assert_eq!(call(&[0; 256]), 0);
    assert_eq!(call(&[0; 257]), 3);
    assert_eq!(call(&[10]), 3);
    assert_eq!(call(&[3]), 3, "a variant");
    let at_return = |args: usize| {
        let mut out = [7; 8];
        number(calls::collect_folds_at_ret(&words, &[0, 0], args, &folded(&[0, 0]), &mut out))
    };
    assert_eq!([at_return(0), at_return(1), at_return(2)], [0, 0, 3]);
}

#[test]
fn refusal_4_bad_place() {
    assert_eq!(one_block(1, "use _3; return"), Err(4));
    assert_eq!(one_block(5, "use _1.as1; return"), Err(4));
    assert_eq!(one_block(1, "switch _1.as0 0"), Err(4));
    assert_eq!(one_block(1, "note _1.as0 _2; return"), Err(4));
    assert_eq!(one_block(1, "note _1 _2.as0; return"), Err(4));
    let long = |elem: &str, n: usize| format!("use _1{}; return", elem.repeat(n));
    assert_eq!(one_block(0, &long(".*", 64)), Err(4));
    assert_eq!(one_block(0, &long(".*", 63)), Err(5), "the place passes, the step doesn't");
    assert_eq!(one_block(8, &long(".[]", 128)), Ok(vec![]));
    assert_eq!(one_block(8, &long(".[]", 129)), Err(4));
}

#[test]
fn refusal_5_wrong_step() {
    for (ty, used) in [
        (0, "_1.*"),
        (0, "_1.0"),
        (0, "_1.as0.0"),
        (0, "_1.[]"),
        (1, "_1.*"),
        (1, "_1.2"),
        (1, "_1.as1.0"),
        (1, "_1.[]"),
        (2, "_1.0"),
        (2, "_1.as0.0"),
        (5, "_1.0"),
        (5, "_1.as2.0"),
        (5, "_1.as0.0"),
        (7, "_1.as0.0"),
        (8, "_1.0"),
        (9, "_1.*.1"),
    ] {
        assert_eq!(one_block(ty, &format!("use {used}; return")), Err(5), "{used} of type {ty}");
    }
    assert_eq!(one_block(1, "note _1 _2; switch _2 0"), Err(5), "a match on a struct");
}

#[test]
fn refusal_5_unfold_opaque_or_array() {
    let words = table_types();
    let genv = read_types(&words);
    for (ty, at) in [(0, "_0"), (8, "_0"), (8, "_0.[]"), (1, "_0.0")] {
        let (ops, args) = items(at);
        let folded = state(&genv, &[ty], &["F"]);
        assert_eq!(number(calls::unfold(&words, &[ty], &folded, &ops, &args).0), 5);
    }
}

#[test]
fn refusal_6_other_variant() {
    assert_eq!(one_block(5, "use _1.as1.0; use _1.as0.0; return"), Err(6));
    assert_eq!(one_block(5, "note _1 _2; use _1.as1.0; switch _2 0>0 0"), Err(6), "at an arm");
    assert_eq!(one_block(5, "note _1 _2; use _1.as1.0; switch _2 1>0 0"), Err(6), "at otherwise");
    let words = table_types();
    let genv = read_types(&words);
    let open = state(&genv, &[5], &["V1(F)"]);
    let (ops, args) = items("_0");
    assert_eq!(number(calls::downcast(&words, &[5], &open, &ops, &args, 0).0), 6);
    assert_eq!(number(calls::downcast(&words, &[5], &open, &ops, &args, 1).0), 0);
    assert_eq!(number(calls::downcast(&words, &[5], &open, &ops, &args, 2).0), 5);
}

#[test]
fn refusal_7_bare_variant() {
    let words = table_types();
    let genv = read_types(&words);
    for text in ["V0", "V1(F)"] {
        let open = state(&genv, &[5], &[text]);
        let folded = state(&genv, &[5], &["F"]);
        let mut out = [7; 64];
        assert_eq!(number(calls::collect_unfolds(&words, &[5], &open, &mut out)), 7);
        assert_eq!(out, [0; 64]);
        let collected = calls::collect_fold_unfolds(&words, &[5], &folded, &open, &mut out);
        assert_eq!(number(collected), 7);
        let (ops, args) = items("_0");
        assert_eq!(number(calls::unfold(&words, &[5], &folded, &ops, &args).0), 7);
        assert_eq!(number(calls::unfold(&words, &[5], &open, &ops, &args).0), 0);
    }
}

#[test]
fn refusal_8_no_such_value() {
    let blocks = |switch: &str| {
        let first = format!("note _1 _2; switch _2 {switch}");
        run(&table_types(), &function(&[0, 5, 0], "", &[&first, "return"]))
    };
    assert_eq!(blocks("0>1 1>1 1"), Ok(vec!["at 7 fold _1 -".into(), "at 9 fold _1 -".into()]));
    assert_eq!(blocks("2>1 1"), Err(8));
    assert_eq!(blocks("0>1 0>1 1"), Err(8), "no variant is left for it");
    assert_eq!(
        run(&table_types(), &function(&[0, 5, 0], "", &["switch _2 2>1 2>1 1", "return"])),
        Ok(vec![]),
        "no match: values aren't looked at"
    );
}

/// A struct of `n` fields, opened once.
fn open_struct(n: usize) -> (Vec<u32>, Vec<u32>) {
    let fields = vec![0; n];
    let words = types(&[(TyKind::Opaque, &[]), (TyKind::Struct, &fields)]);
    (words, function(&[1], "", &["use _0.0; return"]).words())
}

#[test]
fn refusal_9_state_full() {
    let (words, function) = open_struct(511);
    assert_eq!(run_words(&words, &function), Ok(vec!["at 2 unfold _0 0".to_string()]));
    let (words, function) = open_struct(512);
    assert_eq!(run_words(&words, &function), Err(9));
}

#[test]
fn refusal_10_short_store() {
    let words = table_types();
    let draft = function(&[0, 1], "", &["use _1.0; switch 0>1 1", "return"]).words();
    let call = |room: [usize; 4]| {
        let [mut forms, mut whats] = [room[0], room[1]].map(|length| vec![7; length]);
        let [mut out, mut told] = [room[2], room[3]].map(|length| vec![7; length]);
        let answer =
            calls::ghost_statements(&words, &draft, &mut forms, &mut whats, &mut out, &mut told);
        if answer.is_err() {
            assert!(forms.iter().chain(&whats).all(|&entry| entry == 0));
            assert!(out.iter().chain(&told).all(|&word| word == 0));
        }
        number(answer)
    };
    assert_eq!(call([512, 512, 8, 1]), 0);
    assert_eq!(call([511, 512, 8, 1]), 10);
    assert_eq!(call([512, 511, 8, 1]), 10);
    assert_eq!(call([512, 512, 7, 1]), 10);
    assert_eq!(call([512, 512, 8, 0]), 10);
    assert_eq!(call([0, 0, 0, 0]), 10);
}

#[test]
fn the_lower_record_first() {
    let bad_types = [0, 0];
    let bad_function = [0, 0];
    assert_eq!(run_words(&bad_types, &bad_function), Err(1));
    let types = table_types();
    // Bad function before a bad place, a bad place before a short store, that before a step.
    let bad_place = function(&[0, 1], "", &["use _1.*; use _2; goto 0"]);
    let mut both = bad_place.clone();
    both.blocks[0].pop();
    assert_eq!(run(&types, &both), Err(2));
    let call = |function: &[u32], room: usize, out: usize| {
        let (mut forms, mut whats) = (vec![0; room], vec![0; room]);
        let mut out = vec![0; out];
        number(calls::ghost_statements(&types, function, &mut forms, &mut whats, &mut out, &mut []))
    };
    assert_eq!(call(&bad_place.words(), 0, 0), 4);
    let wrong_step = function(&[0, 1], "", &["use _1.*; goto 0"]).words();
    assert_eq!(call(&wrong_step, 0, 0), 10);
    assert_eq!(call(&wrong_step, 512, 0), 5, "the statement buffer and the numbers come last");
}
