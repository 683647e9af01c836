//! The readings of document 01, one by one, by their numbers.

mod common;

use common::*;
use oracle::{
    calls,
    env::{Env, ProjResult},
    function::{Body, NOTE, READ, RETURN, STOP, TARGET, USE},
    generate::{
        draft::{Draft, Item},
        limits::EXAMPLE,
    },
    ghost_statements::{GhostStatement, GhostStatements, Point, Told},
    ghosts::ghosts,
    place::ROOT,
    replay::Replay,
    types::{TyKind, Types},
};

/// A function over the table's types whose one block is these items.
fn items_only(items: Vec<Item>) -> Result<Vec<String>, u32> {
    let mut draft = Draft::new(vec![0, 1], 0);
    draft.block(items);
    run(&table_types(), &draft)
}

fn blocks(locals: &[u32], texts: &[&str]) -> Result<Vec<String>, u32> {
    run(&table_types(), &function(locals, "", texts))
}

#[test]
fn reading_1_exact_lengths() {
    let types = table_types();
    let good = function(&[0], "", &["return"]).words();
    assert!(run_words(&types, &good).is_ok());
    assert_eq!(run_words(&types[..types.len() - 1], &good), Err(1));
    assert_eq!(run_words(&[&types[..], &[0]].concat(), &good), Err(1));
    assert_eq!(run_words(&types, &good[..good.len() - 1]), Err(2));
    assert_eq!(run_words(&types, &[&good[..], &[0]].concat()), Err(2));
}

#[test]
fn reading_1_sums_do_not_wrap() {
    // Counts of 2^31 and 2^31 + 1: their sum is 1 modulo 2^32.
    assert_eq!(number(Types::read(&[2, 1, 6, 6, 1 << 31, (1 << 31) + 1, 0])), 1);
    // 2 + 2T + P is 6 modulo 2^32.
    assert_eq!(number(Types::read(&[(1 << 31) + 1, 2, 0, 0, 0, 0])), 1);
    // 4 + L + 2B + 2I likewise.
    let mut words = function(&[0], "", &["return"]).words();
    words[2] += 1 << 31;
    assert_eq!(run_words(&table_types(), &words), Err(2));
    words[2] -= 1 << 31;
    words[3] += 1 << 31;
    assert_eq!(run_words(&table_types(), &words), Err(2));
}

#[test]
fn reading_2_variants_and_pointers() {
    let variant = (TyKind::Variant, &[4][..]);
    for good in [
        types(&[variant, (TyKind::Opaque, &[])]),
        types(&[variant, (TyKind::Enum, &[0]), (TyKind::Enum, &[0])]),
        types(&[(TyKind::Enum, &[])]),
        types(&[(TyKind::Box, &[0])]),
        types(&[(TyKind::MutRef, &[1]), (TyKind::Pointer, &[0])]),
    ] {
        assert!(Types::read(&good).is_ok(), "{good:?}");
    }
    for bad in [
        types(&[(TyKind::Variant, &[]), (TyKind::Enum, &[0])]),
        types(&[variant, (TyKind::Enum, &[0, 0])]),
    ] {
        assert_eq!(number(Types::read(&bad)), 1, "{bad:?}");
    }
}

#[test]
fn reading_3_numbers_out_of_range() {
    assert_eq!(blocks(&[0, 1], &["use _2; return"]), Err(4));
    assert_eq!(blocks(&[0, 1], &["use _1.2; return"]), Err(5));
    assert_eq!(blocks(&[0, 5], &["use _1.as2.0; return"]), Err(5));
    assert_eq!(blocks(&[0, 1], &["return", "use _1.2; return"]), Ok(vec![]), "never met");
    assert_eq!(blocks(&[0, 1], &["goto 1"]), Err(2));
    assert_eq!(items_only(vec![(ROOT, 1), (USE, 0), (13, 0)]), Err(2));
    assert_eq!(items_only(vec![(ROOT, 1), (1 << 31, 0), (USE, 0), (RETURN, 0)]), Err(2));
    let good: Vec<Item> = block("use _1; use _1.0; note _1 _0; switch _1 1>0 0");
    assert!(items_only(good.clone()).is_ok());
    for (at, item) in good.iter().enumerate() {
        let mut items = good.clone();
        items[at].1 = item.1 + 7;
        let expected = match item.0 {
            0 => Err(4),
            2 => Err(5),
            9 => continue,
            _ => Err(2),
        };
        assert_eq!(items_only(items), expected, "item {at}");
    }
    for op in [1, 4] {
        assert_eq!(items_only(vec![(ROOT, 1), (op, 1), (USE, 0), (RETURN, 0)]), Err(2));
    }
    for op in [RETURN, STOP] {
        assert_eq!(items_only(vec![(op, 1)]), Err(2));
    }
}

#[test]
fn reading_4_order_of_items() {
    let place = [(ROOT, 0)];
    let (used, read, note) = ([(USE, 0)], [(READ, 0)], [(NOTE, 0)]);
    let (end, go) = ([(RETURN, 0)], [(TARGET, 0)]);
    let (switch, arm) = ([(8, 0)], [(9, 0)]);
    let wrong: [&[&[Item]]; 20] = [
        &[&place, &read, &place, &used, &end],
        &[&go, &go],
        &[&place, &note, &end],
        &[&place, &read, &end],
        &[&place, &read, &note, &end],
        &[&place, &read, &place, &read, &place, &note, &end],
        &[&place, &end],
        &[&place, &go],
        &[&place, &place, &used, &end],
        &[&used, &end],
        &[&switch],
        &[&switch, &arm],
        &[&switch, &arm, &go],
        &[&switch, &arm, &arm, &go, &go],
        &[&arm, &go],
        &[&switch, &go, &go],
        &[&switch, &go, &end],
        &[&place, &used],
        &[&end, &place, &used],
        &[&[(1, 0)], &used, &end],
    ];
    for parts in wrong {
        assert_eq!(items_only(parts.concat()), Err(2), "{parts:?}");
    }
    let right: [&[&[Item]]; 6] = [
        &[&place, &read, &place, &note, &end],
        &[&go],
        &[&switch, &go],
        &[&switch, &arm, &go, &go],
        &[&place, &switch, &arm, &go, &arm, &go, &go],
        &[&place, &used, &place, &read, &place, &note, &[(STOP, 0)]],
    ];
    for parts in right {
        assert_eq!(items_only(parts.concat()), Ok(vec![]), "{parts:?}");
    }
    // Only uses before start[0], and no form across a start.
    let mut draft = function(&[0, 1], "note _1 _0", &["return"]);
    assert_eq!(run(&table_types(), &draft), Err(2));
    draft.entry = block("use _1");
    assert_eq!(run(&table_types(), &draft), Ok(vec![]));
    draft.entry = block("return");
    assert_eq!(run(&table_types(), &draft), Err(2));
    draft.entry = vec![(ROOT, 1)];
    draft.blocks[0] = [&used[..], &end].concat();
    assert_eq!(run(&table_types(), &draft), Err(2));
    draft.entry = vec![];
    draft.blocks = vec![vec![(ROOT, 1)], [&used[..], &end].concat()];
    draft.rank = vec![0, 1];
    assert_eq!(run(&table_types(), &draft), Err(2));
}

#[test]
fn reading_5_switch_on_a_constant() {
    // Value 9 belongs to no variant, so a match would refuse it.
    let locals = [0, 5, 0];
    assert_eq!(blocks(&locals, &["note _1 _2; switch _2 9>0 0"]), Err(8));
    assert_eq!(blocks(&locals, &["note _1 _2; switch 9>0 0"]), Ok(vec![]));
    assert_eq!(blocks(&locals, &["note _1 _2; use _2; switch 9>0 0"]), Ok(vec![]));
    assert_eq!(blocks(&locals, &["switch 9>0 0"]), Ok(vec![]));
}

#[test]
fn reading_6_elements_counted() {
    let types = types(&[(TyKind::Array, &[]), (TyKind::Struct, &[0])]);
    let used = |head: &str, tail: &str, n: usize| {
        let text = format!("use {head}{}; stop", tail.repeat(n));
        run(&types, &function(&[1], "", &[&text])).map(|lines| lines.len())
    };
    assert_eq!(used("_0.0", ".[]", 127), Ok(1));
    assert_eq!(used("_0.0", ".[]", 128), Err(4));
    assert_eq!(used("_0.0.[]", ".*", 126), Ok(1), "derefs after an index aren't counted as steps");
    assert_eq!(used("_0.0.[]", ".as3", 5), Ok(1), "nor is an ending downcast looked at");
    // Entry uses, and blocks that are never reached.
    assert_eq!(run(&types, &function(&[1], "use _1", &["stop"])), Err(4));
    assert_eq!(run(&types, &function(&[1], "", &["stop", "use _1; stop"])), Err(4));
    assert_eq!(run(&types, &function(&[1], "", &["use _0.*; stop", "use _1; stop"])), Err(4));
}

#[test]
fn reading_7_places_of_statements() {
    let words = table_types();
    let genv = read_types(&words);
    let locals = [5];
    let folded = state(&genv, &locals, &["F"]);
    let (ops, args) = items("_0.as1");
    assert_eq!(number(calls::projection(&words, &locals, &folded, &ops, &args).0), 4);
    assert_eq!(number(calls::downcast(&words, &locals, &folded, &ops, &args, 1).0), 4);
    assert_eq!(number(calls::fold(&words, &locals, &folded, &ops, &args).0), 4);
    let (answer, after) = calls::unfold(&words, &locals, &folded, &ops, &args);
    assert_eq!(answer, Ok(()));
    assert_eq!(after, state(&genv, &locals, &["V1(F)"]));
    // Items that are no place.
    for (ops, args) in [
        (vec![], vec![]),
        (vec![2], vec![0]),
        (vec![1, 0], vec![0, 0]),
        (vec![0, 0], vec![0, 0]),
        (vec![0, 5], vec![0, 0]),
        (vec![0, 1], vec![0, 1]),
        (vec![0, 4], vec![0, 9]),
        (vec![0], vec![0, 0]),
        (vec![0], vec![1]),
    ] {
        let (answer, after) = calls::unfold(&words, &locals, &folded, &ops, &args);
        assert_eq!(number(answer), 4, "{ops:?} {args:?}");
        assert_eq!(after, folded);
    }
}

#[test]
fn reading_8_the_lower_number_first() {
    let words = table_types();
    let genv = read_types(&words);
    let project = |ty: u32, before: &str, used: &str| {
        let (ops, args) = items(used);
        let before = state(&genv, &[ty], &[before]);
        number(calls::projection(&words, &[ty], &before, &ops, &args).0)
    };
    assert_eq!(project(5, "V1(F)", "_0.as2.0"), 5);
    assert_eq!(project(5, "V1(F)", "_0.as0.0"), 6);
    assert_eq!(project(5, "V1(F)", "_0.as1.1"), 5);
    assert_eq!(project(1, "S(F,F)", "_0.as1.0"), 5);
    assert_eq!(project(1, "F", "_0.as1.0"), 5);
    assert_eq!(project(1, "F", "_0.as0.0"), 0);
    assert_eq!(project(1, "S(F,F)", "_0.as0.0"), 0);
    assert_eq!(project(2, "*F", "_0.0"), 5);
    assert_eq!(project(2, "*F", "_0.as0.0"), 5);
    assert_eq!(project(5, "V1(F)", "_0.0"), 0, "an open enum is passed through");
    assert_eq!(project(5, "V1(F)", "_0.*"), 5);
    assert_eq!(project(1, "S(F,F)", "_0.[]"), 5);
}

/// Types: 1 a struct of 300 fields, 4 an enum of two variants with such a struct in each, 5 a
/// mutable reference to the struct.
fn wide_types() -> Vec<u32> {
    let wide = vec![0; 300];
    types(&[
        (TyKind::Opaque, &[]),
        (TyKind::Struct, &wide),
        (TyKind::Variant, &[0, 1]),
        (TyKind::Variant, &[1, 1]),
        (TyKind::Enum, &[2, 3]),
        (TyKind::MutRef, &[1]),
    ])
}

#[test]
fn reading_9_walks_past_512_nodes() {
    let used = |text: &str| run(&wide_types(), &function(&[1, 1, 4], "", &[text])).map(|_| ());
    assert_eq!(used("use _0.0; use _1.0; stop"), Err(9));
    assert_eq!(used("use _0.0; use _1.0.*; stop"), Err(5), "a later 5 in the walk wins");
    // An enum opens at a variant of 300 nodes: 9 unless a later step of the walk is wrong.
    assert_eq!(used("use _0.0; use _2.as1.0; stop"), Ok(()));
    assert_eq!(used("use _0.0; use _2.as1.0.0; stop"), Err(9));
    assert_eq!(used("use _0.0; use _2.as1.0.0.0; stop"), Err(5));
    assert_eq!(used("use _0.0; use _2.as1.0; use _2.as0.0.0; stop"), Err(6));
}

#[test]
fn reading_9_a_join_past_512_nodes_on_its_way() {
    let words = wide_types();
    let genv = read_types(&words);
    let locals = [1, 5];
    // The first local opens in the join, then the second folds.
    let open = |place_text: &str| {
        let mut env = Env::new(&locals);
        env.projection(&genv, &place(place_text)).unwrap();
        oracle::state::State::encode(&env).unwrap()
    };
    let (first, second) = (open("_1.*.0"), open("_0.0"));
    let (joined, flag) = calls::join(&words, &locals, &first, &second).unwrap();
    assert!(flag);
    assert_eq!(joined, second);
}

#[test]
fn reading_9_a_list_past_1000_nodes_on_its_way() {
    let fields = vec![0; 505];
    let words = types(&[(TyKind::Opaque, &[]), (TyKind::Struct, &fields)]);
    let genv = read_types(&words);
    let locals = [1, 1];
    let open = |local: usize| {
        let mut env = Env::new(&locals);
        env.projection(&genv, &place(&format!("_{local}.0"))).unwrap();
        env
    };
    let (from, to) = (open(1), open(0));
    let mut stmts = GhostStatements::default();
    from.collect_fold_unfolds_at_goto(&genv, &to, &mut stmts.at(Point::FunEntry)).unwrap();
    assert_eq!(stmts.to_string(), "entry unfold _0 -\nentry fold _1 -\n");
    let mut env = from;
    let mut most = 0;
    for (_, stmt, _) in stmts.iter() {
        env.carry_out(&genv, stmt).unwrap();
        most = most.max(env.node_count());
    }
    assert_eq!(env, to);
    assert!(most > 1000);
}

#[test]
fn reading_9_where_a_run_tests_it() {
    // At an arm, at otherwise, and not where two variants are left.
    let arm = |switch: &str| {
        let wide = vec![0; 300];
        let first = [&[0][..], &wide].concat();
        let second = [&[1][..], &wide].concat();
        let third = [2];
        let types = types(&[
            (TyKind::Opaque, &[]),
            (TyKind::Struct, &wide),
            (TyKind::Variant, &first),
            (TyKind::Variant, &second),
            (TyKind::Variant, &third),
            (TyKind::Enum, &[2, 3, 4]),
        ]);
        let text = format!("use _1.0; note _2 _0; switch _0 {switch}");
        run(&types, &function(&[0, 1, 5], "", &[&text, "stop"])).map(|_| ())
    };
    assert_eq!(arm("0>1 1"), Err(9));
    assert_eq!(arm("2>1 1"), Ok(()), "two left");
    assert_eq!(arm("2>1 9>1 1"), Err(8));
    assert_eq!(arm("0>1 9>1 1"), Err(9), "an earlier arm's 9 first");
    assert_eq!(arm("9>1 0>1 1"), Err(8));
    assert_eq!(arm("2>1 0>1 1"), Err(9));
    assert_eq!(arm("1"), Ok(()), "three left");
}

#[test]
fn reading_9_at_a_join() {
    let run = |texts: &[&str]| run(&wide_types(), &function(&[1, 1, 5], "", texts)).map(|_| ());
    // The join comes before block 3 is visited, and after block 2's own statements.
    let open = ["switch 0>1 2", "use _0.0; goto 3", "use _1.0; goto 3", "use _0.*; stop"];
    assert_eq!(run(&open), Err(9));
    let late = ["switch 0>1 2", "use _0.0; goto 3", "use _1.0; use _0.*; goto 3", "stop"];
    assert_eq!(run(&late), Err(5));
    // Behind a mutable reference the other side's nodes are folded away.
    let folded = ["switch 0>1 2", "use _0.0; goto 3", "use _2.*.0; goto 3", "stop"];
    assert_eq!(run(&folded), Ok(()));
    // A join's 9 comes before what the next target of the same block would refuse.
    let first =
        ["switch 0>1 1>2 4", "use _0.0; goto 3", "use _1.0; goto 3", "stop", "use _0.*; stop"];
    assert_eq!(run(&first), Err(9));
}

#[test]
fn reading_9_the_first_walk_of_a_match() {
    // The read place is folded away after the note; the match walks it again, past 512 nodes.
    let draft = |switch: &str| {
        let text = format!("note _1.0.0 _0; use _1; use _2.0; switch _0 {switch}");
        function(&[0, 6, 1], "", &[&text, "stop"])
    };
    let wide = vec![0; 250];
    let inner: Vec<u32> = [&[4][..], &vec![0; 300]].concat();
    let types = types(&[
        (TyKind::Opaque, &[]),
        (TyKind::Struct, &wide),
        (TyKind::Variant, &[0]),
        (TyKind::Variant, &[1]),
        (TyKind::Enum, &[2, 3]),
        (TyKind::Struct, &inner),
        (TyKind::Struct, &[5]),
    ]);
    let lines = run(&types, &draft("1")).unwrap();
    assert_eq!(lines.len(), 3, "its changes are dropped: {lines:?}");
    assert_eq!(run(&types, &draft("0>1 1")), Err(9), "an arm's walk is kept");
    assert_eq!(run(&types, &draft("7>1 1")), Err(8));
}

#[test]
fn reading_10_unfold_of_a_folded_enum() {
    let words = types(&[
        (TyKind::Enum, &[]),
        (TyKind::Opaque, &[]),
        (TyKind::Variant, &[0]),
        (TyKind::Variant, &[1, 1]),
        (TyKind::Enum, &[2, 3]),
        (TyKind::Tuple, &[0, 4]),
    ]);
    let genv = read_types(&words);
    let locals = [5];
    let folded = state(&genv, &locals, &["F"]);
    let unfold = |text: &str| {
        let (ops, args) = items(text);
        let (answer, after) = calls::unfold(&words, &locals, &folded, &ops, &args);
        (number(answer), after)
    };
    assert_eq!(unfold("_0.0"), (7, folded.clone()));
    assert_eq!(unfold("_0.1"), (7, folded.clone()));
    assert_eq!(unfold("_0.0.as0"), (5, folded.clone()));
    assert_eq!(unfold("_0.1.as0"), (0, state(&genv, &locals, &["T(F,V0)"])));
    assert_eq!(unfold("_0.1.as1"), (0, state(&genv, &locals, &["T(F,V1(F))"])));
    assert_eq!(unfold("_0"), (0, state(&genv, &locals, &["T(F,F)"])));
}

#[test]
fn reading_11_notes() {
    // _1 is the enum, _2 and _4 are noted in, _3 is no enum: a match on it is 5.
    let locals = [0, 5, 0, 1, 0];
    let only = |text: &str| blocks(&locals, &[text]).map(|_| ());
    assert_eq!(only("note _3 _2; note _1 _2; switch _2 0>0 0"), Ok(()), "the latest counts");
    assert_eq!(only("note _1 _2; note _3 _2; switch _2 0>0 0"), Err(5));
    assert_eq!(only("note _3 _2; note _1 _4; switch _2 0"), Err(5), "other notes stay");
    assert_eq!(only("note _1 _4; note _3 _2; switch _4 9>0 0"), Err(8));
    assert_eq!(only("note _3 _2; use _2; switch _2 0"), Err(5), "a use clears nothing");
    // Notes live within a block.
    assert_eq!(blocks(&locals, &["note _3 _2; goto 1", "switch _2 1"]), Ok(vec![]));
    // The same items: index and what follows it are compared too.
    let locals = [0, 1, 8];
    let only = |text: &str| blocks(&locals, &[text]).map(|_| ());
    assert_eq!(only("note _1 _2.[]; switch _2.[] 0"), Err(5));
    assert_eq!(only("note _1 _2.[].3; switch _2.[].3 0"), Err(5));
    assert_eq!(only("note _1 _2.[].3; switch _2.[].4 0"), Ok(()));
    assert_eq!(only("note _1 _2.[]; switch _2 0"), Ok(()));
    assert_eq!(only("note _1 _1.0; switch _1.as0.0 0"), Ok(()), "other items for one place");
}

#[test]
fn reading_11_a_place_noted_in_itself() {
    let lines = blocks(&[0, 5], &["note _1 _1; switch _1 0>1 1", "use _1; return"]).unwrap();
    assert_eq!(lines, ["at 7 fold _1 -", "at 8 fold _1 -"]);
}

#[test]
fn reading_12_the_order_at_a_match() {
    let locals = [0, 5, 1];
    let only = |text: &str| blocks(&locals, &[text]).map(|_| ());
    // The switch's place is used first: 5 there, then 5 of the match, then 8, then 6.
    assert_eq!(only("note _1 _2.9; switch _2.9 9>0 0"), Err(5));
    assert_eq!(only("note _1 _0; use _1.as1.0; switch _0 9>0 0>0 0"), Err(8));
    assert_eq!(only("note _1 _0; use _1.as1.0; switch _0 0>0 9>0 0"), Err(6));
    assert_eq!(only("note _1 _0; use _1.as1.0; switch _0 1>0 9>0 0"), Err(8));
    assert_eq!(only("note _1 _0; use _1.as1.0; switch _0 1>0 0"), Err(6), "otherwise comes last");
    assert_eq!(only("note _1 _0; use _1.as1.0; switch _0 1>0 0>0 0"), Err(6));
    // The read place's walk meets another variant.
    let types = types(&[
        (TyKind::Opaque, &[]),
        (TyKind::Variant, &[0]),
        (TyKind::Enum, &[1]),
        (TyKind::Variant, &[0, 2]),
        (TyKind::Variant, &[1, 0]),
        (TyKind::Enum, &[3, 4]),
    ]);
    let text = "note _1.as0.0 _0; use _1; use _1.as1.0; switch _0 9>0 0";
    assert_eq!(run(&types, &function(&[0, 5], "", &[text])), Err(6));
}

#[test]
fn reading_12_all_arms_before_the_first_is_entered() {
    // The first arm's block has a wrong step; the second arm's value belongs to no variant.
    let locals = [0, 5];
    let texts = ["note _1 _0; switch _0 0>1 9>2 2", "use _0.*; stop", "stop"];
    assert_eq!(blocks(&locals, &texts), Err(8));
    let texts = ["note _1 _0; switch _0 0>1 1>2 2", "use _0.*; stop", "stop"];
    assert_eq!(blocks(&locals, &texts), Err(5));
}

#[test]
fn reading_13_a_share_of_zeros() {
    // Block 1: all folded arrived. Block 2: none arrived.
    let texts = ["switch 0>1 1", "stop", "switch 0>2 2"];
    let draft = function(&[0, 1], "", &texts).words();
    let (mut forms, mut whats, mut out) = ([7; 1024], [7; 1024], [7; 2]);
    let types = table_types();
    let answer = calls::ghost_statements(&types, &draft, &mut forms, &mut whats, &mut out, &mut []);
    assert_eq!(answer, Ok((0, 0)));
    assert_eq!((forms, whats, out), ([0; 1024], [0; 1024], [0; 2]));
    // A loop that brings the same state back: visited once, though its share is all zero.
    assert_eq!(blocks(&[0, 1], &["use _1; goto 0"]), Ok(vec![]));
}

#[test]
fn reading_14_three_before_four() {
    let words = table_types();
    let genv = read_types(&words);
    let good = state(&genv, &[1], &["S(F,F)"]);
    let mut bad = good.clone();
    bad.whats[9] = 1;
    assert_eq!(number(calls::fold(&words, &[1], &bad, &[], &[]).0), 3);
    assert_eq!(number(calls::fold(&words, &[1], &good, &[], &[]).0), 4);
    assert_eq!(number(calls::fold(&words, &[10], &good, &[], &[]).0), 3);
    assert_eq!(number(calls::fold(&words[1..], &[10], &bad, &[], &[]).0), 1);
    let mut out = [0; 0];
    for (first, second) in [(&good, &bad), (&bad, &good)] {
        assert_eq!(number(calls::join(&words, &[1], first, second)), 3);
        let answer = calls::collect_fold_unfolds(&words, &[1], first, second, &mut out);
        assert_eq!(number(answer), 3);
    }
}

#[test]
fn reading_15_the_first_in_preorder() {
    let words = types(&[
        (TyKind::Opaque, &[]),
        (TyKind::Variant, &[0]),
        (TyKind::Variant, &[1, 0]),
        (TyKind::Enum, &[1, 2]),
        (TyKind::Tuple, &[3, 3]),
        (TyKind::Variant, &[0, 3]),
        (TyKind::Variant, &[1, 3]),
        (TyKind::Enum, &[5, 6]),
    ]);
    let genv = read_types(&words);
    let collect = |locals: &[u32], from: &[&str], to: &[&str]| {
        let [first, second] = [from, to].map(|trees| state(&genv, locals, trees));
        let mut out = [7; 100];
        number(calls::collect_fold_unfolds(&words, locals, &first, &second, &mut out))
    };
    assert_eq!(collect(&[4], &["T(F,V0)"], &["T(V1(F),V1(F))"]), 7);
    assert_eq!(collect(&[4], &["T(V0,F)"], &["T(V1(F),V1(F))"]), 6);
    assert_eq!(collect(&[3, 3], &["F", "V0"], &["V0", "V1(F)"]), 7);
    assert_eq!(collect(&[3, 3], &["V0", "F"], &["V1(F)", "V0"]), 6);
    // The outer variant differs before the inner one is looked at.
    assert_eq!(collect(&[7], &["V0(F)"], &["V1(V0)"]), 6);
    assert_eq!(collect(&[7], &["V0(F)"], &["V0(V0)"]), 7);
    assert_eq!(collect(&[7], &["F"], &["V0(V0)"]), 7);
    assert_eq!(collect(&[7], &["V0(V1(F))"], &["V0(F)"]), 0);
}

#[test]
fn reading_16_buffers() {
    let words = table_types();
    let genv = read_types(&words);
    let open = state(&genv, &[1, 7], &["S(F,F)", "T(S(F,F))"]);
    // entry unfold _0, entry unfold _1.0: 3 and 4 entries.
    for room in 0..20 {
        let mut out = vec![7; room];
        let answer = calls::collect_unfolds(&words, &[1, 7], &open, &mut out);
        if room < 16 {
            assert_eq!(number(answer), 10);
            assert_eq!(out, vec![0; room]);
        } else {
            assert_eq!(answer, Ok((2, 7)));
            assert_eq!(out[..9], [2, 7, 14, 16, 0, 14, 16, 0, 2]);
            assert_eq!(out[9..16], [0, 0, 0, 0, 0, 1, 0]);
            assert!(out[16..].iter().all(|&word| word == 0));
        }
    }
}

#[test]
fn reading_18_words_of_ghosts() {
    let good = "at 2 unfold _1 0\nat 8 fold _1\nat 9 unfold _1 -\n";
    let say = |text: &str| ghosts(text.as_bytes());
    assert_eq!(say(EXAMPLE), good);
    assert_eq!(say(&EXAMPLE.replace(' ', "\n")), good);
    assert_eq!(say(&format!("\n  {}\n\n ", EXAMPLE.replace(' ', " \n "))), good);
    assert_eq!(say(&EXAMPLE.replace(' ', " 0000000000000000")), good);
    assert_eq!(say(&EXAMPLE.replacen(' ', "\t", 1)), "refused 2\n");
    assert_eq!(say(&EXAMPLE.replacen(' ', "\r\n", 1)), "refused 2\n");
    assert_eq!(say(&EXAMPLE.replacen(' ', " +", 1)), "refused 2\n");
    assert_eq!(say(&EXAMPLE.replacen(' ', " -", 1)), "refused 2\n");
    assert_eq!(say(&EXAMPLE.replacen(' ', ". ", 1)), "refused 2\n");
    assert_eq!(say(&EXAMPLE.replacen(' ', ",", 1)), "refused 2\n");
    assert_eq!(ghosts(b"\xff"), "refused 2\n");
    assert_eq!(say("4294967296"), "refused 2\n");
    assert_eq!(say("4294967295"), "refused 1\n");
    assert_eq!(say(&"0 ".repeat(4096)), "refused 2\n", "spare words");
    assert_eq!(say(&("9 ".to_string() + &"9 ".repeat(4095))), "refused 2\n");
    assert_eq!(say(&("2048 ".to_string() + &"0 ".repeat(4095))), "refused 1\n", "cut off");
    assert_eq!(say(&("2048 ".to_string() + &"0 ".repeat(4096))), "refused 2\n", "too many");
}

#[test]
fn reading_19_spare_and_missing_words() {
    let say = |text: &str| ghosts(text.as_bytes());
    assert_eq!(say(""), "refused 1\n");
    assert_eq!(say(" \n "), "refused 1\n");
    assert_eq!(say(&(EXAMPLE.to_string() + " 0")), "refused 2\n");
    // Kind 99 is bad; then a spare word, nothing spare, and a function cut off.
    assert_eq!(say("1 0 99 0 1 0 1 1 0 0 0 11 0 0"), "refused 2\n");
    assert_eq!(say("1 0 99 0 1 0 1 1 0 0 0 11 0"), "refused 1\n");
    assert_eq!(say("1 0 99 0 1 0 1 1 0 0 0 11"), "refused 1\n");
    assert_eq!(say("1 0 99 0"), "refused 1\n");
    assert_eq!(say("1 0 0 0"), "refused 2\n");
    assert_eq!(say("1 0 0 0 1 0 1"), "refused 2\n");
    assert_eq!(say("1 0 0 0 1 0 1 1 0 0 0 11"), "refused 2\n");
    assert_eq!(say("1 0 0 0 1 0 1 1 0 0 0 11 0"), "");
    // Sizes over their limits are as written too.
    assert_eq!(say("1 0 0 0 0 0 0 0"), "refused 2\n");
    assert_eq!(say("0 0 0 0 0 0"), "refused 1\n");
    assert_eq!(say("0 0 0 0 0 0 5"), "refused 2\n");
}

#[test]
fn reading_20_limits_of_ghosts() {
    let text = |blocks: usize, last: &str| {
        let texts: Vec<String> =
            (1..blocks).map(|next| format!("switch 0>{next} {next}")).collect();
        let mut texts: Vec<&str> = texts.iter().map(String::as_str).collect();
        texts.push(last);
        let words = [table_types(), function(&[0, 1], "", &texts).words()].concat();
        words.iter().map(u32::to_string).collect::<Vec<_>>().join(" ")
    };
    assert_eq!(ghosts(text(17, "return").as_bytes()), "");
    assert_eq!(ghosts(text(18, "return").as_bytes()), "refused 10\n");
    assert_eq!(ghosts(text(17, "use _1.*; return").as_bytes()), "refused 5\n");
    assert_eq!(ghosts(text(18, "use _1.*; return").as_bytes()), "refused 10\n", "before the run");
    assert_eq!(ghosts(text(18, "use _2; return").as_bytes()), "refused 4\n", "after 4");
}

#[test]
fn reading_20_blocks_never_reached_are_counted() {
    let mut texts = vec!["stop".to_string()];
    texts.extend((1..=17).map(|bb| format!("switch 0>{bb} {bb}")));
    let texts: Vec<&str> = texts.iter().map(String::as_str).collect();
    let words = [table_types(), function(&[0], "", &texts).words()].concat();
    let text = words.iter().map(u32::to_string).collect::<Vec<_>>().join(" ");
    assert_eq!(ghosts(text.as_bytes()), "refused 10\n");
}

#[test]
fn reading_22_the_replay_does_not_walk_the_entry_uses() {
    let words = table_types();
    let genv = read_types(&words);
    let draft = function(&[0, 1], "use _1.0; use _1", &["use _1; return"]);
    assert_eq!(run(&words, &draft).unwrap(), ["entry unfold _1 0", "entry fold _1"]);
    let body = Body::read(&genv, &draft.words()).unwrap();
    let mut stmts = GhostStatements::default();
    let unfold = GhostStatement::Unfold(place("_1"));
    stmts.insert_at(Point::FunEntry, unfold, Told::Passed(0));
    stmts.insert_at(Point::FunEntry, GhostStatement::Fold(place("_1")), Told::Nothing);
    let mut replay = Replay::start(&genv, &body, &stmts).unwrap();
    assert_eq!(replay.go_through(), Ok(true));
}

#[test]
fn an_empty_struct_opens_without_a_new_node() {
    let words = types(&[(TyKind::Struct, &[]), (TyKind::Box, &[0]), (TyKind::MutRef, &[0])]);
    let genv = read_types(&words);
    let folded = state(&genv, &[0], &["F"]);
    let open = state(&genv, &[0], &["S"]);
    assert_eq!(folded.count, open.count);
    let (ops, args) = items("_0");
    assert_eq!(calls::unfold(&words, &[0], &folded, &ops, &args), (Ok(()), open.clone()));
    let after = calls::projection(&words, &[0], &open, &ops, &args);
    assert_eq!(after, (Ok((ProjResult::Fold, 0)), folded.clone()));
    assert_eq!(calls::join(&words, &[0], &folded, &open), Ok((open.clone(), true)));
    assert_eq!(calls::join(&words, &[0], &open, &folded), Ok((open, false)));
    // Behind a mutable reference it folds, behind a box it doesn't.
    let joined = |ty: u32, first: &str, second: &str| {
        let [first, second] = [first, second].map(|text| state(&genv, &[ty], &[text]));
        calls::join(&words, &[ty], &first, &second).unwrap()
    };
    assert_eq!(joined(2, "*S", "*F"), (state(&genv, &[2], &["*F"]), true));
    assert_eq!(joined(2, "*F", "*S"), (state(&genv, &[2], &["*F"]), false));
    assert_eq!(joined(1, "*F", "*S"), (state(&genv, &[1], &["*S"]), true));
}
