//! Two type records become one (document 02, F-6), by the points of its reading; its limits; and the
//! law: what a function, a crate or a call on states answers over its own record, it answers over the
//! merged one.

mod common;

use common::*;
use oracle::{
    calls,
    case::{Call, Case},
    function::Body,
    generate::{
        crates::words_of,
        limits::limits,
        merge::{function_over, merge_case, opaque, OPAQUE},
        random,
        rng::Rng,
        Kind, Size,
    },
    merge::{local_types, merge_types, moved},
    refusal::Refusal,
    state::MAX_NODES,
    types::{TyKind, Types},
};

/// The merged record, or the number of the refusal.
fn merged(first: &[u32], second: &[u32]) -> Result<Vec<u32>, u32> {
    let mut out = vec![7; 25_000];
    let length = merge_types(first, second, &mut out).map_err(Refusal::number)?;
    assert!(out[length..].iter().all(|&word| word == 0), "zeros behind the record");
    Ok(out[..length].to_vec())
}

/// Two types, the second a struct of so many fields.
fn fields(count: usize) -> Vec<u32> {
    types(&[(TyKind::Opaque, &[]), (TyKind::Struct, &vec![0; count])])
}

/// Readings 1 and 2: each kind, and a variant that no enum has.
#[test]
fn type_numbers_move_and_discriminants_do_not() {
    let first = types(&[(TyKind::Opaque, &[]), (TyKind::Variant, &[1, 0]), (TyKind::Enum, &[1])]);
    let second = types(&[
        (TyKind::Opaque, &[]),
        (TyKind::Pointer, &[11]),
        (TyKind::MutRef, &[2]),
        (TyKind::Box, &[0]),
        (TyKind::Array, &[]),
        (TyKind::Tuple, &[1, 4]),
        (TyKind::Struct, &[]),
        (TyKind::Variant, &[0, 0, 5]),
        (TyKind::Variant, &[u32::MAX]),
        (TyKind::Enum, &[8, 7]),
        (TyKind::Closure, &[9]),
        (TyKind::Coroutine, &[10, 0]),
        (TyKind::Variant, &[3, 3]),
    ]);
    let both = types(&[
        (TyKind::Opaque, &[]),
        (TyKind::Variant, &[1, 0]),
        (TyKind::Enum, &[1]),
        (TyKind::Opaque, &[]),
        (TyKind::Pointer, &[14]),
        (TyKind::MutRef, &[5]),
        (TyKind::Box, &[3]),
        (TyKind::Array, &[]),
        (TyKind::Tuple, &[4, 7]),
        (TyKind::Struct, &[]),
        (TyKind::Variant, &[0, 3, 8]),
        (TyKind::Variant, &[u32::MAX]),
        (TyKind::Enum, &[11, 10]),
        (TyKind::Closure, &[12]),
        (TyKind::Coroutine, &[13, 3]),
        (TyKind::Variant, &[3, 6]),
    ]);
    assert_eq!(merged(&first, &second), Ok(both));
}

/// Reading 2: the length that it takes, to the word.
#[test]
fn ten_exactly_below_the_length() {
    let (first, second) = (fields(2), fields(5));
    let length = 2 + 2 * (2 + 2) + 2 + 5;
    for room in 0..2 * length {
        let mut out = vec![7; room];
        let answer = merge_types(&first, &second, &mut out);
        if room < length {
            assert_eq!(answer, Err(Refusal::ShortStore));
            assert_eq!(out, vec![0; room]);
        } else {
            assert_eq!(answer, Ok(length));
            assert!(out[length..].iter().all(|&word| word == 0));
        }
    }
}

/// Reading 3: 1 on the first, 1 on the second, 12, 10.
#[test]
fn one_then_twelve_then_ten() {
    let refusal = |first: &[u32], second: &[u32], room: usize| {
        let mut out = vec![7; room];
        let answer = merge_types(first, second, &mut out);
        assert!(answer.is_ok() || out.iter().all(|&word| word == 0), "zeros after a refusal");
        number(answer)
    };
    let (good, bad) = (opaque(4096), [opaque(4096), vec![0]].concat());
    for room in [0, 25_000] {
        assert_eq!(refusal(&bad, &good, room), 1);
        assert_eq!(refusal(&good, &bad, room), 1);
        assert_eq!(refusal(&bad, &bad, room), 1);
        assert_eq!(refusal(&good, &good, room), 12);
        assert_eq!(refusal(&good, &OPAQUE, room), 12);
        assert_eq!(refusal(&fields(16384), &fields(1), room), 12);
        // Alone over its own limit.
        assert_eq!(refusal(&opaque(4097), &OPAQUE, room), 1);
        assert_eq!(refusal(&OPAQUE, &opaque(4097), room), 1);
        assert_eq!(refusal(&fields(16385), &OPAQUE, room), 1);
    }
    assert_eq!(refusal(&OPAQUE, &OPAQUE, 5), 10);
    assert_eq!(refusal(&opaque(4095), &OPAQUE, 8193), 10);
    assert_eq!(refusal(&opaque(4095), &OPAQUE, 8194), 0);
    assert_eq!(refusal(&fields(16384), &fields(0), 16393), 10);
    assert_eq!(refusal(&fields(16384), &fields(0), 16394), 0);
}

/// Reading 4.
#[test]
fn each_record_has_its_own_length() {
    for other in [vec![], OPAQUE[..3].to_vec(), [&OPAQUE[..], &[0]].concat()] {
        assert_eq!(merged(&other, &OPAQUE), Err(1));
        assert_eq!(merged(&OPAQUE, &other), Err(1));
    }
    assert_eq!(merged(&[1, 0, 0, 0, 1], &[0, 0, 0]), Err(1), "the cut stands elsewhere");
}

/// Reading 5, **edge**: a local type of the second is none of the first, but one of the merged record.
#[test]
fn a_local_type_past_the_first() {
    let both = merged(&OPAQUE, &OPAQUE).unwrap();
    assert_eq!(both, [2, 0, 0, 0, 0, 0]);
    let function = [1, 0, 1, 1, 1, 0, 0, 11, 0];
    assert_eq!(run_words(&OPAQUE, &function), Err(2));
    assert_eq!(run_words(&both, &function), Ok(vec![]));
}

/// Reading 6, **edge**: a move that wraps would make a type of the first of no type at all.
#[test]
fn moved_without_wrapping() {
    let first = fields(2);
    let both = merged(&first, &OPAQUE).unwrap();
    for ty in [u32::MAX - 1, u32::MAX] {
        let function = [1, 0, 1, 1, ty, 0, 0, 11, 0];
        assert_eq!(run_words(&OPAQUE, &function), Err(2));
        assert_eq!(moved(&function, first[0]), None);
        let mut wrapped = function;
        wrapped[4] = ty.wrapping_add(first[0]);
        assert_eq!(run_words(&both, &wrapped), Ok(vec![]));
    }
    let function = [1, 0, 1, 1, u32::MAX - 2, 0, 0, 11, 0];
    assert_eq!(moved(&function, first[0]).unwrap()[4], u32::MAX);
    // The local types alone, as far as they are there.
    assert_eq!(moved(&[2, 0, 1, 1, 3, 4, 5], 10).unwrap(), [2, 0, 1, 1, 13, 14, 5]);
    assert_eq!(moved(&[9, 0, 1, 1, 3], 10).unwrap(), [9, 0, 1, 1, 13]);
    assert_eq!(moved(&[9, 8], 10).unwrap(), [9, 8]);
    assert_eq!(moved(&[], 10).unwrap(), []);
}

/// A pair of the generator that is merged, with what it gives.
fn accepted(rng: &mut Rng) -> (Vec<u32>, Vec<u32>, Vec<u32>) {
    loop {
        let Case { types, types2, .. } = merge_case(rng, Size::Normal);
        if let Ok(both) = merged(&types, &types2) {
            return (types, types2, both);
        }
    }
}

/// Reading 7. What is merged passes refusal 1.
#[test]
fn merging_is_associative() {
    let mut rng = Rng::new(7);
    let mut refused = 0;
    for _ in 0..1000 {
        let (first, second, both) = accepted(&mut rng);
        assert_eq!(Types::read(&both).unwrap().len(), (first[0] + second[0]) as usize);
        let third = accepted(&mut rng).1;
        let left = merged(&both, &third);
        let right = merged(&second, &third).and_then(|later| merged(&first, &later));
        assert_eq!(left, right);
        assert!(left.is_ok() || left == Err(12));
        refused += usize::from(left.is_err());
    }
    assert!((3..200).contains(&refused), "{refused}");
}

/// All that the whole-function call leaves.
fn left(types: &[u32], function: &[u32]) -> (Result<calls::Counts, Refusal>, [Vec<u32>; 4]) {
    let (mut forms, mut whats) = (vec![7; 64 * MAX_NODES], vec![7; 64 * MAX_NODES]);
    let (mut out, mut told) = (vec![7; 1 << 14], vec![7; 1 << 12]);
    let answer =
        calls::ghost_statements(types, function, &mut forms, &mut whats, &mut out, &mut told);
    let [forms, whats] = [forms, whats].map(|words| words.into_iter().map(u32::from).collect());
    (answer, [out, told, forms, whats])
}

/// The law, of functions: answer, statement record, numbers and store.
#[test]
fn functions_answer_as_before() {
    let mut rng = Rng::new(8);
    let mut counts = [[0; 13]; 2];
    for _ in 0..4000 {
        let (first, second, both) = accepted(&mut rng);
        let function = function_over(&mut rng, &second, Size::Small);
        let alone = left(&second, &function);
        counts[0][number(alone.0) as usize] += 1;
        match moved(&function, first[0]) {
            Some(function) => assert_eq!(left(&both, &function), alone),
            None => assert_eq!(alone.0, Err(Refusal::BadFunction)),
        }
        let function = function_over(&mut rng, &first, Size::Small);
        let alone = left(&first, &function);
        counts[1][number(alone.0) as usize] += 1;
        let inside = local_types(&function).iter().all(|&ty| ty < first[0]);
        if inside || alone.0 != Err(Refusal::BadFunction) {
            assert_eq!(left(&both, &function), alone);
        }
    }
    for counts in counts {
        assert!(counts[0] > 2000, "{counts:?}");
        assert!([2, 5, 6, 8].iter().all(|&number| counts[number] > 15), "{counts:?}");
    }
}

/// The law, of the generator's own functions, which fill their states and lack store too.
#[test]
fn whole_cases_answer_as_before() {
    let mut rng = Rng::new(9);
    let mut counts = [[0; 13]; 2];
    for _ in 0..2000 {
        let case = random(&mut rng, Kind::Call(Call::Whole), Size::Small, None).expect("a case");
        let other = accepted(&mut rng).0;
        let answer = case.answer().to_string();
        if let (Ok(both), Some(function)) =
            (merged(&other, &case.types), moved(&case.function, other[0]))
        {
            let over = Case { types: both, function, ..case.clone() };
            assert_eq!(over.answer().to_string(), answer);
            counts[0][case.refusal() as usize] += 1;
        }
        if let (Ok(both), false) = (merged(&case.types, &other), case.refusal() == 2) {
            counts[1][case.refusal() as usize] += 1;
            let over = Case { types: both, ..case };
            assert_eq!(over.answer().to_string(), answer);
        }
    }
    assert!(counts[0][2] > 20, "{counts:?}");
    for counts in counts {
        assert!([0, 4, 5, 6, 8, 9, 10].iter().all(|&number| counts[number] > 20), "{counts:?}");
    }
}

/// The law, of crates: each function is moved over the second, and stays over the first.
#[test]
fn crates_answer_as_before() {
    let mut rng = Rng::new(10);
    let (mut given, mut refused) = ([0; 2], [0; 2]);
    for _ in 0..300 {
        let (first, second, both) = accepted(&mut rng);
        let by = first[0];
        for (at, (types, by)) in [(first, 0), (second, by)].into_iter().enumerate() {
            let genv = Types::read(&types).unwrap();
            let functions: Vec<Vec<u32>> = (0..rng.below(4))
                .map(|_| function_over(&mut rng, &types, Size::Small))
                .filter(|function| Body::read(&genv, function).is_ok())
                .collect();
            let over = functions.iter().map(|function| moved(function, by).expect("it fits"));
            let over = words_of(&over.collect::<Vec<_>>());
            let room = [16 * MAX_NODES, 16 * MAX_NODES, 4096];
            let alone = Case::crate_statements(types, words_of(&functions), room);
            let answer = Case::crate_statements(both.clone(), over, room).answer().to_string();
            assert_eq!(answer, alone.answer().to_string());
            match alone.refusal() {
                0 => given[at] += functions.len(),
                _ => refused[at] += 1,
            }
        }
    }
    assert!(given.iter().all(|&functions| functions > 250), "{given:?}");
    assert!(refused.iter().all(|&crates| crates > 15), "{refused:?}");
}

/// The law, of the calls on states.
#[test]
fn calls_on_states_answer_as_before() {
    let mut rng = Rng::new(11);
    let mut counts = [0; 13];
    for _ in 0..4000 {
        let case = random(&mut rng, Kind::States, Size::Small, None).expect("a case");
        let other = accepted(&mut rng).0;
        let answer = case.answer().to_string();
        let locals = case.locals.iter().map(|ty| ty.checked_add(other[0])).collect();
        if let (Ok(both), Some(locals)) = (merged(&other, &case.types), locals) {
            let over = Case { types: both, locals, ..case.clone() };
            assert_eq!(over.answer().to_string(), answer);
            counts[case.refusal() as usize] += 1;
        }
        if let Ok(both) = merged(&case.types, &other) {
            // A local type past the first is 3 alone, and may be a type of the merged record.
            if case.locals.iter().all(|&ty| ty < case.types[0]) {
                let over = Case { types: both, ..case };
                assert_eq!(over.answer().to_string(), answer);
            }
        }
    }
    assert!([0, 3, 4, 5, 6, 7, 10].iter().all(|&number| counts[number] > 20), "{counts:?}");
}

/// The refusal of a limit, by its name and the numbers in it.
fn expected(name: &str) -> u32 {
    let numbers: Vec<usize> = name.split([' ', ',']).filter_map(|word| word.parse().ok()).collect();
    let starts = ["no words", "a word", "a spare word", "sizes", "a bad", "two bad", "kind 11"];
    match numbers[..] {
        [t1, t2, p1, p2] if t1 + t2 > 4096 || p1 + p2 > 16384 => 12,
        [_, _, _, _] if name.ends_with("no output") => 10,
        [room, needed] if name.starts_with("output") && room < needed => 10,
        _ if name.contains("alone") && name != "a variant alone, twice" => 1,
        _ if starts.iter().any(|start| name.starts_with(start)) => 1,
        _ if name.starts_with("two good ones") => 12,
        _ if name.starts_with("a pointer") => 1,
        _ => 0,
    }
}

#[test]
fn each_limit() {
    let cases = limits().into_iter().filter(|(_, case)| case.call == Call::MergeTypes);
    let mut counts = [0; 13];
    for (name, case) in cases {
        let name = name.strip_prefix("F-6, ").expect("a pair's name");
        assert_eq!(case.refusal(), expected(name), "{name}");
        counts[expected(name) as usize] += 1;
    }
    assert!([0, 1, 10, 12].iter().all(|&number| counts[number] > 10), "{counts:?}");
}

/// Of the generator's pairs: rooms exactly enough, one less and one more; each record damaged, and both;
/// discriminants that are type numbers and large ones; variants that no enum has.
#[test]
fn what_the_generator_makes() {
    let mut rng = Rng::new(12);
    let (mut rooms, mut bad, mut large, mut loose) = ([0; 3], [0; 3], [0; 2], 0);
    for _ in 0..4000 {
        let case = merge_case(&mut rng, Size::Normal);
        let read = [&case.types, &case.types2].map(|words| Types::read(words));
        match &read {
            [Err(_), Err(_)] => bad[2] += 1,
            [Err(_), Ok(_)] => bad[0] += 1,
            [Ok(_), Err(_)] => bad[1] += 1,
            [Ok(_), Ok(second)] => {
                let needed = case.types.len() + case.types2.len() - 2;
                let near = [needed - 1, needed, needed + 1];
                (0..3).for_each(|at| rooms[at] += usize::from(case.room[0] == near[at]));
                let values = second.iter().filter(|(kind, _)| *kind == TyKind::Variant);
                let values: Vec<u32> = values.map(|(_, parts)| parts[0]).collect();
                let is_type = |value: &u32| (*value as usize) < second.len();
                large[0] += usize::from(values.iter().any(is_type));
                large[1] += usize::from(values.contains(&u32::MAX));
                let enums = second.iter().filter(|(kind, _)| *kind == TyKind::Enum);
                let owned: Vec<u32> = enums.flat_map(|(_, parts)| parts.to_vec()).collect();
                let all = second.iter().enumerate();
                let mut variants = all.filter(|(_, (kind, _))| *kind == TyKind::Variant);
                loose += usize::from(variants.any(|(at, _)| !owned.contains(&(at as u32))));
            }
        }
    }
    let counts = [&rooms[..], &bad, &large, &[loose]].concat();
    assert!(counts.iter().all(|&count| count > 50), "{rooms:?} {bad:?} {large:?} {loose}");
}
