//! Two type records become one: what moves, what is refused, and functions over the merged record.

use hirvoksne::{
    crate_statements, ghost_statements, merge_types, merge_types_into, Function, Open, Place,
    Pointer, Refusal, Statements, Type, Types,
};

const OPAQUE: [u32; 4] = [1, 0, 0, 0];

/// So many opaque types.
fn opaque(types: usize) -> Vec<u32> {
    [vec![types as u32, 0], vec![0; 2 * types]].concat()
}

/// Two types, the second a struct of so many fields.
fn fields(count: usize) -> Vec<u32> {
    let mut types = Types::new();
    let int = types.opaque();
    types.structure(&vec![int; count]);
    types.record()
}

/// An enum whose discriminants are numbers of types, a list, and one of each other kind.
fn all_kinds(types: &mut Types) -> Vec<Type> {
    let int = types.opaque();
    let array = types.array();
    let later = types.later(Pointer::Box);
    let variants = [0, 1, 6, u32::MAX].map(|value| types.variant(value, &[int, later.ty()]));
    let list = types.enumeration(&variants);
    types.point(later, list);
    // No enum has it.
    types.variant(2, &[list]);
    let lent = types.mut_ref(list);
    let pointer = types.plain_pointer(lent);
    let tuple = types.tuple(&[array, pointer]);
    let structure = types.structure(&[tuple, list]);
    let closure = types.closure(&[structure]);
    let coroutine = types.coroutine(&[closure, int]);
    vec![int, array, later.ty(), list, lent, pointer, tuple, structure, closure, coroutine]
}

/// What is merged is what one builder writes of both.
#[test]
fn the_types_of_both() {
    let (mut first, mut second, mut both) = (Types::new(), Types::new(), Types::new());
    for types in [&mut first, &mut both] {
        let int = types.opaque();
        types.structure(&[int, int]);
        types.variant(9, &[int]);
    }
    let alone = all_kinds(&mut second);
    let behind = all_kinds(&mut both);
    assert_eq!(merge_types(&first.record(), &second.record()), Ok(both.record()));
    assert_eq!(first.count() + second.count(), both.count());
    let moved: Vec<Type> = alone.iter().map(|ty| ty.moved(first.count())).collect();
    assert_eq!(moved, behind);
}

/// 1 on either comes before 12 and 12 before 10; what is lent is zeros then.
#[test]
fn refusals_in_their_order() {
    let refused = |first: &[u32], second: &[u32], room: usize| {
        let mut out = vec![7; room];
        let answer = merge_types_into(first, second, &mut out);
        assert_eq!(out, vec![0; room]);
        answer.unwrap_err()
    };
    let (good, bad) = (opaque(4096), [opaque(4096), vec![0]].concat());
    for room in [0, 24_578, 30_000] {
        for (first, second) in [(&bad, &good), (&good, &bad), (&bad, &bad)] {
            assert_eq!(refused(first, second, room), Refusal::BadTypes);
        }
        assert_eq!(refused(&good, &good, room), Refusal::MergedTooLarge);
        assert_eq!(refused(&good, &OPAQUE, room), Refusal::MergedTooLarge);
        assert_eq!(refused(&fields(16384), &fields(1), room), Refusal::MergedTooLarge);
        // Alone over its own limit.
        assert_eq!(refused(&OPAQUE, &opaque(4097), room), Refusal::BadTypes);
        assert_eq!(refused(&fields(16385), &OPAQUE, room), Refusal::BadTypes);
    }
    assert_eq!(refused(&OPAQUE, &OPAQUE, 5), Refusal::ShortStore);
    assert_eq!(refused(&[], &[], 5), Refusal::BadTypes);
}

#[test]
fn the_output() {
    let mut out = [7; 8];
    for (room, answer) in [(5, Err(Refusal::ShortStore)), (6, Ok(6)), (8, Ok(6))] {
        assert_eq!(merge_types_into(&OPAQUE, &OPAQUE, &mut out[..room]), answer);
        assert_eq!(out[..5], if answer.is_ok() { [2, 0, 0, 0, 0] } else { [0; 5] });
    }
    assert_eq!(out, [2, 0, 0, 0, 0, 0, 0, 0]);
    assert_eq!(merge_types_into(&OPAQUE, &OPAQUE, &mut []), Err(Refusal::ShortStore));
}

/// No output that the crate makes is too short: the largest record, and any words.
#[test]
fn the_largest() {
    let first = [&[4094, 16383][..], &[0; 4093], &[6], &[0; 4093], &[16383], &[0; 16383]].concat();
    let merged = merge_types(&first, &fields(1)).expect("4,096 types and 16,384 parts");
    assert_eq!((merged[..2].to_vec(), merged.len()), (vec![4096, 16384], 24_578));
    assert_eq!(merge_types(&first, &fields(2)), Err(Refusal::MergedTooLarge));
    for words in [&[][..], &[1], &[u32::MAX; 9], &[0; 30_000]] {
        assert_eq!(merge_types(words, &OPAQUE), Err(Refusal::BadTypes));
        assert_eq!(merge_types(&OPAQUE, words), Err(Refusal::BadTypes));
    }
}

/// A loop that opens a struct and its first field; all that is given of it is compared: record, numbers
/// and store.
fn looping(int: Type, owner: Type) -> Function {
    let mut function = Function::new(int, &[owner], &[]);
    let [start, again, end] = function.blocks();
    let part = Open::new().used(&Place::local(1).field(0).field(1));
    function.write(start, Open::new().goto(again));
    function.write(again, part.switch_constant().arm(0, again).otherwise(end));
    function.write(end, Open::new().used(&Place::local(1)).ret());
    function
}

fn stored(statements: &Statements) -> Vec<(Vec<u16>, Vec<u16>)> {
    let states = statements.join_points().iter().map(|&block| statements.stored(block).unwrap());
    states.map(|state| (state.forms.to_vec(), state.whats.to_vec())).collect()
}

/// At the numbers of the second's structs the first has other kinds: if one weren't moved, as a local type
/// or as a part, the function would be refused.
#[test]
fn functions_over_the_merged_record() {
    let (mut first, mut second) = (Types::new(), Types::new());
    let int = first.opaque();
    let pair = first.tuple(&[int, int, int]);
    let array = first.array();
    let lent = first.mut_ref(pair);
    let owner = first.structure(&[pair, array, lent]);
    let one = looping(int, owner);

    let array = second.array();
    let int = second.opaque();
    let pair = second.structure(&[int, int]);
    let owner = second.structure(&[pair, array]);
    let two = looping(int, owner);

    let merged = merge_types(&first.record(), &second.record()).unwrap();
    let moved = two.moved(first.count());
    assert_eq!(moved.record()[4..6], [6, 8]);
    let together = crate_statements(&merged, &[one.record(), moved.record()]).unwrap();
    let functions = [(&first, &one, &one), (&second, &two, &moved)];
    for (at, (types, alone, over)) in functions.into_iter().enumerate() {
        let alone = ghost_statements(&types.record(), &alone.record()).unwrap();
        let over = ghost_statements(&merged, &over.record()).unwrap();
        assert!(alone.len() > 1);
        assert_eq!(alone, over);
        assert_eq!(stored(&alone), stored(&over));
        assert_eq!(alone.record(), together[at].record());
    }
    assert_eq!(ghost_statements(&merged, &two.record()), Err(Refusal::WrongStep), "not moved");
}

/// A local type past the first is none of its, but one of the merged record.
#[test]
fn a_local_type_past_the_first() {
    let function = [1, 0, 1, 1, 1, 0, 0, 11, 0];
    assert_eq!(ghost_statements(&OPAQUE, &function), Err(Refusal::BadFunction));
    let merged = merge_types(&OPAQUE, &OPAQUE).unwrap();
    assert!(ghost_statements(&merged, &function).is_ok());
}

/// A number that doesn't fit is no type's, whatever is merged.
#[test]
fn moved_without_wrapping() {
    let mut types = Types::new();
    let far = types.opaque().moved(u32::MAX - 1);
    for by in [1, 2, 3, u32::MAX] {
        let mut function = Function::new(far, &[], &[]).moved(by);
        function.block();
        assert_eq!(function.record()[4], u32::MAX);
        let merged = merge_types(&opaque(3), &types.record()).unwrap();
        assert_eq!(ghost_statements(&merged, &function.record()), Err(Refusal::BadFunction));
    }
}
