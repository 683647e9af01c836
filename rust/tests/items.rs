//! Lists of statements: what each kind gives, what is refused, and a block made of them.

use hirvoksne::{
    ghost_statements, statement_items, statement_items_into, statement_list, Assign, Function,
    Open, Operand, Place, Refusal, Rvalue, Types,
};

const USE: (u32, u32) = (5, 0);
const READ: (u32, u32) = (6, 0);
const NOTE: (u32, u32) = (7, 0);

/// What `_0 = rvalue` gives.
fn given(rvalue: Rvalue) -> Vec<(u32, u32)> {
    let list = statement_list(&[Assign::new(Place::local(0), rvalue)]);
    statement_items(&list).expect("a list by the builder").as_slice().to_vec()
}

/// `_1.2`, as an operand.
fn operand() -> Operand {
    place().into()
}

fn place() -> Place {
    Place::local(1).field(2)
}

#[test]
fn each_kind() {
    let used = [(0, 1), (2, 2), USE, (0, 0), USE];
    for rvalue in [
        Rvalue::Use(operand()),
        Rvalue::Repeat(operand()),
        Rvalue::Ref(place()),
        Rvalue::RawPtr(place()),
        Rvalue::Cast(operand()),
        Rvalue::BinaryOp(operand(), Operand::Constant),
        Rvalue::UnaryOp(operand()),
        Rvalue::Aggregate(vec![Operand::Constant, operand(), Operand::Constant]),
    ] {
        assert_eq!(given(rvalue.clone()), used, "{rvalue:?}");
    }
    assert_eq!(given(Rvalue::Discriminant(place())), [(0, 1), (2, 2), READ, (0, 0), NOTE]);
    let pointed = [(0, 1), (2, 2), (1, 0), USE, (0, 0), USE];
    assert_eq!(given(Rvalue::PtrMetadata(operand())), pointed);
    for rvalue in [
        Rvalue::FakeRef(place()),
        Rvalue::Use(Operand::Constant),
        Rvalue::PtrMetadata(Operand::Constant),
        Rvalue::Aggregate(vec![]),
    ] {
        assert_eq!(given(rvalue.clone()), [(0, 0), USE], "{rvalue:?}");
    }
}

#[test]
fn operands_in_their_order() {
    let [first, second] = [1, 2].map(|local| Operand::from(Place::local(local)));
    let both = [(0, 1), USE, (0, 2), USE, (0, 0), USE];
    assert_eq!(given(Rvalue::BinaryOp(first.clone(), second.clone())), both);
    assert_eq!(given(Rvalue::Aggregate(vec![first, second])), both);
}

/// 2 comes before 11 and 11 before 10, each over the whole list; what is lent is zeros then.
#[test]
fn refusals_in_their_order() {
    let unknown = [9, 0, 1, 0, 1, 0, 0];
    let constant = [0, 0, 1, 0, 0];
    let cut = [0, 0, 1, 0, 1, 0];
    let no_place = [0, 0, 1, 1, 1, 0, 1, 0, 0];
    let huge = [0, 0, u32::MAX, u32::MAX];
    let refused = |lists: &[&[u32]]| {
        let mut out = [7; 9];
        let answer = statement_items_into(&lists.concat(), &mut out);
        assert_eq!(out, [0; 9]);
        answer.unwrap_err()
    };
    for damaged in [&cut[..], &no_place, &huge] {
        assert_eq!(refused(&[damaged]), Refusal::BadFunction);
        assert_eq!(refused(&[&unknown, damaged]), Refusal::BadFunction);
    }
    for barred in [&unknown[..], &constant] {
        assert_eq!(refused(&[barred]), Refusal::UnknownStatement);
        assert_eq!(refused(&[&[8, 0, 0, 1, 0, 1].repeat(9), barred]), Refusal::UnknownStatement);
    }
}

#[test]
fn the_buffer() {
    let list = [8, 0, 0, 1, 0, 1];
    let mut out = [7; 6];
    for (room, answer) in [(4, Err(Refusal::ShortStore)), (5, Ok(2)), (6, Ok(2))] {
        assert_eq!(statement_items_into(&list, &mut out[..room]), answer);
        assert_eq!(out[..5], if answer.is_ok() { [2, 0, 5, 1, 0] } else { [0, 0, 0, 0, 7] });
    }
    assert_eq!(out[5], 0);
    assert_eq!(statement_items_into(&[], &mut []), Err(Refusal::ShortStore));
    assert_eq!(statement_items_into(&[], &mut out), Ok(0));
    assert_eq!(out, [0; 6]);
}

/// No buffer that the crate makes is too short: the most items that a list can give, and one item more
/// than it may have.
#[test]
fn the_most_items() {
    let metadata = [6, 1, 1, 1, 0, 0, 1, 0, 0];
    let most = statement_items(&metadata.repeat(8192)).expect("16,384 items");
    assert_eq!(most.as_slice().len(), 40960);
    assert_eq!(statement_items(&metadata.repeat(8193)), Err(Refusal::BadFunction));
    let many = vec![Assign::new(Place::local(0), Rvalue::Use(Place::local(0).into())); 8193];
    assert!(Open::new().statements(&many[..8192]).is_ok());
    assert_eq!(Open::new().statements(&many).map(drop), Err(Refusal::BadFunction));
}

/// A block of statements is the block of the uses that they stand for.
#[test]
fn a_block() {
    let mut types = Types::new();
    let int = types.opaque();
    let [off, on] = [types.variant(0, &[]), types.variant(1, &[int])];
    let state = types.enumeration(&[off, on]);
    let [seen, place] = [Place::local(2), Place::local(1)];
    let field = place.clone().downcast(1).field(0);
    let read = Assign::new(seen.clone(), Rvalue::Discriminant(place.clone()));
    let copied = Assign::new(seen.clone(), Rvalue::Use(field.clone().into()));
    let record = |first: Open, second: Open| {
        let mut function = Function::new(int, &[state], &[int]);
        let [start, on, end] = function.blocks();
        function.write(start, first.switch(&seen).arm(1, on).otherwise(end));
        function.write(on, second.goto(end));
        function.write(end, Open::new().ret());
        function.record()
    };
    let by_statements = record(
        Open::new().statements(&[read]).expect("known"),
        Open::new().statements(&[copied]).expect("known"),
    );
    let by_uses =
        record(Open::new().read(&place).note(&seen), Open::new().used(&field).used(&seen));
    assert_eq!(by_statements, by_uses);
    let statements = ghost_statements(&types.record(), &by_statements).expect("accepted");
    assert_eq!(statements.to_string(), "at 15 fold _1 -\nat 8 fold _1 -\n");
}
