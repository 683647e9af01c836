//! A whole crate in one call: each function's statements, and the refusals by position.

use hirvoksne::{
    crate_statements, crate_statements_into, crate_words, ghost_statements, CrateRefusal, Refusal,
    Statement, Statements, Told, SHARE,
};

/// Document 01's worked example.
const TYPES: [u32; 8] = [2, 2, 0, 6, 0, 2, 0, 0];
const WORKED: [u32; 38] = [
    2, 1, 4, 12, 0, 1, 0, 7, 10, 11, 0, 1, 2, 3, 0, 2, 5, 8, 9, 10, 10, 0, 5, 10, 10, 11, 1, 0, 0,
    0, 0, 1, 2, 1, 0, 3, 3, 0,
];
/// Uses `_1.0`.
const OPENS: [u32; 16] = [2, 0, 1, 4, 0, 1, 0, 0, 0, 2, 5, 11, 1, 0, 0, 0];
/// Uses `*_1`.
const WRONG: [u32; 16] = [2, 0, 1, 4, 0, 1, 0, 0, 0, 1, 5, 11, 1, 0, 0, 0];

/// The lines of each function, without what the numbers beside a record tell.
fn texts(statements: &[Statements]) -> Vec<Vec<String>> {
    let text =
        |statement: &Statement| Statement { told: Told::Unknown, ..statement.clone() }.to_string();
    statements.iter().map(|list| list.iter().map(text).collect()).collect()
}

fn refused(functions: &[&[u32]]) -> (usize, Refusal) {
    let CrateRefusal { position, refusal } = crate_statements(&TYPES, functions).unwrap_err();
    (position, refusal)
}

#[test]
fn each_as_alone() {
    let functions: [&[u32]; 3] = [&OPENS, &WORKED, &OPENS];
    let together = crate_statements(&TYPES, &functions).unwrap();
    let alone = functions.map(|function| ghost_statements(&TYPES, function).unwrap());
    assert_eq!(texts(&together), texts(&alone));
    for (one, other) in together.iter().zip(&alone) {
        assert_eq!((one.record(), one.join_points()), (other.record(), other.join_points()));
    }
}

/// No numbers stand beside a crate's records.
#[test]
fn no_numbers() {
    let together = crate_statements(&TYPES, &[&OPENS[..], &WORKED]).unwrap();
    for list in &together {
        assert_eq!(list.numbers(), []);
        assert!(list.iter().all(|statement| statement.told == Told::Unknown));
    }
    assert_eq!(together[1].to_string(), "at 2 unfold _1\nat 8 fold _1\nat 9 unfold _1\n");
}

/// Only the last function's states are kept.
#[test]
fn stored() {
    let alone = ghost_statements(&TYPES, &WORKED).unwrap();
    let functions: [&[u32]; 2] = [&OPENS, &WORKED];
    let last = crate_statements(&TYPES, &functions).unwrap().pop().unwrap();
    assert_eq!(last.record(), alone.record());
    assert_eq!(last.stored(3), alone.stored(3));
    assert!(last.stored(3).is_some());
    let functions: [&[u32]; 2] = [&WORKED, &OPENS];
    let together = crate_statements(&TYPES, &functions).unwrap();
    assert_eq!(together[0].join_points(), [3]);
    assert!(together[0].stored(3).is_none());
}

#[test]
fn no_function() {
    assert_eq!(crate_statements::<&[u32]>(&TYPES, &[]), Ok(vec![]));
    let refused = crate_statements::<&[u32]>(&[], &[]).unwrap_err();
    assert_eq!((refused.position, refused.refusal), (0, Refusal::BadTypes));
    assert_eq!(refused.to_string(), Refusal::BadTypes.to_string());
}

#[test]
fn too_many() {
    let functions = vec![OPENS; 65];
    assert_eq!(crate_statements(&TYPES, &functions[..64]).map(|lists| lists.len()), Ok(64));
    // Before the types are looked at.
    let refused = crate_statements(&[], &functions).unwrap_err();
    assert_eq!((refused.position, refused.refusal), (0, Refusal::BadFunction));
    assert!(refused.to_string().starts_with("bad function: "));
}

#[test]
fn by_position() {
    assert_eq!(refused(&[&OPENS, &WRONG, &OPENS]), (2, Refusal::WrongStep));
    assert_eq!(refused(&[&WRONG, &OPENS[..7]]), (1, Refusal::WrongStep));
}

/// A record that is shorter or longer than its sizes say is refused at its own position, whatever stands
/// behind it.
#[test]
fn of_another_length() {
    let longer = [&OPENS[..], &OPENS].concat();
    for odd in [&OPENS[..15], &OPENS[..3], &[], &longer, &[u32::MAX; 4]] {
        assert_eq!(refused(&[&OPENS, odd, &OPENS]), (2, Refusal::BadFunction), "{odd:?}");
        assert_eq!(refused(&[&OPENS, odd]), (2, Refusal::BadFunction), "{odd:?}");
    }
    // Words that one record lacks stand at the start of the next.
    let (head, tail) = OPENS.split_at(9);
    assert_eq!(refused(&[head, tail]), (1, Refusal::BadFunction));
}

#[test]
fn over_what_is_lent() {
    let words = crate_words(&[&OPENS[..], &WORKED]);
    let (mut forms, mut whats) = (vec![7; SHARE], vec![7; SHARE]);
    let opened = [1, 3, 13, 16, 0, 2, 0, 1];
    let worked = ghost_statements(&TYPES, &WORKED).unwrap();
    let long = opened.len() + worked.record().len();
    let mut out = vec![7; long + 1];
    crate_statements_into(&TYPES, &words, &mut forms, &mut whats, &mut out).unwrap();
    assert_eq!(out, [&opened[..], worked.record(), &[0]].concat());
    let stored = worked.stored(3).unwrap();
    assert_eq!((&forms[..], &whats[..]), (stored.forms, stored.whats));

    let mut short = vec![7; long - 1];
    let refused = crate_statements_into(&TYPES, &words, &mut forms, &mut whats, &mut short);
    assert_eq!(refused, Err(CrateRefusal { position: 2, refusal: Refusal::ShortStore }));
    assert!(forms.iter().chain(&whats).all(|&word| word == 0));
    assert!(short.iter().all(|&word| word == 0));

    let spare = [words, vec![0]].concat();
    let refused = crate_statements_into(&TYPES, &spare, &mut forms, &mut whats, &mut out);
    assert_eq!(refused, Err(CrateRefusal { position: 0, refusal: Refusal::BadFunction }));
}
