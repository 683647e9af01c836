//! A whole crate in one call (document 02, F-3): what is said of it, and the order of its refusals.

use oracle::{
    calls::{ghost_statements, Counts},
    case::Call,
    generate::{crates::words_of, limits::limits, random, rng::Rng, Kind, Size},
    refusal::Refusal::{self, *},
    whole_crate::{crate_statements, RefusedAt},
};

/// Document 01's worked example.
const TYPES: [u32; 8] = [2, 2, 0, 6, 0, 2, 0, 0];
const WORKED: [u32; 38] = [
    2, 1, 4, 12, 0, 1, 0, 7, 10, 11, 0, 1, 2, 3, 0, 2, 5, 8, 9, 10, 10, 0, 5, 10, 10, 11, 1, 0, 0,
    0, 0, 1, 2, 1, 0, 3, 3, 0,
];
/// _1.0 is used: `at 2 unfold _1 0`, a record of eight words.
const OPENS: [u32; 16] = [2, 0, 1, 4, 0, 1, 0, 0, 0, 2, 5, 11, 1, 0, 0, 0];
/// *_1 is used.
const WRONG: [u32; 16] = [2, 0, 1, 4, 0, 1, 0, 0, 0, 1, 5, 11, 1, 0, 0, 0];
const OPENED: [u32; 8] = [1, 3, 13, 16, 0, 2, 0, 1];

type Answer = Result<Vec<Counts>, RefusedAt>;

/// The answer, with the output.
fn call(words: &[u32], room: usize) -> (Answer, Vec<u32>) {
    let (mut forms, mut whats, mut out) = (vec![7; 512], vec![7; 512], vec![7; room]);
    let answer = crate_statements(&TYPES, words, &mut forms, &mut whats, &mut out);
    if answer.is_err() {
        assert!(forms.iter().chain(&whats).all(|&word| word == 0));
        assert!(out.iter().all(|&word| word == 0));
    }
    (answer, out)
}

fn refused(words: &[u32]) -> (Refusal, usize) {
    call(words, 40).0.unwrap_err()
}

fn crate_of(functions: &[&[u32]]) -> Vec<u32> {
    words_of(&functions.iter().map(|words| words.to_vec()).collect::<Vec<_>>())
}

#[test]
fn one_after_another() {
    let (answer, out) = call(&crate_of(&[&OPENS, &OPENS]), 18);
    assert_eq!(answer, Ok(vec![(1, 3), (1, 3)]));
    assert_eq!(out, [&OPENED[..], &OPENED, &[0, 0]].concat());
    assert_eq!(call(&[0], 2), (Ok(vec![]), vec![0, 0]));
}

#[test]
fn the_first_refusal_with_its_position() {
    assert_eq!(refused(&crate_of(&[&OPENS, &WRONG, &WRONG[..7]])), (WrongStep, 2));
    assert_eq!(refused(&crate_of(&[&WRONG, &OPENS])), (WrongStep, 1));
}

#[test]
fn a_record_cut_off_in_its_turn() {
    let words = crate_of(&[&OPENS, &OPENS]);
    for end in 1..words.len() {
        let position = if end < 17 { 1 } else { 2 };
        assert_eq!(refused(&words[..end]), (BadFunction, position), "{end}");
    }
    assert_eq!(refused(&crate_of(&[&[0; 4], &OPENS])), (BadFunction, 1));
    assert_eq!(refused(&crate_of(&[&[u32::MAX; 9], &OPENS])), (BadFunction, 1));
    let mut more = words;
    more[0] = 3;
    assert_eq!(refused(&more), (BadFunction, 3));
}

#[test]
fn position_0_in_order() {
    assert_eq!(refused(&[]), (BadFunction, 0));
    let many = crate_of(&[&OPENS[..]; 65]);
    assert_eq!(refused(&many), (BadFunction, 0));
    assert_eq!(refused(&[crate_of(&[&WRONG]), vec![0]].concat()), (BadFunction, 0));
    for (words, answer) in
        [(&many[..], (BadFunction, 0)), (&[0, 0], (BadTypes, 0)), (&[1], (BadTypes, 0))]
    {
        assert_eq!(crate_statements(&[], words, &mut [], &mut [], &mut []), Err(answer));
    }
}

#[test]
fn the_room_left() {
    let words = crate_of(&[&OPENS, &OPENS]);
    for (room, position) in [(0, 1), (7, 1), (8, 2), (15, 2)] {
        assert_eq!(call(&words, room).0, Err((ShortStore, position)));
    }
    assert!(call(&words, 16).0.is_ok());
}

/// The store of the worked example, which has a join point, is left only by the last function.
#[test]
fn the_last_store() {
    for (functions, form) in [([&WORKED[..], &OPENS], 0), ([&OPENS, &WORKED[..]], 2)] {
        let (mut forms, mut whats, mut out) = (vec![7; 512], vec![7; 512], vec![7; 40]);
        crate_statements(&TYPES, &crate_of(&functions), &mut forms, &mut whats, &mut out).unwrap();
        assert_eq!(forms[1], form);
    }
}

/// "The result equals calling each alone, in order, with the output room that the earlier ones left."
#[test]
fn each_alone() {
    let mut rng = Rng::new(3);
    let mut accepted = 0;
    for _ in 0..300 {
        let kind = Kind::Call(Call::CrateStatements);
        let case = random(&mut rng, kind, Size::Small, Some(0)).expect("accepted");
        let (mut forms, mut whats) = (vec![7; case.room[0]], vec![7; case.room[1]]);
        let mut out = vec![7; case.room[2]];
        let counts =
            crate_statements(&case.types, &case.list, &mut forms, &mut whats, &mut out).unwrap();
        let (mut at, mut used) = (1, 0);
        for counts in counts {
            let words = &case.list[at..];
            let end = 4 + words[0] + 2 * words[2] + 2 * words[3];
            let (mut forms, mut whats) = (vec![7; case.room[0]], vec![7; case.room[1]]);
            let mut room = vec![7; case.room[2] - used];
            let function = &words[..end as usize];
            // 'Alone' means with the array for the numbers long enough.
            let mut told = vec![7; counts.0];
            let alone = ghost_statements(
                &case.types,
                function,
                &mut forms,
                &mut whats,
                &mut room,
                &mut told,
            );
            assert_eq!(alone, Ok(counts));
            let length = 2 + 2 * counts.1;
            assert_eq!(room[..length], out[used..used + length]);
            (at, used) = (at + end as usize, used + length);
            accepted += 1;
        }
        assert_eq!(at, case.list.len());
        assert!(out[used..].iter().all(|&word| word == 0));
    }
    assert!(accepted > 300);
}

/// Every named case by its refusal: at each limit one is accepted and the next is not.
#[test]
fn limits_of_crates() {
    let cases = limits().into_iter().filter(|(_, case)| case.call == Call::CrateStatements);
    let mut refusals = [0; 12];
    cases.for_each(|(_, case)| refusals[case.refusal() as usize] += 1);
    assert!([0, 1, 2, 5, 10].iter().all(|&number| refusals[number] > 0), "{refusals:?}");
}
