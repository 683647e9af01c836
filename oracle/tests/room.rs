//! The source's way, without refusal 9: only that refusal shows. And how many states are copied.

mod common;

use common::*;
use oracle::{
    calls::{self, Counts},
    case::Call,
    fold_unfold::Copies,
    generate::{random, rng::Rng, Kind, Size},
    refusal::Refusal,
    state::MAX_NODES,
    types::TyKind,
};

/// The answer, and what is left in all that was lent.
type Left = (Result<Counts, Refusal>, [Vec<u16>; 2], [Vec<u32>; 2]);

fn left(is_limited: bool, types: &[u32], function: &[u32]) -> Left {
    let (mut forms, mut whats) = (vec![1; 16 * MAX_NODES], vec![1; 16 * MAX_NODES]);
    let (mut out, mut told) = (vec![1; 1 << 14], vec![1; 1 << 12]);
    let call = if is_limited { calls::ghost_statements } else { calls::ghost_statements_unlimited };
    let answer = call(types, function, &mut forms, &mut whats, &mut out, &mut told);
    (answer, [forms, whats], [out, told])
}

/// Three locals, of which a struct is opened, so that there are 512 nodes or 513, and folded again.
#[test]
fn a_full_state() {
    for (fields, refusal) in [(509, None), (510, Some(Refusal::StateFull))] {
        let types = types(&[(TyKind::Opaque, &[]), (TyKind::Struct, &vec![0; fields])]);
        let blocks = ["use _1.0; use _1; goto 1", "switch 0>1 2", "return"];
        let words = function(&[0, 1, 0], "", &blocks).words();
        let [limited, unlimited] = [true, false].map(|is_limited| left(is_limited, &types, &words));
        assert_eq!(limited.0.err(), refusal);
        assert_eq!(unlimited.0, Ok((2, 6)));
        assert_eq!(limited == unlimited, refusal.is_none());
    }
}

#[test]
fn all_else_is_the_same() {
    let mut rng = Rng::new(23);
    let [mut accepted, mut refused] = [0, 0];
    for _ in 0..1000 {
        let case = random(&mut rng, Kind::Call(Call::Whole), Size::Normal, None).expect("a case");
        let limited = left(true, &case.types, &case.function);
        match limited.0 {
            Err(Refusal::StateFull) => continue,
            Ok(_) => accepted += 1,
            Err(_) => refused += 1,
        }
        let unlimited = left(false, &case.types, &case.function);
        assert!(limited == unlimited, "{:?} and {:?}", limited.0, unlimited.0);
    }
    assert!(accepted > 100 && refused > 100, "{accepted} {refused}");
}

#[test]
fn copies() {
    let types = types(&[(TyKind::Opaque, &[]), (TyKind::Struct, &[0])]);
    let copies = |texts: &[&str]| {
        calls::copies(&types, &function(&[0, 1], "", texts).words()).expect("accepted")
    };
    // A diamond: four blocks and four target items in each pass.
    let diamond = copies(&["switch 0>1 2", "goto 3", "use _1.0; goto 3", "return"]);
    assert_eq!(diamond, Copies { entered: 8, exits: 8 });
    assert_eq!(diamond.all(), 16);
    // A loop opens what was folded before it, so that the first pass takes it and what is behind twice.
    let loops = copies(&["use _1; goto 1", "use _1.0; switch 0>1 2", "goto 3", "return"]);
    assert_eq!(loops, Copies { entered: 4 + 3 + 4, exits: 4 + 3 + 4 });
}
