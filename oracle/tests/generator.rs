//! The generator gives what it is asked for, and the same for the same seed.

use oracle::{
    case::{Call, Case},
    function::Body,
    generate::{random, rng::Rng, whole::short_case, Kind, Size},
    types::Types,
};

fn some(kind: Kind, size: Size, want: u32, count: usize) -> Vec<Case> {
    let mut rng = Rng::new(u64::from(want) + 100);
    (0..count).map(|_| random(&mut rng, kind, size, Some(want)).expect("such a case")).collect()
}

/// Which refusals each call can give.
const GIVES: [(Call, &[u32]); 16] = [
    (Call::Whole, &[0, 1, 2, 4, 5, 6, 8, 9, 10]),
    (Call::Types, &[0, 1]),
    (Call::Function, &[0, 1, 2, 4]),
    (Call::Ghosts, &[0, 1, 2, 4, 5, 6, 8, 9]),
    (Call::Projection, &[0, 1, 3, 4, 5, 6, 9]),
    (Call::Downcast, &[0, 1, 3, 4, 5, 6, 9]),
    (Call::Fold, &[0, 1, 3, 4, 5, 6, 9]),
    (Call::Unfold, &[0, 1, 3, 4, 5, 6, 7, 9]),
    (Call::Join, &[0, 1, 3, 9]),
    (Call::JoinNodes, &[0, 1, 3]),
    (Call::CollectFoldUnfolds, &[0, 1, 3, 6, 7, 10]),
    (Call::CollectUnfolds, &[0, 1, 3, 7, 10]),
    (Call::CollectFoldsAtRet, &[0, 1, 3, 10]),
    (Call::StatementItems, &[0, 2, 10, 11]),
    (Call::CrateStatements, &[0, 1, 2, 4, 5, 6, 8, 9, 10]),
    (Call::MergeTypes, &[0, 1, 10, 12]),
];

#[test]
fn every_refusal_of_every_call() {
    for (call, refusals) in GIVES {
        for size in [Size::Small, Size::Normal] {
            for &want in refusals {
                for case in some(Kind::Call(call), size, want, 10) {
                    assert_eq!(case.refusal(), want);
                    assert_eq!(case.call, call);
                }
            }
        }
    }
    some(Kind::Call(Call::Ghosts), Size::Normal, 10, 10);
}

/// Of the whole-function cases: numbers exactly enough and more; one too few, none at all, and enough of
/// all else.
#[test]
fn lengths_for_the_numbers() {
    let kind = Kind::Call(Call::Whole);
    let accepted = some(kind, Size::Small, 0, 300);
    let exact = |case: &&Case| case.answer().result.is_ok_and(|counts| counts[0] == case.room[3]);
    let exactly = accepted.iter().filter(exact).count();
    assert!((30..270).contains(&exactly), "{exactly}");
    let mut short = [0; 2];
    for case in some(kind, Size::Small, 10, 300) {
        let mut more = case.clone();
        more.room[3] = 1 << 10;
        if let Ok(counts) = more.answer().result {
            short[0] += usize::from(case.room[3] + 1 == counts[0]);
            short[1] += usize::from(case.room[3] == 0);
        }
    }
    assert!(short.iter().all(|&count| count > 10), "{short:?}");
}

#[test]
fn small_cases_are_small() {
    for want in [0, 5, 6, 8, 10] {
        for case in some(Kind::Call(Call::Whole), Size::Small, want, 200) {
            let genv = Types::read(&case.types).unwrap();
            assert!(genv.len() <= 14, "{} types", genv.len());
            let body = Body::read(&genv, &case.function).unwrap();
            assert!(body.basic_blocks.len() <= 6);
            assert!(case.function[3] <= 60, "{} items", case.function[3]);
        }
    }
    for case in some(Kind::Call(Call::Whole), Size::Small, 9, 200) {
        assert!(case.function[3] <= 80 && case.types.len() < 140, "{}", case.types.len());
    }
}

#[test]
fn the_usual_mix() {
    let mut rng = Rng::new(3);
    let mut counts = [0; 11];
    for _ in 0..2000 {
        let case = random(&mut rng, Kind::Call(Call::Whole), Size::Normal, None).expect("a case");
        counts[case.refusal() as usize] += 1;
    }
    assert!(counts[0] > 1000, "{counts:?}");
    for number in [1, 2, 4, 5, 6, 8, 9, 10] {
        assert!(counts[number] > 30, "{counts:?}");
    }
    assert_eq!([counts[3], counts[7]], [0, 0]);
}

#[test]
fn the_same_seed_gives_the_same_cases() {
    let kinds = ["whole", "types", "function", "items", "ghosts", "statement_items", "merge_types"];
    for kind in kinds.into_iter().chain(["states"]) {
        let kind = Kind::from_name(kind).expect("a kind");
        let cases = || {
            let mut rng = Rng::new(7);
            (0..50).map(|_| random(&mut rng, kind, Size::Normal, None)).collect::<Vec<_>>()
        };
        assert_eq!(cases(), cases());
    }
}

#[test]
fn short_cases_by_number() {
    let codes = |number: u64| {
        let function = short_case(number).function;
        let items = function[3] as usize;
        function[7..7 + items].to_vec()
    };
    assert_eq!(codes(0), [0]);
    assert_eq!(codes(13), [13]);
    assert_eq!(codes(14), [0, 0]);
    assert_eq!(codes(14 + 195), [13, 13]);
    assert_eq!(codes(14 + 196), [0, 0, 0]);
    // Up to four codes: the three enders alone, [place use] and an ender, a switch, an arm.
    let count = 14 + 14 * 14 + 14 * 14 * 14 + 14 * 14 * 14 * 14;
    let good = (0..count).filter(|&number| short_case(number).refusal() != 2);
    let good: Vec<Vec<u32>> = good.map(codes).collect();
    assert_eq!(good[..3], [[10], [11], [12]]);
    assert!(good.contains(&vec![8, 10]));
    assert!(good.contains(&vec![0, 8, 10]));
    assert!(good.contains(&vec![8, 9, 10, 10]));
    assert!(good.contains(&vec![0, 4, 5, 11]));
    // [10] [11] [12]; [8 10]; [0 8 10], [0 5 ender]; of four [8 9 10 10], [0 elem 8 10],
    // [0 elem 5 ender], [0 5 8 10].
    assert_eq!(good.len(), 3 + 1 + (1 + 3) + (1 + 4 + 4 * 3 + 1));
}
