//! The cases round each limit and those of the requests: which are refused, and with what. Those of
//! lists of statements are in `statements.rs`, of crates in `crates.rs`, of merged types in `merge.rs`,
//! of the order of items in `requests.rs`.

use oracle::{case::Call, generate::limits::limits};

/// All others are accepted.
const REFUSED: [(u32, &[&str]); 8] = [
    (
        1,
        &[
            "types 4097",
            "parts 16385",
            "text with a head \"4294967295 \"",
            "text of bad types and a function cut off",
            "text of bad types alone",
            "text of sizes that don't fit in 32 bits",
            "F-4, no numbers lent, and bad types",
        ],
    ),
    (
        2,
        &[
            "locals 0",
            "locals 257",
            "arguments 3 of 3 locals",
            "blocks 257 in a chain",
            "join points 257 less one",
            "items 16385",
            "target 2 of 2 blocks",
            "text of 4097 words",
            "text with a tail \" 0\"",
            "text with a tail \" 00\"",
            "text with a tail \"\\t\"",
            "text with a tail \"\\r\"",
            "text with a tail \" -0\"",
            "text with a tail \" 4294967295\"",
            "text with a tail \" 4294967296\"",
            "text with a tail \" x\"",
            "text with a head \"4294967296 \"",
            "text with a head \"\\t\"",
            "text with a head \"+\"",
            "text with a head \"1.\"",
            "text of bad types and a spare word",
            "text of good types alone",
            "text of a function's sizes cut off",
            "text of a function's sizes that don't fit in 32 bits",
            "F-4, no numbers lent, and a bad function",
        ],
    ),
    (
        3,
        &[
            "state of 0 locals",
            "state of 257 locals",
            "state of depth 65",
            "entry 1 of a state of 2 nodes, form: true",
            "entry 1 of a state of 2 nodes, form: false",
            "entry 2 of a state of 2 nodes, form: true",
            "entry 2 of a state of 2 nodes, form: false",
            "entry 511 of a state of 2 nodes, form: true",
            "entry 511 of a state of 2 nodes, form: false",
            "count 0 of 2 locals",
            "count 1 of 2 locals",
            "count 3 of 2 locals",
            "count 512 of 2 locals",
            "count 513 of 2 locals",
            "count 18446744073709551615 of 2 locals",
            "2 arguments of 2 locals",
        ],
    ),
    (
        4,
        &[
            "root 2 of 2 locals",
            "fields 64",
            "derefs 64",
            "fields 64 then an index",
            "elements 129",
            "elements 129 with an index",
            "ending downcast, index before: false",
            "projection of 64 fields",
            "projection of 65 fields",
            "projection of 129 elements",
            "projection ending in downcast",
            "downcast of 64 fields",
            "downcast of 65 fields",
            "downcast of 129 elements",
            "downcast ending in downcast",
            "fold of 65 fields",
            "fold of 129 elements",
            "fold ending in downcast",
            "unfold of 64 fields",
            "unfold of 65 fields",
            "unfold of 129 elements",
            "F-4, the last of 129 elements opens",
            "F-4, the last of 64 fields opens",
            "F-4, no numbers lent, and a bad place",
        ],
    ),
    (
        5,
        &[
            "a wrong step behind the 512th node",
            "F-1, a match on an array, no index",
            "F-1, a match on a struct that holds an array",
            "F-1, a match on an index at a struct",
            "F-1, a match on an index at a field that is no array",
            "F-1, a match on an element with no downcast, its enum folded by then",
            "F-1, a match on an element with no downcast, its enum at another variant by then",
            "F-4, no numbers lent, and a wrong step",
            "F-4, no numbers lent, and a wrong step and a short buffer",
        ],
    ),
    (6, &["F-1, a match on an element, its enum at another variant by then"]),
    (8, &["arm 4294967293", "F-1, a match on an enum noted in an element, any values"]),
    (
        9,
        &[
            "blocks 256 in a chain with 513 nodes",
            "nodes 513 at Use",
            "nodes 513 at Walk",
            "nodes 513 at Arm",
            "nodes 513 at Otherwise",
            "nodes 513 at Join",
            "nodes 513 at Loop",
            "projection to 513 nodes",
            "fold to 513 nodes",
            "unfold to 513 nodes",
            "join to 513 nodes",
        ],
    ),
];

const SHORT: [&str; 14] = [
    "store forms 511",
    "store whats 511",
    "output 19",
    "numbers 2",
    "F-4, 0 numbers for 3 statements",
    "F-4, 1 numbers for 3 statements",
    "F-4, 2 numbers for 3 statements",
    "F-4, 2 numbers for 3 statements, and a short buffer",
    "F-4, 3 numbers for 3 statements, and a short buffer",
    "F-4, no numbers lent, and a short store",
    "output 0 for no statement",
    "output 1 for no statement",
    "text of 17 join points",
    "text of 1025 entries",
];

fn expected(name: &str) -> u32 {
    let cut = name.strip_prefix("text cut to ").and_then(|rest| rest.strip_suffix(" words"));
    let into = name.split_once(" into ").and_then(|(_, rest)| rest.strip_suffix(" words"));
    if let Some(words) = cut.map(|words| words.parse::<usize>().unwrap()) {
        // The example has 8 words of types and 38 of the function.
        return match words {
            0..=7 => 1,
            8..=45 => 2,
            _ => 0,
        };
    }
    if let Some(room) = into.map(|room| room.parse::<usize>().unwrap()) {
        return if room < 10 { 10 } else { 0 };
    }
    if SHORT.contains(&name) {
        return 10;
    }
    let found = REFUSED.iter().find(|(_, names)| names.contains(&name));
    found.map_or(0, |&(number, _)| number)
}

#[test]
fn each_limit() {
    let mut cases = limits();
    // Those have tests of their own.
    let others = [Call::StatementItems, Call::CrateStatements, Call::MergeTypes];
    cases.retain(|(name, case)| !others.contains(&case.call) && !name.starts_with("F-7, "));
    for (name, case) in &cases {
        assert_eq!(case.refusal(), expected(name), "{name}");
    }
    // Every name above is one of a case.
    let names = REFUSED.iter().flat_map(|(_, names)| names.iter()).chain(&SHORT);
    for name in names {
        assert!(cases.iter().any(|(case, _)| case == name), "{name}");
    }
}

#[test]
fn the_unmarked_limits() {
    let number = |name: &str| {
        let cases = limits();
        cases.iter().find(|(case, _)| case == name).expect("a case").1.refusal()
    };
    assert_eq!([number("nodes 512 at Use"), number("nodes 513 at Use")], [0, 9]);
    assert_eq!([number("fields 63"), number("fields 64")], [0, 4]);
}
