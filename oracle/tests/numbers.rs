//! Where did the opening begin? (document 02, F-4), by the points of its reading.

mod common;

use common::*;
use oracle::{
    calls,
    case::Call,
    env::{Env, ProjResult},
    fold_unfold::{add_ghost_statements, Room},
    function::{BasicBlockData, Body, Statement, TerminatorKind},
    generate::{limits::limits, random, rng::Rng, Kind, Size},
    ghost_statements::{GhostStatement, GhostStatements, Point, Told, DASH},
    ghosts::ghosts,
    place::Place,
    replay::Replay,
    state::MAX_NODES,
    types::{TyKind, Types},
};

const PAIR: u32 = 1;
const REF: u32 = 2;
const ENUM: u32 = 5;
const OUTER: u32 = 7;
const OUTMOST: u32 = 8;

/// 0 opaque, 1 struct(0, 0), 2 mutable reference to 1, 3 variant value 0, 4 variant value 1 (1),
/// 5 enum(3, 4), 6 array, 7 struct(2, 6), 8 struct(7).
fn words() -> Vec<u32> {
    types(&[
        (TyKind::Opaque, &[]),
        (TyKind::Struct, &[0, 0]),
        (TyKind::MutRef, &[PAIR]),
        (TyKind::Variant, &[0]),
        (TyKind::Variant, &[1, PAIR]),
        (TyKind::Enum, &[3, 4]),
        (TyKind::Array, &[]),
        (TyKind::Struct, &[REF, 6]),
        (TyKind::Struct, &[OUTER]),
    ])
}

fn blocks(locals: &[u32], entry: &str, texts: &[&str]) -> Vec<String> {
    run(&words(), &function(locals, entry, texts)).expect("accepted")
}

/// Uses in one block, which then stops; local 1 has the type.
fn used(ty: u32, places: &[&str]) -> Vec<String> {
    let uses: String = places.iter().map(|place| format!("use {place}; ")).collect();
    blocks(&[0, ty], "", &[&(uses + "stop")])
}

/// The answer of a projection of `_1`, whose tree is given.
fn project(ty: u32, before: &str, at: &str) -> (ProjResult, usize) {
    let words = words();
    let genv = read_types(&words);
    let (ops, args) = items(at);
    let before = state(&genv, &[0, ty], &["F", before]);
    calls::projection(&words, &[0, ty], &before, &ops, &args).0.expect("accepted")
}

/// The answer, the counts first, and what is left in the array for the numbers.
fn call(function: &[u32], out: usize, told: usize) -> (Result<(usize, usize), u32>, Vec<u32>) {
    let (mut forms, mut whats) = (vec![7; MAX_NODES], vec![7; MAX_NODES]);
    let (mut out, mut told) = (vec![7; out], vec![7; told]);
    let answer =
        calls::ghost_statements(&words(), function, &mut forms, &mut whats, &mut out, &mut told);
    if answer.is_err() {
        assert!(forms.iter().chain(&whats).all(|&entry| entry == 0));
        assert!(out.iter().chain(&told).all(|&word| word == 0));
    }
    (answer.map_err(|refusal| refusal.number()), told)
}

#[test]
fn point_1_elements_before_the_step() {
    // The root isn't counted, downcasts are.
    assert_eq!(used(PAIR, &["_1.0"]), ["at 2 unfold _1 0"]);
    assert_eq!(used(OUTER, &["_1.0", "_1.0.*"])[1], "at 6 unfold _1.0 1");
    assert_eq!(used(PAIR, &["_1.0", "_1", "_1.as0.as0.0"])[2], "at 9 unfold _1.as0.as0 0");
    assert_eq!(used(OUTER, &["_1.0", "_1.as0.0.*.0"])[1], "at 8 unfold _1.as0.0.* 2");
    // As large as can be, and never 255.
    let downcasts = ".as0".repeat(126);
    let lines = used(OUTMOST, &["_1.0", &format!("_1{downcasts}.0.0")]);
    assert_eq!(lines[1], format!("at 132 unfold _1{downcasts}.0 127"));
}

#[test]
fn point_1_at_most_the_elements_of_the_printed_place() {
    for (number, place) in random_numbers(1) {
        assert!(number < 128 && number <= place.projection.len(), "{place} {number}");
    }
}

#[test]
fn point_2_the_first_of_several() {
    assert_eq!(used(OUTMOST, &["_1.0.0.*.1"]), ["at 5 unfold _1.0.0.* 0"]);
    assert_eq!(used(OUTMOST, &["_1.0", "_1.0.0.*.1"])[1], "at 8 unfold _1.0.0.* 1");
    assert_eq!(used(OUTMOST, &["_1.0.0", "_1.0.0.*.1"])[1], "at 9 unfold _1.0.0.* 2");
    assert_eq!(used(OUTMOST, &["_1.0.0.*", "_1.0.0.*.1"])[1], "at 10 unfold _1.0.0.* 3");
}

#[test]
fn point_3_a_downcast_that_opens() {
    assert_eq!(used(ENUM, &["_1.as1.0.0"]), ["at 4 unfold _1.as1.0 0"]);
    // Open at variant 1, its field folded.
    assert_eq!(used(ENUM, &["_1.as1.0", "_1.as1.0.0"])[1], "at 8 unfold _1.as1.0 2");
    assert_eq!(project(ENUM, "F", "_1.as1.0.0"), (ProjResult::Unfold(2), 0));
    assert_eq!(project(ENUM, "V1(F)", "_1.as1.0.0"), (ProjResult::Unfold(2), 2));
    assert_eq!(project(ENUM, "V1(F)", "_1.0.0"), (ProjResult::Unfold(1), 1));
}

#[test]
fn point_4_an_index_cuts() {
    assert_eq!(used(OUTMOST, &["_1.0.1.[].*.3"]), ["at 6 unfold _1.0 0"]);
    assert_eq!(used(OUTMOST, &["_1.0", "_1.0.1.[].as9"])[1..], ["at 8 unfold _1.0 1"]);
    // The walked length is what stands before it, and reaches no statement.
    assert_eq!(project(OUTMOST, "S(S(F,F))", "_1.0.1.[].*.3"), (ProjResult::None, 2));
    assert_eq!(project(6, "F", "_1.[].[].0"), (ProjResult::None, 0));
    assert_eq!(used(OUTMOST, &["_1.0.1", "_1.0.1.[]"]).len(), 1);
}

#[test]
fn point_5_in_all_three_answers() {
    assert_eq!(project(OUTER, "F", "_1"), (ProjResult::None, 0));
    assert_eq!(project(OUTER, "S(*F,F)", "_1.0.*"), (ProjResult::None, 2));
    assert_eq!(project(OUTER, "S(*S(F,F),F)", "_1.0.*"), (ProjResult::Fold, 2));
    assert_eq!(project(OUTER, "S(*S(F,F),F)", "_1"), (ProjResult::Fold, 0));
    assert_eq!(project(OUTER, "S(*F,F)", "_1.0.*.1"), (ProjResult::Unfold(2), 2));
    assert_eq!(project(OUTER, "S(F,F)", "_1.0.*.1"), (ProjResult::Unfold(2), 1));
}

/// The walk's own answer, where it ends in downcast too.
#[test]
fn point_5_the_walk() {
    let words = words();
    let genv = read_types(&words);
    let walk = |ty: u32, before: &str, at: &str| {
        let mut env = env(&genv, &[0, ty], &["F", before]);
        let walk = env.ensure_unfolded(&genv, &place(at)).unwrap();
        (walk.walked, walk.passed(), walk.modified())
    };
    assert_eq!(walk(ENUM, "F", "_1.as1"), (1, 0, true));
    assert_eq!(walk(ENUM, "V1(F)", "_1.as1"), (1, 1, false));
    assert_eq!(walk(OUTER, "S(*F,F)", "_1.0.*.1"), (3, 2, true));
    assert_eq!(walk(OUTER, "S(*F,F)", "_1.1.[].1"), (1, 1, false));
    assert_eq!(walk(OUTER, "F", "_1"), (0, 0, false));
}

#[test]
fn point_6_what_is_printed() {
    // A fold from a walk: nothing behind its place, and 0 in the array.
    assert_eq!(used(PAIR, &["_1.0", "_1"]), ["at 2 unfold _1 0", "at 4 fold _1"]);
    // Uses at entry are walks.
    let entry = "use _1.0; use _1.0.*; use _1.0; use _1.0.*";
    let lines = blocks(&[0, OUTER], entry, &["stop"]);
    let walked = ["entry unfold _1 0", "entry unfold _1.0 1", "entry fold _1.0"];
    assert_eq!(lines, [&walked[..], &["entry unfold _1.0 1"]].concat());
    let draft = function(&[0, OUTER], entry, &["stop"]);
    assert_eq!(call(&draft.words(), 100, 5), (Ok((4, 15)), vec![0, 1, 0, 1, 0]));
}

#[test]
fn point_7_collected_at_entry() {
    // The loop opens _1: it is collected at entry, behind what the entry's uses give.
    let lines = blocks(&[0, PAIR], "use _1.0; use _1", &["use _1.0; goto 0"]);
    assert_eq!(lines, ["entry unfold _1 0", "entry fold _1", "entry unfold _1 -"]);
    // Behind a mutable reference the loop folds.
    let lines = blocks(&[0, REF], "use _1.*.1", &["use _1.*; goto 0"]);
    assert_eq!(lines, ["entry unfold _1.* 0", "entry fold _1.* -"]);
    // No join point: nothing is collected.
    let lines = blocks(&[0, REF], "use _1.*.1", &["use _1.*; stop"]);
    assert_eq!(lines, ["entry unfold _1.* 0", "at 6 fold _1.*"]);
}

#[test]
fn point_8_from_a_walk_and_collected() {
    let locals = [0, OUTMOST, PAIR, PAIR];
    let texts = ["use _1.0; note _1.0.0 _2.0; switch _3.1 0>1 1", "return"];
    let walked =
        ["at 2 unfold _1 0", "at 6 unfold _1.0 1", "at 9 unfold _2 0", "at 12 unfold _3 0"];
    assert_eq!(blocks(&locals, "", &texts), walked);
    // A return after a mutable reference was opened.
    let lines = blocks(&[0, REF], "", &["use _1.*.0; return"]);
    assert_eq!(lines, ["at 3 unfold _1.* 0", "at 4 fold _1.* -"]);
    // A plain target, and the arms and the otherwise target of a match.
    let texts = ["switch 0>1 2", "use _1.0; goto 3", "goto 3", "stop"];
    assert_eq!(blocks(&[0, PAIR], "", &texts), ["at 6 unfold _1 0", "at 8 unfold _1 -"]);
    let lines = blocks(&[0, ENUM], "", &["note _1 _0; switch _0 0>1 1>1 1", "stop"]);
    assert_eq!(lines, ["at 7 fold _1 -", "at 9 fold _1 -"]);
}

#[test]
fn point_8_of_the_kind_of_item() {
    let mut told = [0; 3];
    for (_, body, stmts) in accepted(2, 1500) {
        for (point, stmt, what) in stmts.iter() {
            told[match what {
                Told::Passed(_) => 0,
                Told::Nothing => 1,
                Told::Collected => 2,
            }] += 1;
            let Point::BeforeItem(item) = *point else { continue };
            let targets = body.basic_blocks.iter().flat_map(BasicBlockData::targets);
            let returns = body.basic_blocks.iter().filter_map(|data| {
                matches!(data.terminator.kind, TerminatorKind::Return)
                    .then_some(data.terminator.item)
            });
            let mut edges = targets.map(|target| target.item).chain(returns);
            assert_eq!(edges.any(|at| at == item), *what == Told::Collected, "{point} {stmt}");
        }
    }
    assert!(told.iter().all(|&count| count > 500), "{told:?}");
}

#[test]
fn point_9_one_entry_a_statement() {
    // An unfold and a fold from uses, and a fold at return.
    let draft = function(&[0, REF], "", &["use _1.*.0; use _1.*; return"]).words();
    assert_eq!(call(&draft, 26, 3), (Ok((3, 12)), vec![0, 0, DASH]));
    assert_eq!(call(&draft, 26, 5), (Ok((3, 12)), vec![0, 0, DASH, 0, 0]));
    for n in 0..3 {
        assert_eq!(call(&draft, 26, n), (Err(10), vec![0; n]));
    }
    assert_eq!(call(&draft, 25, 3), (Err(10), vec![0; 3]));
    assert_eq!(call(&draft, 25, 2), (Err(10), vec![0; 2]));
    // None for no statement.
    let quiet = function(&[0, REF], "", &["return"]).words();
    assert_eq!(call(&quiet, 2, 0), (Ok((0, 0)), vec![]));
    assert_eq!(call(&quiet, 2, 2), (Ok((0, 0)), vec![0; 2]));
    // Found last: after the run.
    let wrong = function(&[0, REF], "", &["use _1.*.0; use _1.0; return"]).words();
    assert_eq!(call(&wrong, 26, 0), (Err(5), vec![]));
    assert_eq!(call(&wrong, 0, 4), (Err(5), vec![0; 4]));
    assert_eq!(call(&wrong[1..], 26, 4), (Err(2), vec![0; 4]));
}

/// The array's entries are words as the record's are. Collecting calls and carrying out give none.
#[test]
fn point_10_the_whole_function_call_alone() {
    let words = words();
    let genv = read_types(&words);
    let open = state(&genv, &[REF], &["*S(F,F)"]);
    let mut out = [7; 16];
    let counts = calls::collect_unfolds(&words, &[REF], &open, &mut out);
    assert_eq!(counts, Ok((1, 4)));
    assert_eq!(out[..10], [1, 4, 14, 16, 0, 1, 0, 0, 0, 0]);
    // What they collect is printed with `-`.
    assert_eq!(collected_lines(&out), ["entry unfold _0.* -"]);
    let (ops, args) = items("_0.*");
    let folded = state(&genv, &[REF], &["F"]);
    assert_eq!(calls::unfold(&words, &[REF], &folded, &ops, &args), (Ok(()), open));
}

#[test]
fn point_11_ghosts_lends_enough() {
    let text = |uses: usize, more: &str| {
        let uses: String =
            (0..uses).map(|i| if i % 2 == 0 { "use _1.0; " } else { "use _1; " }).collect();
        let draft = function(&[0, PAIR, OUTER], "", &[&(uses + more + "stop")]);
        let words = [words(), draft.words()].concat();
        words.iter().map(u32::to_string).collect::<Vec<_>>().join(" ")
    };
    // 341 statements of three entries are 1,023 entries, one more passes 1,024.
    let printed = ghosts(text(341, "").as_bytes());
    assert_eq!(printed.lines().count(), 341);
    assert_eq!(printed.lines().last(), Some("at 852 unfold _1 0"));
    assert_eq!(ghosts(text(342, "").as_bytes()), "refused 10\n");
    // 340 of three and one of four are 1,024.
    assert_eq!(ghosts(text(340, "use _2.0.*; ").as_bytes()).lines().count(), 341);
    assert_eq!(ghosts(text(341, "use _2.0.*; ").as_bytes()), "refused 10\n");
}

#[test]
fn worked_example() {
    let words = [2, 1, 4, 12, 0, 1, 0, 7, 10, 11, 0, 1, 2, 3, 0, 2, 5, 8, 9, 10, 10, 0, 5, 10];
    let function = [&words[..], &[10, 11, 1, 0, 0, 0, 0, 1, 2, 1, 0, 3, 3, 0]].concat();
    assert_eq!(call(&function, 20, 3), (Ok((3, 9)), vec![0, 0, DASH]));
    assert_eq!(call(&function, 20, 2), (Err(10), vec![0; 2]));
}

#[test]
fn a_record_and_its_numbers() {
    let record = [2, 6, 13, 16, 0, 13, 15, 0, 2, 0, 1, 4, 0, 1];
    let read = |numbers: &[u32]| GhostStatements::from_record(&record, numbers);
    assert_eq!(read(&[3, 0]).unwrap().to_string(), "at 2 unfold _1 3\nat 4 fold _1\n");
    assert_eq!(read(&[255, 255]).unwrap().to_string(), "at 2 unfold _1 -\nat 4 fold _1 -\n");
    assert_eq!(read(&[0, 0, 9]).unwrap().numbers(), [0, 0]);
    assert_eq!(read(&[0]), None, "a number is missing");
    assert_eq!(read(&[0, 1]), None, "a fold from a walk has 0");
}

/// Each named case: the numbers in record order.
#[test]
fn the_named_cases() {
    let cases = limits();
    let told = |name: &str| {
        let name = format!("F-4, {name}");
        let case = &cases.iter().find(|(case, _)| *case == name).expect("a case").1;
        let answer = case.answer();
        let line = answer.lines.lines().find_map(|line| line.strip_prefix("told")).unwrap();
        let mut numbers: Vec<u32> =
            line.split_whitespace().map(|word| word.parse().unwrap()).collect();
        numbers.resize(answer.result.unwrap()[0], 0);
        numbers
    };
    assert_eq!(told("one step that opens"), [0]);
    assert_eq!(told("three steps that open"), [0]);
    assert_eq!(told("two that open behind one that is open"), [0, 1]);
    assert_eq!(told("one that opens behind two that are open"), [0, 2]);
    assert_eq!(told("a fold, and the opening again"), [0, 0, 1]);
    assert_eq!(told("an index cuts"), [0]);
    assert_eq!(told("an index cuts behind what is open"), [0, 1]);
    assert_eq!(told("a downcast that opens, and one that is passed"), [0, 0, 2]);
    assert_eq!(told("uses at entry"), [0, 0]);
    assert_eq!(told("uses at entry, and an unfold collected there"), [0, 0, DASH]);
    assert_eq!(told("uses at entry, and nothing collected there"), [0, 0, 0]);
    assert_eq!(told("uses at entry, and a fold collected there"), [0, DASH]);
    assert_eq!(told("a fold collected at return"), [0, DASH]);
    assert_eq!(told("at a read, a note and a switch"), [0, 1, 0, 0]);
    assert_eq!(told("at plain targets"), [0, 0, DASH, DASH]);
    assert_eq!(told("at the targets of a match").last(), Some(&DASH));
    assert_eq!(told("the last of 127 elements opens"), [0, 126]);
    assert_eq!(told("the last of 128 elements opens"), [0, 127]);
    assert_eq!(told("the last of 62 fields opens"), [0, 61]);
    assert_eq!(told("the last of 63 fields opens"), [0, 62]);
    assert_eq!(told("3 numbers for 3 statements"), [0, 0, DASH]);
    assert_eq!(told("4 numbers for 3 statements"), [0, 0, DASH]);
    let answers = |name: &str| {
        let name = format!("F-4, {name}");
        cases.iter().find(|(case, _)| *case == name).expect("a case").1.answer().result.unwrap()
    };
    assert_eq!(answers("nothing of no element"), [0, 0]);
    assert_eq!(answers("an unfold of four elements"), [2, 3, 0]);
    assert_eq!(answers("an unfold behind one element"), [2, 3, 1]);
    assert_eq!(answers("an unfold behind three elements"), [2, 3, 3]);
    assert_eq!(answers("nothing of four elements"), [0, 4]);
    assert_eq!(answers("a fold of no element"), [1, 0]);
    assert_eq!(answers("a fold of three elements"), [1, 3]);
    assert_eq!(answers("an unfold up to an index"), [2, 1, 0]);
    assert_eq!(answers("an unfold up to an index behind one element"), [2, 1, 1]);
    assert_eq!(answers("nothing up to an index"), [0, 2]);
}

/// Random functions that are accepted, with their statements.
fn accepted(seed: u64, count: usize) -> impl Iterator<Item = (Types, Body, GhostStatements)> {
    let mut rng = Rng::new(seed);
    (0..count).map(move |i| {
        let size = if i % 2 == 0 { Size::Small } else { Size::Normal };
        let case = random(&mut rng, Kind::Call(Call::Whole), size, Some(0)).expect("such a case");
        let genv = Types::read(&case.types).unwrap();
        let body = Body::read(&genv, &case.function).unwrap();
        let mut stmts = GhostStatements::default();
        let mut stored = Default::default();
        add_ghost_statements(&mut stmts, &genv, &body, &mut stored, Room::Tested).unwrap();
        (genv, body, stmts)
    })
}

/// The numbers of unfolds from walks, each with the place of its statement.
fn random_numbers(seed: u64) -> Vec<(usize, Place)> {
    let mut found = vec![];
    for (_, _, stmts) in accepted(seed, 500) {
        for (_, stmt, told) in stmts.iter() {
            if let Told::Passed(number) = told {
                found.push((*number, stmt.place().clone()));
            }
        }
    }
    assert!(found.iter().any(|&(number, _)| number > 3));
    found
}

/// The library's law: from the state at which a use stands, walking as many elements as its unfold's
/// number says changes nothing, and one more changes a tree. A use with no statement changes nothing, and
/// one with a fold meets an open node.
#[test]
fn each_number_is_where_the_opening_began() {
    let mut rng = Rng::new(3);
    let mut found = [0; 3];
    for (genv, body, stmts) in accepted(4, 1500) {
        check_entry(&genv, &body, &stmts, &mut found);
        for _ in 0..4 {
            let mut replay = Replay::start(&genv, &body, &stmts).unwrap();
            for _ in 0..12 {
                let data = &body.basic_blocks[replay.block];
                check_block(&genv, data, &stmts, replay.env.clone(), &mut found);
                replay.go_through().unwrap();
                let targets = data.targets();
                if targets.is_empty() {
                    break;
                }
                replay.jump(rng.pick(&targets).item).unwrap();
            }
        }
    }
    assert!(found.iter().all(|&count| count > 1000), "{found:?}");
}

/// The uses of a block, item by item.
fn check_block(
    genv: &Types,
    data: &BasicBlockData,
    stmts: &GhostStatements,
    mut env: Env,
    found: &mut [usize; 3],
) {
    for (item, place) in uses_of(data) {
        let point = Point::BeforeItem(item);
        let here: Vec<_> = stmts.iter().filter(|(at, ..)| *at == point).collect();
        assert!(here.len() <= 1, "a use gives at most one statement");
        check_use(genv, &mut env, place, here.first().map(|(_, stmt, told)| (stmt, told)), found);
    }
}

/// Each use at entry that changes the state takes the next statement there; what is behind those is
/// collected.
fn check_entry(genv: &Types, body: &Body, stmts: &GhostStatements, found: &mut [usize; 3]) {
    let mut env = Env::new(&body.local_types);
    let mut here = stmts.iter().filter(|(at, ..)| *at == Point::FunEntry);
    for used in &body.entry_uses {
        let mut after = env.clone();
        after.projection(genv, &used.place).unwrap();
        let said = if after == env { None } else { here.next() };
        check_use(genv, &mut env, &used.place, said.map(|(_, stmt, told)| (stmt, told)), found);
        assert_eq!(env, after, "{}", used.place);
    }
    assert!(here.all(|(.., told)| *told == Told::Collected));
}

fn check_use(
    genv: &Types,
    env: &mut Env,
    place: &Place,
    said: Option<(&GhostStatement, &Told)>,
    found: &mut [usize; 3],
) {
    let before = env.clone();
    let walked = |elements: usize| {
        let mut copy = before.clone();
        let (walked, open) = match copy.ensure_unfolded(genv, &place.truncate(elements)) {
            Ok(walk) => (walk.walked, !walk.node.is_ty()),
            Err(refusal) => panic!("{place} {refusal:?}"),
        };
        (copy != before, walked, open)
    };
    let (changes, length, open) = walked(place.projection.len());
    match said {
        Some((GhostStatement::Unfold(unfolded), Told::Passed(number))) => {
            assert!(*number < length, "{place} {number}");
            assert!(!walked(*number).0, "{place} {number}");
            assert!(walked(number + 1).0, "{place} {number}");
            assert_eq!(*unfolded, place.truncate(length - 1));
            found[0] += 1;
        }
        Some((GhostStatement::Fold(folded), Told::Nothing)) => {
            assert!(!changes && open && folded == place, "{place}");
            found[1] += 1;
        }
        None => {
            assert!(!changes && !open, "{place}");
            found[2] += 1;
        }
        Some((stmt, told)) => panic!("{stmt} {told:?} at a use"),
    }
    if let Some((stmt, _)) = said {
        env.carry_out(genv, stmt).unwrap();
    }
}

/// The places used in a block with their items, those of its switch last.
fn uses_of(data: &BasicBlockData) -> Vec<(usize, &Place)> {
    let mut uses = vec![];
    for statement in &data.statements {
        match statement {
            Statement::Use(used) => uses.push((used.item, &used.place)),
            Statement::Discriminant { read, note } => {
                uses.push((read.item, &read.place));
                uses.push((note.item, &note.place));
            }
        }
    }
    if let TerminatorKind::SwitchInt { discr: Some(place), .. } = &data.terminator.kind {
        uses.push((data.terminator.item, place));
    }
    uses
}
