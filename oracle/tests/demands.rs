//! The demands of document 01, tried on generated functions and states.

use std::collections::HashMap;

use oracle::{
    calls,
    case::{Call, Case},
    env::{Env, ProjResult},
    fold_unfold::{Elaboration, FoldUnfoldAnalysis, Infer, Room},
    function::{Body, START_BLOCK},
    generate::{random, rng::Rng, states::random_env, Kind, Size},
    ghost_statements::{GhostStatement, GhostStatements, Point},
    place::{Place, PlaceElem},
    place_node::PlaceNode,
    replay::Replay,
    state::{State, MAX_NODES},
    types::Types,
};

/// A whole-function case that passes refusals 1, 2 and 4, with its records read.
struct Function {
    case: Case,
    genv: Types,
    body: Body,
}

fn functions(seed: u64, count: usize, want: Option<u32>) -> impl Iterator<Item = Function> {
    let mut rng = Rng::new(seed);
    let kind = Kind::Call(Call::Whole);
    (0..count).filter_map(move |i| {
        let size = if i % 2 == 0 { Size::Small } else { Size::Normal };
        let case = random(&mut rng, kind, size, want).expect("such a case");
        let genv = Types::read(&case.types).ok()?;
        let body = Body::read(&genv, &case.function).ok()?;
        body.check_places().ok()?;
        Some(Function { case, genv, body })
    })
}

/// The statements and the store of an accepted function.
fn accepted(function: &Function) -> (GhostStatements, Vec<u16>, Vec<u16>) {
    let shares = function.body.join_points().count() * MAX_NODES;
    let (mut forms, mut whats) = (vec![0; shares], vec![0; shares]);
    let (mut out, mut told) = (vec![0; 1 << 16], vec![0; 1 << 14]);
    let Case { types, function, .. } = &function.case;
    calls::ghost_statements(types, function, &mut forms, &mut whats, &mut out, &mut told)
        .expect("accepted");
    (GhostStatements::from_record(&out, &told).expect("a record"), forms, whats)
}

#[test]
fn replay_along_random_jumps() {
    let mut rng = Rng::new(1);
    let mut jumps = 0;
    for function in functions(2, 2000, Some(0)) {
        let (stmts, forms, whats) = accepted(&function);
        let mut arrived: HashMap<usize, Env> = HashMap::new();
        for _ in 0..8 {
            jumps += replay_one_list(&mut rng, &function, &stmts, &mut arrived);
        }
        check_store(&function, &arrived, &forms, &whats);
    }
    assert!(jumps > 20_000, "{jumps}");
}

/// Follows one list of jumps. Nothing is refused, each use finds its place settled, and every
/// arrival at a block brings the state of the arrivals before.
fn replay_one_list(
    rng: &mut Rng,
    function: &Function,
    stmts: &GhostStatements,
    arrived: &mut HashMap<usize, Env>,
) -> usize {
    let Function { genv, body, .. } = function;
    let mut replay = Replay::start(genv, body, stmts).expect("the entry is accepted");
    for jump in 0.. {
        let known = arrived.entry(replay.block).or_insert_with(|| replay.env.clone());
        assert_eq!(*known, replay.env, "block {}", replay.block);
        assert_eq!(replay.go_through(), Ok(true), "block {}", replay.block);
        let targets = body.basic_blocks[replay.block].targets();
        if targets.is_empty() || jump == 25 {
            return jump;
        }
        let target = rng.pick(&targets);
        assert_eq!(replay.jump(target.item), Ok(()), "item {}", target.item);
    }
    unreachable!()
}

/// What arrives at a join point is what its share holds.
fn check_store(function: &Function, arrived: &HashMap<usize, Env>, forms: &[u16], whats: &[u16]) {
    for (share, bb) in function.body.join_points().enumerate() {
        if let Some(env) = arrived.get(&bb) {
            let state = State::encode(env).expect("at most 512 nodes");
            let entries = share * MAX_NODES..(share + 1) * MAX_NODES;
            assert_eq!(forms[entries.clone()], state.forms);
            assert_eq!(whats[entries], state.whats);
        }
    }
}

#[test]
fn the_second_pass_refuses_nothing() {
    let mut refused = 0;
    for Function { genv, body, .. } in functions(3, 2500, None) {
        let mut bb_envs = HashMap::new();
        let first = FoldUnfoldAnalysis::new(&genv, &body, &mut bb_envs, Room::Tested, Infer).run();
        if first.is_err() {
            refused += 1;
            continue;
        }
        let stored = bb_envs.clone();
        let mut stmts = GhostStatements::default();
        let mode = Elaboration { stmts: &mut stmts };
        let second = FoldUnfoldAnalysis::new(&genv, &body, &mut bb_envs, Room::Tested, mode).run();
        assert_eq!(second.err(), None);
        assert_eq!(bb_envs, stored, "the second pass leaves the stored states");
        check_statements(&body, &stmts);
    }
    assert!(refused > 100, "{refused}");
}

/// No statement holds an index or breaks refusal 4.
fn check_statements(body: &Body, stmts: &GhostStatements) {
    for (_, stmt, _) in stmts.iter() {
        assert!(!stmt.place().projection.contains(&PlaceElem::Index));
        assert_eq!(stmt.place().check(body.local_types.len(), stmt.role()), Ok(()));
    }
}

#[test]
fn no_block_twice_on_a_way() {
    for Function { body, .. } in functions(4, 2500, None) {
        let starts = body.join_points().chain([START_BLOCK]);
        for start in starts {
            follow(&body, start, &mut vec![]);
        }
    }
}

/// All ways from a block through targets that are entered at once.
fn follow(body: &Body, bb: usize, way: &mut Vec<usize>) {
    assert!(!way.contains(&bb), "block {bb} twice on {way:?}");
    way.push(bb);
    for target in body.basic_blocks[bb].targets() {
        if !body.is_join_point(target.block) {
            follow(body, target.block, way);
        }
    }
    way.pop();
}

/// Cases of a call on states that aren't refused with 1, 3 or 4, with types and states read.
fn states(seed: u64, count: usize, call: Call) -> impl Iterator<Item = (Types, Case, Vec<Env>)> {
    let mut rng = Rng::new(seed);
    (0..count).filter_map(move |i| {
        let size = if i % 2 == 0 { Size::Small } else { Size::Normal };
        let case = random(&mut rng, Kind::Call(call), size, None)?;
        let genv = Types::read(&case.types).ok()?;
        let envs: Result<Vec<_>, _> =
            case.states.iter().map(|state| state.decode(&genv, &case.locals)).collect();
        Some((genv, case, envs.ok()?))
    })
}

#[test]
fn join_laws() {
    let mut rng = Rng::new(5);
    for (genv, case, envs) in states(6, 20_000, Call::JoinNodes) {
        let [a, b] = [&envs[0].map[0], &envs[1].map[0]];
        let third = random_env(&mut rng, &genv, &case.locals, 60);
        let c = &third.map[0];
        for in_mut_ref in [false, true] {
            let join = |x: &PlaceNode, y: &PlaceNode| {
                let (mut x2, mut y2) = (x.clone(), y.clone());
                let flags = x2.join(&genv, &mut y2, in_mut_ref).expect("two trees of one type");
                assert_eq!(x2, y2, "one shape");
                assert_eq!(flags, (x2 != *x, y2 != *y), "exact flags");
                x2
            };
            assert_eq!(join(a, a), *a, "idempotent");
            let ab = join(a, b);
            assert_eq!(ab, join(b, a), "commutative");
            assert_eq!(join(&ab, a), ab, "above both");
            assert_eq!(join(&ab, b), ab, "above both");
            assert_eq!(join(&ab, c), join(a, &join(b, c)), "associative");
        }
    }
}

#[test]
fn a_state_join_gives_the_first_state_and_its_flag() {
    for (genv, case, envs) in states(7, 5_000, Call::Join) {
        let mut joined = envs[0].clone();
        for (node, other) in joined.map.iter_mut().zip(&envs[1].map) {
            node.join(&genv, &mut other.clone(), false).unwrap();
        }
        let answer = calls::join(&case.types, &case.locals, &case.states[0], &case.states[1]);
        match State::encode(&joined) {
            Ok(state) => {
                let changed = state != case.states[0];
                assert_eq!(answer, Ok((state, changed)));
            }
            Err(refusal) => assert_eq!(answer, Err(refusal)),
        }
    }
}

/// Carries out a collected list, with no node limit on the way.
fn carry_all(genv: &Types, mut env: Env, stmts: &GhostStatements) -> Env {
    for (_, stmt, _) in stmts.iter() {
        assert_eq!(env.carry_out(genv, stmt), Ok(()), "{stmt}");
    }
    env
}

fn collect_from_to(genv: &Types, from: &Env, to: &Env) -> Option<GhostStatements> {
    let mut stmts = GhostStatements::default();
    let answer = from.collect_fold_unfolds_at_goto(genv, to, &mut stmts.at(Point::FunEntry));
    match answer {
        Ok(()) => Some(stmts),
        Err(refusal) => {
            assert!([6, 7].contains(&refusal.number()));
            None
        }
    }
}

#[test]
fn collected_statements_lead_to_the_target() {
    let (mut done, mut refused) = (0, 0);
    for (genv, _, envs) in states(8, 20_000, Call::CollectFoldUnfolds) {
        let (from, to) = (&envs[0], &envs[1]);
        match collect_from_to(&genv, from, to) {
            Some(stmts) => {
                assert_eq!(carry_all(&genv, from.clone(), &stmts), *to);
                done += 1;
            }
            None => refused += 1,
        }
        // What has been absorbed can be reached.
        let mut joined = from.clone();
        joined.join(&genv, to.clone()).unwrap();
        for absorbed in [from, to] {
            let stmts = collect_from_to(&genv, absorbed, &joined).expect("no refusal");
            assert_eq!(carry_all(&genv, absorbed.clone(), &stmts), joined);
        }
    }
    assert!(done > 5000 && refused > 500, "{done} {refused}");
}

#[test]
fn collected_unfolds_lead_to_the_state() {
    let mut done = 0;
    for (genv, case, envs) in states(9, 10_000, Call::CollectUnfolds) {
        let mut stmts = GhostStatements::default();
        let answer = envs[0].collect_unfolds(&genv, &mut stmts.at(Point::FunEntry));
        let folded = Env::new(&case.locals);
        let also = collect_from_to(&genv, &folded, &envs[0]);
        assert_eq!(answer.is_ok(), also.is_some());
        if let Some(also) = also {
            assert_eq!(also, stmts);
            assert_eq!(carry_all(&genv, folded, &stmts), envs[0]);
            done += 1;
        }
    }
    assert!(done > 3000, "{done}");
}

#[test]
fn folds_at_return_leave_nothing_open_behind_a_mutable_reference() {
    for (genv, case, envs) in states(10, 10_000, Call::CollectFoldsAtRet) {
        let args = case.number as usize;
        if args >= case.locals.len() {
            continue;
        }
        let mut stmts = GhostStatements::default();
        envs[0].collect_folds_at_ret(&genv, 1..=args, &mut stmts.at(Point::FunEntry));
        for (_, stmt, _) in stmts.iter() {
            assert!(matches!(stmt, GhostStatement::Fold(_)));
            assert_eq!(stmt.place().check(case.locals.len(), stmt.role()), Ok(()));
        }
        let after = carry_all(&genv, envs[0].clone(), &stmts);
        for (local, node) in after.map.iter().enumerate() {
            match (1..=args).contains(&local) {
                true => assert!(is_returned(&genv, node)),
                false => assert_eq!(*node, envs[0].map[local]),
            }
        }
    }
}

/// An open mutable reference that can be reached without a plain pointer has a folded pointee.
fn is_returned(genv: &Types, node: &PlaceNode) -> bool {
    match node {
        PlaceNode::Deref(ty, child) if genv.is_mut_ref(*ty) => child.is_ty(),
        PlaceNode::Deref(ty, _) if !genv.is_box(*ty) => true,
        _ => node.children().iter().all(|child| is_returned(genv, child)),
    }
}

#[test]
fn a_projection_settles_its_place() {
    let mut answers = [0; 3];
    for (genv, case, envs) in states(11, 20_000, Call::Projection) {
        let (answer, after) = calls::projection(
            &case.types,
            &case.locals,
            &case.states[0],
            &case.place_ops,
            &case.place_args,
        );
        let Ok((answer, passed)) = answer else {
            assert_eq!(after, case.states[0]);
            continue;
        };
        let place = Place::from_items(&case.place_ops, &case.place_args).expect("a place");
        let after = after.decode(&genv, &case.locals).expect("a good state");
        let mut copy = after.clone();
        let walk = copy.ensure_unfolded(&genv, &place).expect("accepted again");
        assert!(!walk.modified() && walk.node.is_ty());
        check_passed(&genv, &envs[0], &place, passed, walk.walked);
        let mut carried = envs[0].clone();
        let which = match answer {
            ProjResult::None => 0,
            ProjResult::Fold => {
                carried.fold(&genv, &place).unwrap();
                1
            }
            ProjResult::Unfold(len) => {
                carried.unfold(&genv, &place.truncate(len)).unwrap();
                2
            }
        };
        assert_eq!(carried, after);
        answers[which] += 1;
    }
    assert!(answers.iter().all(|&count| count > 1000), "{answers:?}");
}

/// The number of a walk: so many elements change nothing, and one more changes a tree, unless they are all
/// that is walked.
fn check_passed(genv: &Types, env: &Env, place: &Place, passed: usize, walked: usize) {
    let changes = |elements: usize| {
        let mut copy = env.clone();
        copy.ensure_unfolded(genv, &place.truncate(elements)).expect("a walk's beginning");
        copy != *env
    };
    assert!(!changes(passed), "{place} {passed}");
    assert!(passed == walked || changes(passed + 1), "{place} {passed}");
}

#[test]
fn states_survive_their_record() {
    for (genv, case, envs) in states(12, 5_000, Call::Join) {
        for (state, env) in case.states.iter().zip(&envs) {
            assert_eq!(State::encode(env).as_ref(), Ok(state));
            let words = state.to_record(case.locals.len());
            let read = State::from_record(&words, case.locals.len()).expect("its own record");
            assert_eq!(read.decode(&genv, &case.locals).as_ref(), Ok(env));
            assert!(State::from_record(&words, case.locals.len() + 1).is_err());
            assert!(State::from_record(&words[1..], case.locals.len()).is_err());
        }
    }
}

fn any_list(rng: &mut Rng) -> Vec<u32> {
    let len = rng.below(24);
    let mut words = vec![];
    for _ in 0..len {
        let most = rng.weighted(&[(9, 3), (1, 13)]);
        words.push(rng.below(most) as u32);
    }
    words
}

/// Whatever the words, the calls answer, and what is lent is zero after a refusal.
#[test]
fn any_words() {
    let mut rng = Rng::new(13);
    for _ in 0..20_000 {
        let [types, function] = [0; 2].map(|_| any_list(&mut rng));
        let (mut forms, mut whats) = ([7; 512], [7; 512]);
        let (mut out, mut told) = ([7; 64], [7; 8]);
        let answer =
            calls::ghost_statements(&types, &function, &mut forms, &mut whats, &mut out, &mut told);
        if answer.is_err() {
            assert_eq!((forms, whats), ([0; 512], [0; 512]));
            assert_eq!((out, told), ([0; 64], [0; 8]));
        }
    }
}
