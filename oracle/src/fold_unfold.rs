//! The analysis: a first pass that infers the state of each join point, and a second that
//! records the statements.

use std::collections::{hash_map::Entry, HashMap};

use crate::{
    env::{Env, ProjResult},
    function::{
        Arm, BasicBlock, Body, Statement, Target, Terminator, TerminatorKind, Use, START_BLOCK,
    },
    ghost_statements::{GhostStatement, GhostStatements, Point, Told},
    place::Place,
    queue::WorkQueue,
    refusal::Refusal,
    types::{Types, VariantIdx},
};

/// Both passes. `bb_envs` is left with the final state of each join point that was reached.
pub fn add_ghost_statements(
    stmts: &mut GhostStatements,
    genv: &Types,
    body: &Body,
    bb_envs: &mut HashMap<BasicBlock, Env>,
    room: Room,
) -> Result<Copies, Refusal> {
    let first = FoldUnfoldAnalysis::new(genv, body, bb_envs, room, Infer).run()?;
    let mode = Elaboration { stmts };
    let second = FoldUnfoldAnalysis::new(genv, body, bb_envs, room, mode).run()?;
    Ok(Copies { entered: first.entered + second.entered, exits: first.exits + second.exits })
}

/// Whether a run tests refusal 9, for which it counts all nodes after each change. The source has no
/// such limit.
#[derive(Clone, Copy, PartialEq, Eq, Debug)]
pub enum Room {
    Tested,
    Untested,
}

impl Room {
    /// Every test for 9 of a run is this one.
    fn check(self, env: &Env) -> Result<(), Refusal> {
        match self {
            Room::Tested => env.check_room(),
            Room::Untested => Ok(()),
        }
    }
}

/// How many states a run copies where they are arrays, as document 01 lays them.
#[derive(Clone, Copy, PartialEq, Eq, Default, Debug)]
pub struct Copies {
    /// One for each block that is entered.
    pub entered: usize,
    /// One for each target item of a block that is entered.
    pub exits: usize,
}

impl Copies {
    pub fn all(self) -> usize {
        self.entered + self.exits
    }
}

pub struct FoldUnfoldAnalysis<'a, M> {
    genv: &'a Types,
    body: &'a Body,
    bb_envs: &'a mut HashMap<BasicBlock, Env>,
    visited: Vec<bool>,
    queue: WorkQueue<'a>,
    /// The place read for each note place; within a block.
    discriminants: HashMap<Place, Place>,
    point: Point,
    room: Room,
    copies: Copies,
    mode: M,
}

pub trait Mode: Sized {
    fn projection(
        analysis: &mut FoldUnfoldAnalysis<Self>,
        env: &mut Env,
        place: &Place,
    ) -> Result<(), Refusal>;

    /// Says whether the block must be visited (again).
    fn goto_join_point(
        analysis: &mut FoldUnfoldAnalysis<Self>,
        target: BasicBlock,
        env: Env,
    ) -> Result<bool, Refusal>;

    fn ret(analysis: &mut FoldUnfoldAnalysis<Self>, env: &Env);
}

pub struct Infer;

pub struct Elaboration<'a> {
    pub stmts: &'a mut GhostStatements,
}

impl Mode for Infer {
    fn projection(
        analysis: &mut FoldUnfoldAnalysis<Self>,
        env: &mut Env,
        place: &Place,
    ) -> Result<(), Refusal> {
        env.projection(analysis.genv, place)?;
        analysis.room.check(env)
    }

    fn goto_join_point(
        analysis: &mut FoldUnfoldAnalysis<Self>,
        target: BasicBlock,
        env: Env,
    ) -> Result<bool, Refusal> {
        match analysis.bb_envs.entry(target) {
            Entry::Occupied(mut entry) => {
                let modified = entry.get_mut().join(analysis.genv, env)?;
                analysis.room.check(entry.get())?;
                Ok(modified)
            }
            Entry::Vacant(entry) => {
                entry.insert(env);
                Ok(true)
            }
        }
    }

    fn ret(_: &mut FoldUnfoldAnalysis<Self>, _: &Env) {}
}

impl Mode for Elaboration<'_> {
    fn projection(
        analysis: &mut FoldUnfoldAnalysis<Self>,
        env: &mut Env,
        place: &Place,
    ) -> Result<(), Refusal> {
        let (stmts, point) = (&mut analysis.mode.stmts, analysis.point);
        match env.projection(analysis.genv, place)? {
            (ProjResult::None, _) => {}
            (ProjResult::Fold, _) => {
                stmts.insert_at(point, GhostStatement::Fold(place.clone()), Told::Nothing);
            }
            (ProjResult::Unfold(len), passed) => {
                let stmt = GhostStatement::Unfold(place.truncate(len));
                stmts.insert_at(point, stmt, Told::Passed(passed));
            }
        }
        analysis.room.check(env)
    }

    fn goto_join_point(
        analysis: &mut FoldUnfoldAnalysis<Self>,
        target: BasicBlock,
        env: Env,
    ) -> Result<bool, Refusal> {
        env.collect_fold_unfolds_at_goto(
            analysis.genv,
            &analysis.bb_envs[&target],
            &mut analysis.mode.stmts.at(analysis.point),
        )?;
        Ok(!analysis.visited[target])
    }

    fn ret(analysis: &mut FoldUnfoldAnalysis<Self>, env: &Env) {
        env.collect_folds_at_ret(
            analysis.genv,
            analysis.body.args_iter(),
            &mut analysis.mode.stmts.at(analysis.point),
        );
    }
}

impl<'a, M: Mode> FoldUnfoldAnalysis<'a, M> {
    pub fn new(
        genv: &'a Types,
        body: &'a Body,
        bb_envs: &'a mut HashMap<BasicBlock, Env>,
        room: Room,
        mode: M,
    ) -> Self {
        let blocks = body.basic_blocks.len();
        Self {
            genv,
            body,
            bb_envs,
            visited: vec![false; blocks],
            queue: WorkQueue::empty(blocks, &body.rank),
            discriminants: HashMap::new(),
            point: Point::FunEntry,
            room,
            copies: Copies::default(),
            mode,
        }
    }

    pub fn run(mut self) -> Result<Copies, Refusal> {
        let body = self.body;
        let mut env = Env::new(&body.local_types);
        for used in &body.entry_uses {
            M::projection(&mut self, &mut env, &used.place)?;
        }
        self.goto(START_BLOCK, env)?;
        while let Some(bb) = self.queue.pop() {
            self.basic_block(bb, self.bb_envs[&bb].clone())?;
        }
        Ok(self.copies)
    }

    fn basic_block(&mut self, bb: BasicBlock, mut env: Env) -> Result<(), Refusal> {
        self.visited[bb] = true;
        self.copies.entered += 1;
        self.discriminants.clear();
        let data = &self.body.basic_blocks[bb];
        for stmt in &data.statements {
            self.statement(stmt, &mut env)?;
        }
        // All arms are tried before the first is entered.
        let successors = self.terminator(&data.terminator, env)?;
        self.copies.exits += successors.len();
        for (env, target) in successors {
            self.point = Point::BeforeItem(target.item);
            self.goto(target.block, env)?;
        }
        Ok(())
    }

    fn statement(&mut self, stmt: &Statement, env: &mut Env) -> Result<(), Refusal> {
        match stmt {
            Statement::Use(used) => self.use_place(used, env),
            Statement::Discriminant { read, note } => {
                self.use_place(read, env)?;
                self.discriminants.insert(note.place.clone(), read.place.clone());
                self.use_place(note, env)
            }
        }
    }

    fn use_place(&mut self, used: &Use, env: &mut Env) -> Result<(), Refusal> {
        self.point = Point::BeforeItem(used.item);
        M::projection(self, env, &used.place)
    }

    fn terminator(
        &mut self,
        terminator: &Terminator,
        mut env: Env,
    ) -> Result<Vec<(Env, Target)>, Refusal> {
        self.point = Point::BeforeItem(terminator.item);
        match &terminator.kind {
            TerminatorKind::Goto(target) => Ok(vec![(env, *target)]),
            TerminatorKind::Return => {
                M::ret(self, &env);
                Ok(vec![])
            }
            TerminatorKind::Stop => Ok(vec![]),
            TerminatorKind::SwitchInt { discr, arms, otherwise } => {
                let is_match = match discr {
                    Some(place) => {
                        M::projection(self, &mut env, place)?;
                        self.discriminants.remove(place)
                    }
                    None => None,
                };
                match is_match {
                    Some(place) => self.match_targets(env, &place, arms, *otherwise),
                    None => Ok(jump_targets(env, arms, *otherwise)),
                }
            }
        }
    }

    /// A match: each arm unfolds its variant unrecorded; the otherwise target does so if one
    /// variant is left. The first walk is for the type alone, so 9 isn't tested there. Where the
    /// place holds an index that is all (document 02, F-1): the targets leave the state unchanged,
    /// and arm values aren't looked up.
    fn match_targets(
        &self,
        mut env: Env,
        place: &Place,
        arms: &[Arm],
        otherwise: Target,
    ) -> Result<Vec<(Env, Target)>, Refusal> {
        let ty = env.walked_type(self.genv, place)?;
        if place.holds_index() {
            return Ok(jump_targets(env, arms, otherwise));
        }
        if !self.genv.is_enum(ty) {
            return Err(Refusal::WrongStep);
        }
        let mut remaining: HashMap<u32, VariantIdx> =
            self.genv.discriminants(ty).map(|(idx, value)| (value, idx)).collect();
        let mut successors = vec![];
        for arm in arms {
            let variant_idx = remaining.remove(&arm.value).ok_or(Refusal::NoSuchValue)?;
            successors.push((self.downcast(&env, place, variant_idx)?, arm.target));
        }
        let left: Vec<VariantIdx> = remaining.into_values().collect();
        if let [variant_idx] = left[..] {
            env.downcast(self.genv, place, variant_idx)?;
            self.room.check(&env)?;
        }
        successors.push((env, otherwise));
        Ok(successors)
    }

    fn downcast(&self, env: &Env, place: &Place, idx: VariantIdx) -> Result<Env, Refusal> {
        let mut env = env.clone();
        env.downcast(self.genv, place, idx)?;
        self.room.check(&env)?;
        Ok(env)
    }

    fn goto(&mut self, target: BasicBlock, env: Env) -> Result<(), Refusal> {
        if self.body.is_join_point(target) {
            if M::goto_join_point(self, target, env)? {
                self.queue.insert(target);
            }
            Ok(())
        } else {
            self.basic_block(target, env)
        }
    }
}

/// A switch that is no match, or one on an array's element, only jumps.
fn jump_targets(env: Env, arms: &[Arm], otherwise: Target) -> Vec<(Env, Target)> {
    let mut successors: Vec<_> = arms.iter().map(|arm| (env.clone(), arm.target)).collect();
    successors.push((env, otherwise));
    successors
}
