//! The replay of document 01: recorded statements carried out along a list of jumps. It finds a
//! target's own unfolding from the record alone, apart from the analysis.

use crate::{
    env::Env,
    function::{BasicBlock, BasicBlockData, Body, Statement, TerminatorKind, START_BLOCK},
    ghost_statements::{GhostStatements, Point},
    place::Place,
    refusal::Refusal,
    types::{Types, VariantIdx},
};

pub struct Replay<'a> {
    genv: &'a Types,
    body: &'a Body,
    stmts: &'a GhostStatements,
    pub block: BasicBlock,
    pub env: Env,
}

impl<'a> Replay<'a> {
    /// Carries out the entry's statements, then stands at the start block's start.
    pub fn start(
        genv: &'a Types,
        body: &'a Body,
        stmts: &'a GhostStatements,
    ) -> Result<Replay<'a>, Refusal> {
        let env = Env::new(&body.local_types);
        let mut replay = Replay { genv, body, stmts, block: START_BLOCK, env };
        replay.carry_out(Point::FunEntry)?;
        Ok(replay)
    }

    /// Goes through the block. True if each place used walked unchanged to a folded node.
    pub fn go_through(&mut self) -> Result<bool, Refusal> {
        let data = &self.body.basic_blocks[self.block];
        let mut settled = true;
        for (item, place) in points(data) {
            self.carry_out(Point::BeforeItem(item))?;
            if let Some(place) = place {
                settled &= self.is_settled(place)?;
            }
        }
        Ok(settled)
    }

    /// Jumps by a target item of the block's ender.
    pub fn jump(&mut self, item: usize) -> Result<(), Refusal> {
        let data = &self.body.basic_blocks[self.block];
        let targets = data.targets();
        let target = targets.iter().find(|target| target.item == item);
        let target = target.expect("a target item of the block's ender");
        if let Some((place, idx)) = own_unfolding(self.genv, &self.env, data, item)? {
            self.env.downcast(self.genv, place, idx)?;
        }
        self.carry_out(Point::BeforeItem(item))?;
        self.block = target.block;
        Ok(())
    }

    fn carry_out(&mut self, point: Point) -> Result<(), Refusal> {
        self.stmts.statements_at(point).try_for_each(|stmt| self.env.carry_out(self.genv, stmt))
    }

    /// Walks the place used on a copy.
    fn is_settled(&self, place: &Place) -> Result<bool, Refusal> {
        let mut copy = self.env.clone();
        let walk = copy.ensure_unfolded(self.genv, place)?;
        Ok(!walk.modified() && walk.node.is_ty())
    }
}

/// The points of a block with the place used there, if any: use, read, note, switch, return.
fn points(data: &BasicBlockData) -> Vec<(usize, Option<&Place>)> {
    let mut points = vec![];
    for statement in &data.statements {
        match statement {
            Statement::Use(used) => points.push((used.item, Some(&used.place))),
            Statement::Discriminant { read, note } => {
                points.push((read.item, Some(&read.place)));
                points.push((note.item, Some(&note.place)));
            }
        }
    }
    match &data.terminator.kind {
        TerminatorKind::SwitchInt { discr, .. } => {
            points.push((data.terminator.item, discr.as_ref()));
        }
        TerminatorKind::Return => points.push((data.terminator.item, None)),
        TerminatorKind::Goto(_) | TerminatorKind::Stop => {}
    }
    points
}

/// The place read of a match: that of the block's latest note with the switch's items.
pub fn place_matched(data: &BasicBlockData) -> Option<&Place> {
    let TerminatorKind::SwitchInt { discr: Some(discr), .. } = &data.terminator.kind else {
        return None;
    };
    data.statements.iter().rev().find_map(|statement| match statement {
        Statement::Discriminant { read, note } if note.place == *discr => Some(&read.place),
        _ => None,
    })
}

/// The place read and the variant that a target item of a match unfolds; nothing where the place
/// holds an index (document 02, F-1).
fn own_unfolding<'a>(
    genv: &Types,
    env: &Env,
    data: &'a BasicBlockData,
    item: usize,
) -> Result<Option<(&'a Place, VariantIdx)>, Refusal> {
    let Some(place) = place_matched(data) else { return Ok(None) };
    if place.holds_index() {
        return Ok(None);
    }
    let TerminatorKind::SwitchInt { arms, .. } = &data.terminator.kind else {
        return Ok(None);
    };
    let ty = env.walked_type(genv, place)?;
    let variants: Vec<_> = genv.discriminants(ty).collect();
    let taken = arms.iter().find(|arm| arm.target.item == item);
    let is_named = |value: u32| arms.iter().any(|arm| arm.value == value);
    let mut own = variants.iter().filter(|&&(_, value)| match taken {
        Some(arm) => arm.value == value,
        None => !is_named(value),
    });
    Ok(match (own.next(), own.next()) {
        (Some(&(idx, _)), None) => Some((place, idx)),
        _ => None,
    })
}
