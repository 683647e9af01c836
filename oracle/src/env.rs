//! `Env`: one tree per local.

use std::ops::RangeInclusive;

use crate::{
    ghost_statements::{GhostStatement, StatementsAt},
    place::{Place, PlaceElem},
    place_node::{Modified, PlaceNode},
    refusal::Refusal,
    state::MAX_NODES,
    types::{Ty, Types, VariantIdx},
};

#[derive(Clone, PartialEq, Eq, Debug)]
pub struct Env {
    pub map: Vec<PlaceNode>,
}

/// Where a walk came to.
pub struct Walk<'a> {
    /// The node reached.
    pub node: &'a mut PlaceNode,
    /// How many elements were walked.
    pub walked: usize,
    /// The step that first changed a tree, if one did.
    changed_at: Option<usize>,
}

impl Walk<'_> {
    pub fn modified(&self) -> Modified {
        self.changed_at.is_some()
    }

    /// How many elements it had passed before the step that first changed a tree, and the walked length
    /// where none did (document 02, F-4).
    pub fn passed(&self) -> usize {
        self.changed_at.unwrap_or(self.walked)
    }
}

/// The answer of a projection. Unfold says how many elements the place to record has: those
/// that were walked, without the last.
#[derive(Clone, Copy, PartialEq, Eq, Debug)]
pub enum ProjResult {
    None,
    Fold,
    Unfold(usize),
}

impl Env {
    /// All folded.
    pub fn new(local_types: &[Ty]) -> Env {
        Env { map: local_types.iter().map(|&ty| PlaceNode::Ty(ty)).collect() }
    }

    /// The answer, and the walk's number.
    pub fn projection(
        &mut self,
        genv: &Types,
        place: &Place,
    ) -> Result<(ProjResult, usize), Refusal> {
        let walk = self.ensure_unfolded(genv, place)?;
        let (walked, passed) = (walk.walked, walk.passed());
        let answer = if walk.modified() {
            match place.projection[walked - 1] {
                PlaceElem::Deref | PlaceElem::Field(_) => ProjResult::Unfold(walked - 1),
                _ => unreachable!("a used place that ends in downcast is refused with 4"),
            }
        } else if walk.node.ensure_folded() {
            debug_assert_eq!(walked, place.projection.len());
            ProjResult::Fold
        } else {
            ProjResult::None
        };
        Ok((answer, passed))
    }

    pub fn downcast(
        &mut self,
        genv: &Types,
        place: &Place,
        variant_idx: VariantIdx,
    ) -> Result<(), Refusal> {
        self.ensure_unfolded(genv, place)?.node.downcast(genv, variant_idx)?;
        Ok(())
    }

    /// The walk stops at the first index, where the type must be an array.
    pub fn ensure_unfolded(&mut self, genv: &Types, place: &Place) -> Result<Walk<'_>, Refusal> {
        let mut node = &mut self.map[place.local];
        let mut changed_at = None;
        let mut i = 0;
        while i < place.projection.len() {
            let (n, m) = match place.projection[i] {
                PlaceElem::Deref => node.deref(genv)?,
                PlaceElem::Field(f) => node.field(genv, f)?,
                PlaceElem::Downcast(idx) => node.downcast(genv, idx)?,
                PlaceElem::Index if genv.is_array(node.ty()) => break,
                PlaceElem::Index => return Err(Refusal::WrongStep),
            };
            node = n;
            if m && changed_at.is_none() {
                changed_at = Some(i);
            }
            i += 1;
        }
        Ok(Walk { node, walked: i, changed_at })
    }

    /// The type at the end of a walk, whose changes are dropped: it is made in a copy of its local's tree.
    pub fn walked_type(&self, genv: &Types, place: &Place) -> Result<Ty, Refusal> {
        let mut copy = Env { map: vec![self.map[place.local].clone()] };
        let place = Place::new(0, place.projection.clone());
        let walk = copy.ensure_unfolded(genv, &place)?;
        Ok(walk.node.ty())
    }

    /// Carries out a fold: walk, then fold the node.
    pub fn fold(&mut self, genv: &Types, place: &Place) -> Result<(), Refusal> {
        self.ensure_unfolded(genv, place)?.node.ensure_folded();
        Ok(())
    }

    /// Carries out an unfold: walk; if the walked place ends in downcast that is all.
    pub fn unfold(&mut self, genv: &Types, place: &Place) -> Result<(), Refusal> {
        let walk = self.ensure_unfolded(genv, place)?;
        match place.projection[..walk.walked].last() {
            Some(PlaceElem::Downcast(_)) => Ok(()),
            _ => walk.node.unfold(genv),
        }
    }

    pub fn carry_out(&mut self, genv: &Types, stmt: &GhostStatement) -> Result<(), Refusal> {
        match stmt {
            GhostStatement::Fold(place) => self.fold(genv, place),
            GhostStatement::Unfold(place) => self.unfold(genv, place),
        }
    }

    /// Gives the first state and only its flag.
    pub fn join(&mut self, genv: &Types, mut other: Env) -> Result<Modified, Refusal> {
        let mut modified = false;
        for (local, node) in self.map.iter_mut().enumerate() {
            let (m, _) = node.join(genv, &mut other.map[local], false)?;
            modified |= m;
        }
        Ok(modified)
    }

    pub fn collect_fold_unfolds_at_goto(
        &self,
        genv: &Types,
        target: &Env,
        stmts: &mut StatementsAt,
    ) -> Result<(), Refusal> {
        for (local, node) in self.map.iter().enumerate() {
            let mut place = Place::new(local, vec![]);
            node.collect_fold_unfolds(genv, &target.map[local], &mut place, stmts)?;
        }
        Ok(())
    }

    /// From all folded to this state.
    pub fn collect_unfolds(&self, genv: &Types, stmts: &mut StatementsAt) -> Result<(), Refusal> {
        for (local, node) in self.map.iter().enumerate() {
            node.collect_unfolds(genv, &mut Place::new(local, vec![]), stmts)?;
        }
        Ok(())
    }

    pub fn collect_folds_at_ret(
        &self,
        genv: &Types,
        args: RangeInclusive<usize>,
        stmts: &mut StatementsAt,
    ) {
        for local in args {
            self.map[local].collect_folds_at_ret(genv, &mut Place::new(local, vec![]), stmts);
        }
    }

    pub fn node_count(&self) -> usize {
        self.map.iter().map(PlaceNode::node_count).sum()
    }

    /// Refusal 9. It is asked of results, never inside a walk or a join.
    pub fn check_room(&self) -> Result<(), Refusal> {
        if self.node_count() > MAX_NODES {
            return Err(Refusal::StateFull);
        }
        Ok(())
    }
}
