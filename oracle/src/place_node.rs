//! `PlaceNode`: one place and what is unfolded below it, as in the source. Where the source
//! stops with a bug, a step is refused instead.

use std::iter;

use crate::{
    ghost_statements::{GhostStatement, StatementsAt},
    place::{Place, PlaceElem},
    refusal::Refusal,
    types::{Ty, TyKind, Types, VariantIdx},
};

pub type Modified = bool;

const FIRST_VARIANT: VariantIdx = 0;

/// Each constructor keeps the number of its type.
#[derive(Clone, PartialEq, Eq, Debug)]
pub enum PlaceNode {
    Deref(Ty, Box<PlaceNode>),
    Downcast(Ty, VariantIdx, Vec<PlaceNode>),
    Closure(Ty, Vec<PlaceNode>),
    Generator(Ty, Vec<PlaceNode>),
    Tuple(Ty, Vec<PlaceNode>),
    /// Folded.
    Ty(Ty),
}

impl PlaceNode {
    pub fn deref(&mut self, genv: &Types) -> Result<(&mut PlaceNode, Modified), Refusal> {
        match self {
            PlaceNode::Deref(_, node) => Ok((node, false)),
            PlaceNode::Ty(ty) => {
                let pointee = genv.deref(*ty).ok_or(Refusal::WrongStep)?;
                *self = PlaceNode::Deref(*ty, Box::new(PlaceNode::Ty(pointee)));
                let PlaceNode::Deref(_, node) = self else { unreachable!() };
                Ok((node, true))
            }
            _ => Err(Refusal::WrongStep),
        }
    }

    /// At one step the lower number first: a variant out of range is 5 also where the node is
    /// unfolded, another variant than the unfolded one is 6.
    pub fn downcast(
        &mut self,
        genv: &Types,
        idx: VariantIdx,
    ) -> Result<(&mut PlaceNode, Modified), Refusal> {
        match self {
            PlaceNode::Downcast(adt, idx2, _) => {
                genv.variant(*adt, idx).ok_or(Refusal::WrongStep)?;
                if idx != *idx2 {
                    return Err(Refusal::OtherVariant);
                }
                Ok((self, false))
            }
            PlaceNode::Ty(ty) => {
                let fields = downcast(genv, *ty, idx)?;
                *self = PlaceNode::Downcast(*ty, idx, fields);
                Ok((self, true))
            }
            _ => Err(Refusal::WrongStep),
        }
    }

    pub fn field(&mut self, genv: &Types, f: u32) -> Result<(&mut PlaceNode, Modified), Refusal> {
        let (fields, unfolded) = self.fields(genv)?;
        let field = fields.get_mut(f as usize).ok_or(Refusal::WrongStep)?;
        Ok((field, unfolded))
    }

    /// The fields; a folded tuple, struct, closure or coroutine is unfolded first.
    pub fn fields(&mut self, genv: &Types) -> Result<(&mut Vec<PlaceNode>, Modified), Refusal> {
        match self {
            PlaceNode::Ty(ty) => {
                let ty = *ty;
                let types = genv.fields(ty).ok_or(Refusal::WrongStep)?;
                let fields = folded(types);
                *self = match genv.kind(ty) {
                    TyKind::Struct => PlaceNode::Downcast(ty, FIRST_VARIANT, fields),
                    TyKind::Closure => PlaceNode::Closure(ty, fields),
                    TyKind::Tuple => PlaceNode::Tuple(ty, fields),
                    TyKind::Coroutine => PlaceNode::Generator(ty, fields),
                    _ => unreachable!("only these kinds have fields"),
                };
                let (fields, _) = self.fields(genv)?;
                Ok((fields, true))
            }
            PlaceNode::Downcast(.., fields)
            | PlaceNode::Tuple(_, fields)
            | PlaceNode::Closure(_, fields)
            | PlaceNode::Generator(_, fields) => Ok((fields, false)),
            PlaceNode::Deref(..) => Err(Refusal::WrongStep),
        }
    }

    pub fn ensure_folded(&mut self) -> Modified {
        let modified = !self.is_ty();
        *self = PlaceNode::Ty(self.ty());
        modified
    }

    /// What an unfold statement does to the node that its walk reached: a folded node opens one
    /// level. A folded enum is 7, since the statement doesn't say the variant.
    pub fn unfold(&mut self, genv: &Types) -> Result<(), Refusal> {
        let PlaceNode::Ty(ty) = self else { return Ok(()) };
        match genv.kind(*ty) {
            TyKind::Enum => Err(Refusal::BareVariant),
            TyKind::Pointer | TyKind::MutRef | TyKind::Box => self.deref(genv).map(|_| ()),
            _ => self.fields(genv).map(|_| ()),
        }
    }

    /// Brings both trees to one shape. The flags say which of the two changed.
    pub fn join(
        &mut self,
        genv: &Types,
        other: &mut PlaceNode,
        in_mut_ref: bool,
    ) -> Result<(Modified, Modified), Refusal> {
        let mut modified1 = false;
        let mut modified2 = false;

        let (fields1, fields2) = match (&mut *self, &mut *other) {
            (PlaceNode::Deref(ty1, node1), PlaceNode::Deref(ty2, node2)) => {
                debug_assert_eq!(ty1, ty2);
                return node1.join(genv, node2, in_mut_ref || genv.is_mut_ref(*ty1));
            }
            (PlaceNode::Tuple(_, fields1), PlaceNode::Tuple(_, fields2)) => (fields1, fields2),
            (PlaceNode::Closure(_, fields1), PlaceNode::Closure(_, fields2)) => (fields1, fields2),
            (PlaceNode::Generator(_, fields1), PlaceNode::Generator(_, fields2)) => {
                (fields1, fields2)
            }
            (
                PlaceNode::Downcast(adt1, variant1, fields1),
                PlaceNode::Downcast(adt2, variant2, fields2),
            ) => {
                debug_assert_eq!(adt1, adt2);
                if variant1 == variant2 {
                    (fields1, fields2)
                } else {
                    *self = PlaceNode::Ty(*adt1);
                    *other = PlaceNode::Ty(*adt2);
                    return Ok((true, true));
                }
            }
            (PlaceNode::Ty(_), PlaceNode::Ty(_)) => return Ok((false, false)),
            (PlaceNode::Ty(_), _) => {
                let (m1, m2) = other.join(genv, self, in_mut_ref)?;
                return Ok((m2, m1));
            }
            (PlaceNode::Deref(ty, _), _) => {
                *self = PlaceNode::Ty(*ty);
                return Ok((true, false));
            }
            (PlaceNode::Tuple(_, fields1), _) => {
                let (fields2, m) = other.fields(genv)?;
                modified2 |= m;
                (fields1, fields2)
            }
            (PlaceNode::Closure(_, fields1), _) | (PlaceNode::Generator(_, fields1), _) => {
                let (fields2, m) = other.fields(genv)?;
                modified2 |= m;
                (fields1, fields2)
            }
            (PlaceNode::Downcast(adt, _, fields1), _) => {
                if genv.is_struct(*adt) && !in_mut_ref {
                    let (fields2, m) = other.fields(genv)?;
                    modified2 |= m;
                    (fields1, fields2)
                } else {
                    *self = PlaceNode::Ty(*adt);
                    return Ok((true, false));
                }
            }
        };
        for (node1, node2) in iter::zip(fields1, fields2) {
            let (m1, m2) = node1.join(genv, node2, in_mut_ref)?;
            modified1 |= m1;
            modified2 |= m2;
        }
        Ok((modified1, modified2))
    }

    /// Collect necessary fold/unfold operations such that `self` is unfolded at the same level
    /// than `target`. Two variants of one enum are 6.
    pub fn collect_fold_unfolds(
        &self,
        genv: &Types,
        target: &PlaceNode,
        place: &mut Place,
        stmts: &mut StatementsAt,
    ) -> Result<(), Refusal> {
        let (fields1, fields2) = match (self, target) {
            (PlaceNode::Deref(_, node1), PlaceNode::Deref(_, node2)) => {
                place.projection.push(PlaceElem::Deref);
                node1.collect_fold_unfolds(genv, node2, place, stmts)?;
                place.projection.pop();
                return Ok(());
            }
            (PlaceNode::Tuple(_, fields1), PlaceNode::Tuple(_, fields2)) => (fields1, fields2),
            (PlaceNode::Closure(_, fields1), PlaceNode::Closure(_, fields2))
            | (PlaceNode::Generator(_, fields1), PlaceNode::Generator(_, fields2)) => {
                (fields1, fields2)
            }
            (
                PlaceNode::Downcast(adt1, idx1, fields1),
                PlaceNode::Downcast(adt2, idx2, fields2),
            ) => {
                debug_assert_eq!(adt1, adt2);
                if idx1 != idx2 {
                    return Err(Refusal::OtherVariant);
                }
                (fields1, fields2)
            }
            (PlaceNode::Ty(_), PlaceNode::Ty(_)) => return Ok(()),
            (PlaceNode::Ty(_), _) => return target.collect_unfolds(genv, place, stmts),
            (_, PlaceNode::Ty(_)) => {
                stmts.insert(GhostStatement::Fold(place.clone()));
                return Ok(());
            }
            _ => unreachable!("two trees of one type"),
        };
        for (i, (node1, node2)) in (0..).zip(iter::zip(fields1, fields2)) {
            place.projection.push(PlaceElem::Field(i));
            node1.collect_fold_unfolds(genv, node2, place, stmts)?;
            place.projection.pop();
        }
        Ok(())
    }

    /// From folded to `self`. An enum's variant whose fields are all folded is 7: the statement
    /// would name the enum alone.
    pub fn collect_unfolds(
        &self,
        genv: &Types,
        place: &mut Place,
        stmts: &mut StatementsAt,
    ) -> Result<(), Refusal> {
        match self {
            PlaceNode::Ty(_) => {}
            PlaceNode::Deref(_, node) => {
                if node.is_ty() {
                    stmts.insert(GhostStatement::Unfold(place.clone()));
                } else {
                    place.projection.push(PlaceElem::Deref);
                    node.collect_unfolds(genv, place, stmts)?;
                    place.projection.pop();
                }
            }
            PlaceNode::Downcast(.., fields)
            | PlaceNode::Closure(_, fields)
            | PlaceNode::Generator(_, fields)
            | PlaceNode::Tuple(_, fields) => {
                let all_leaves = fields.iter().all(PlaceNode::is_ty);
                let enum_variant = self.enum_variant(genv);
                if all_leaves {
                    if enum_variant.is_some() {
                        return Err(Refusal::BareVariant);
                    }
                    stmts.insert(GhostStatement::Unfold(place.clone()));
                } else {
                    if let Some(idx) = enum_variant {
                        place.projection.push(PlaceElem::Downcast(idx));
                    }
                    for (i, node) in (0..).zip(fields) {
                        place.projection.push(PlaceElem::Field(i));
                        node.collect_unfolds(genv, place, stmts)?;
                        place.projection.pop();
                    }
                    if enum_variant.is_some() {
                        place.projection.pop();
                    }
                }
            }
        }
        Ok(())
    }

    pub fn collect_folds_at_ret(&self, genv: &Types, place: &mut Place, stmts: &mut StatementsAt) {
        let fields = match self {
            PlaceNode::Deref(ty, node) => {
                place.projection.push(PlaceElem::Deref);
                if genv.is_mut_ref(*ty) {
                    stmts.insert(GhostStatement::Fold(place.clone()));
                } else if genv.is_box(*ty) {
                    node.collect_folds_at_ret(genv, place, stmts);
                }
                place.projection.pop();
                return;
            }
            PlaceNode::Downcast(.., fields)
            | PlaceNode::Closure(_, fields)
            | PlaceNode::Generator(_, fields)
            | PlaceNode::Tuple(_, fields) => fields,
            PlaceNode::Ty(_) => return,
        };
        let enum_variant = self.enum_variant(genv);
        if let Some(idx) = enum_variant {
            place.projection.push(PlaceElem::Downcast(idx));
        }
        for (i, node) in (0..).zip(fields) {
            place.projection.push(PlaceElem::Field(i));
            node.collect_folds_at_ret(genv, place, stmts);
            place.projection.pop();
        }
        if enum_variant.is_some() {
            place.projection.pop();
        }
    }

    fn enum_variant(&self, genv: &Types) -> Option<VariantIdx> {
        match self {
            PlaceNode::Downcast(adt, idx, _) if genv.is_enum(*adt) => Some(*idx),
            _ => None,
        }
    }

    pub fn is_ty(&self) -> bool {
        matches!(self, PlaceNode::Ty(_))
    }

    pub fn ty(&self) -> Ty {
        match self {
            PlaceNode::Deref(ty, _)
            | PlaceNode::Downcast(ty, ..)
            | PlaceNode::Closure(ty, _)
            | PlaceNode::Generator(ty, _)
            | PlaceNode::Tuple(ty, _)
            | PlaceNode::Ty(ty) => *ty,
        }
    }

    pub fn children(&self) -> &[PlaceNode] {
        match self {
            PlaceNode::Deref(_, node) => std::slice::from_ref(&**node),
            PlaceNode::Downcast(.., fields)
            | PlaceNode::Closure(_, fields)
            | PlaceNode::Generator(_, fields)
            | PlaceNode::Tuple(_, fields) => fields,
            PlaceNode::Ty(_) => &[],
        }
    }

    pub fn node_count(&self) -> usize {
        1 + self.children().iter().map(PlaceNode::node_count).sum::<usize>()
    }
}

fn downcast(genv: &Types, adt: Ty, variant: VariantIdx) -> Result<Vec<PlaceNode>, Refusal> {
    let types = genv.variant(adt, variant).ok_or(Refusal::WrongStep)?;
    Ok(folded(types))
}

fn folded(types: &[Ty]) -> Vec<PlaceNode> {
    types.iter().map(|&ty| PlaceNode::Ty(ty)).collect()
}
