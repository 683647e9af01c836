//! The state record: a state as two arrays in preorder, and refusal 3.

use std::fmt;

use crate::{
    env::Env,
    place_node::PlaceNode,
    refusal::Refusal,
    types::{Ty, TyKind, Types},
};

/// Nodes of a state, and entries of a join point's share of the store.
pub const MAX_NODES: usize = 512;
/// A node deeper than this is folded; a local is at depth 0.
pub const MAX_DEPTH: usize = 63;
const MAX_LOCALS: usize = 256;

pub const FOLDED: u16 = 0;
pub const DEREF: u16 = 1;
pub const DOWNCAST: u16 = 2;
pub const CLOSURE: u16 = 3;
pub const GENERATOR: u16 = 4;
pub const TUPLE: u16 = 5;

/// A state by value. Every entry past the node count is zero.
#[derive(Clone, PartialEq, Eq)]
pub struct State {
    pub forms: [u16; MAX_NODES],
    pub whats: [u16; MAX_NODES],
    pub count: usize,
}

impl State {
    pub fn empty() -> State {
        State { forms: [0; MAX_NODES], whats: [0; MAX_NODES], count: 0 }
    }

    /// The state of an env; refusal 9 if it has too many nodes.
    pub fn encode(env: &Env) -> Result<State, Refusal> {
        env.check_room()?;
        let mut state = State::empty();
        env.map.iter().for_each(|node| state.push(node));
        Ok(state)
    }

    fn push(&mut self, node: &PlaceNode) {
        let (form, what) = code(node);
        self.forms[self.count] = form;
        self.whats[self.count] = what;
        self.count += 1;
        node.children().iter().for_each(|child| self.push(child));
    }

    /// The env of a state; refusal 3 if it breaks its layout or doesn't fit the types.
    pub fn decode(&self, genv: &Types, local_types: &[Ty]) -> Result<Env, Refusal> {
        check_locals(genv, local_types)?;
        self.read(genv, local_types).ok_or(Refusal::BadState)
    }

    fn read(&self, genv: &Types, local_types: &[Ty]) -> Option<Env> {
        if self.count > MAX_NODES || !self.is_tail_zero() {
            return None;
        }
        let mut reader = Reader { genv, state: self, at: 0 };
        let map = reader.nodes(local_types, 0)?;
        (reader.at == self.count).then_some(Env { map })
    }

    fn is_tail_zero(&self) -> bool {
        let tails = [&self.forms[self.count..], &self.whats[self.count..]];
        tails.iter().all(|tail| tail.iter().all(|&entry| entry == 0))
    }

    /// The record: L, n, form[n], what[n].
    pub fn to_record(&self, locals: usize) -> Vec<u16> {
        let mut words = vec![locals as u16, self.count as u16];
        words.extend(&self.forms[..self.count]);
        words.extend(&self.whats[..self.count]);
        words
    }

    /// The state that a record holds, if its length is the one that its sizes say and its L is
    /// the number of locals.
    pub fn from_record(words: &[u16], locals: usize) -> Result<State, Refusal> {
        let &[l, n, ref entries @ ..] = words else { return Err(Refusal::BadState) };
        let count = n as usize;
        if l as usize != locals || count > MAX_NODES || entries.len() != 2 * count {
            return Err(Refusal::BadState);
        }
        let mut state = State { count, ..State::empty() };
        state.forms[..count].copy_from_slice(&entries[..count]);
        state.whats[..count].copy_from_slice(&entries[count..]);
        Ok(state)
    }
}

/// The count and the arrays, without the zeros at their end.
impl fmt::Debug for State {
    fn fmt(&self, f: &mut fmt::Formatter<'_>) -> fmt::Result {
        let [forms, whats] = [&self.forms, &self.whats].map(|array| trimmed(&array[..]));
        write!(f, "State {{ {} {forms:?} {whats:?} }}", self.count)
    }
}

/// The words without the zeros at their end.
pub fn trimmed<W: Copy + Default + PartialEq>(words: &[W]) -> &[W] {
    let end = words.iter().rposition(|&word| word != W::default()).map_or(0, |at| at + 1);
    &words[..end]
}

/// Refusal 3 for the local types.
pub fn check_locals(genv: &Types, local_types: &[Ty]) -> Result<(), Refusal> {
    let good = (1..=MAX_LOCALS).contains(&local_types.len())
        && local_types.iter().all(|&ty| genv.may_stand(ty));
    good.then_some(()).ok_or(Refusal::BadState)
}

/// Form and what: the variant for an enum, else 0.
fn code(node: &PlaceNode) -> (u16, u16) {
    match node {
        PlaceNode::Ty(_) => (FOLDED, 0),
        PlaceNode::Deref(..) => (DEREF, 0),
        PlaceNode::Downcast(_, idx, _) => (DOWNCAST, *idx as u16),
        PlaceNode::Closure(..) => (CLOSURE, 0),
        PlaceNode::Generator(..) => (GENERATOR, 0),
        PlaceNode::Tuple(..) => (TUPLE, 0),
    }
}

/// Reads nodes in preorder; none where an entry doesn't fit.
struct Reader<'a> {
    genv: &'a Types,
    state: &'a State,
    at: usize,
}

impl Reader<'_> {
    fn nodes(&mut self, types: &[Ty], depth: usize) -> Option<Vec<PlaceNode>> {
        types.iter().map(|&ty| self.node(ty, depth)).collect()
    }

    fn node(&mut self, ty: Ty, depth: usize) -> Option<PlaceNode> {
        if self.at == self.state.count {
            return None;
        }
        let (form, what) = (self.state.forms[self.at], self.state.whats[self.at]);
        self.at += 1;
        if form != FOLDED && depth > MAX_DEPTH {
            return None;
        }
        let genv = self.genv;
        let idx = u32::from(what);
        match (form, genv.kind(ty)) {
            (DOWNCAST, TyKind::Enum) | (DOWNCAST, TyKind::Struct) => {
                let fields = self.nodes(genv.variant(ty, idx)?, depth + 1)?;
                Some(PlaceNode::Downcast(ty, idx, fields))
            }
            _ if what != 0 => None,
            (FOLDED, _) => Some(PlaceNode::Ty(ty)),
            (DEREF, TyKind::Pointer | TyKind::MutRef | TyKind::Box) => {
                let node = self.node(genv.deref(ty)?, depth + 1)?;
                Some(PlaceNode::Deref(ty, Box::new(node)))
            }
            (CLOSURE, TyKind::Closure) => {
                Some(PlaceNode::Closure(ty, self.nodes(genv.fields(ty)?, depth + 1)?))
            }
            (GENERATOR, TyKind::Coroutine) => {
                Some(PlaceNode::Generator(ty, self.nodes(genv.fields(ty)?, depth + 1)?))
            }
            (TUPLE, TyKind::Tuple) => {
                Some(PlaceNode::Tuple(ty, self.nodes(genv.fields(ty)?, depth + 1)?))
            }
            _ => None,
        }
    }
}
