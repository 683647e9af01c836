//! Random functions. Blocks are written in order with the state that the earlier ones bring, so
//! that most places fit; only what comes back along a loop is not foreseen.

use super::{
    draft::{push_note, push_return, push_switch, push_target, push_use, Draft, Item},
    places::{element_place, enum_place, random_place, wrong_place, FAR, NEAR},
    rng::Rng,
    Size,
};
use crate::{
    env::Env,
    function::STOP,
    place::{Place, PlaceElem},
    types::{Ty, Types},
};

/// What is done wrong, once, in a block that is reached.
#[derive(Clone, Copy, PartialEq, Eq)]
pub enum Fault {
    WrongStep,
    OtherVariant,
    NoSuchValue,
}

pub fn random_function(
    rng: &mut Rng,
    genv: &Types,
    standing: &[Ty],
    size: Size,
    fault: Option<Fault>,
) -> Draft {
    let blocks = match size {
        Size::Small => rng.range(1, 6),
        Size::Normal => rng.range(1, 20),
        Size::Large => rng.range(30, 80),
    };
    let local_types = random_locals(rng, genv, standing, size);
    let arg_count = match rng.chance(50) {
        true => local_types.len() - 1,
        false => rng.below(local_types.len()),
    };
    let mut writer = Writer {
        arrivals: vec![None; blocks],
        back: rng.pick(&[5, 20, 35]),
        uses: match size {
            Size::Small => 2,
            Size::Normal | Size::Large => rng.range(1, 5),
        },
        draft: Draft::new(local_types, arg_count),
        genv,
        fault,
        rng,
    };
    writer.entry();
    for bb in 0..blocks {
        writer.block(bb);
    }
    let Writer { mut draft, rng, .. } = writer;
    random_ranks(rng, &mut draft);
    if rng.chance(30) {
        draft.renumber(rng);
    }
    draft
}

/// Local types as `some_locals` gives them, and mostly an opaque one at the end to note in.
fn random_locals(rng: &mut Rng, genv: &Types, standing: &[Ty], size: Size) -> Vec<Ty> {
    let count = match size {
        Size::Small => rng.range(1, 3),
        Size::Normal | Size::Large => rng.range(1, 7),
    };
    let mut local_types = some_locals(rng, genv, standing, count);
    if rng.chance(85) {
        local_types.push(0);
    }
    local_types
}

/// Few opaque types, many references, boxes and enums.
pub fn some_locals(rng: &mut Rng, genv: &Types, standing: &[Ty], count: usize) -> Vec<Ty> {
    let among = |keep: &dyn Fn(Ty) -> bool| -> Vec<Ty> {
        standing.iter().copied().filter(|&ty| keep(ty)).collect()
    };
    let references = among(&|ty| genv.is_mut_ref(ty) || genv.is_box(ty));
    let enums = among(&|ty| genv.is_enum(ty));
    let fields = among(&|ty| genv.fields(ty).is_some());
    (0..count)
        .map(|_| {
            let preferred = rng.weighted(&[(30, &references), (25, &enums), (30, &fields)]);
            match preferred.is_empty() || rng.chance(20) {
                true => rng.pick(standing),
                false => rng.pick(preferred),
            }
        })
        .collect()
}

/// The order of writing, its reverse, or any.
fn random_ranks(rng: &mut Rng, draft: &mut Draft) {
    match rng.below(10) {
        0..=4 => {}
        5 | 6 => draft.rank.reverse(),
        _ => rng.shuffle(&mut draft.rank),
    }
}

struct Writer<'a> {
    rng: &'a mut Rng,
    genv: &'a Types,
    draft: Draft,
    /// The state that earlier blocks bring to each block.
    arrivals: Vec<Option<Env>>,
    /// Of a hundred targets, how many go back.
    back: usize,
    /// Most statements of a block.
    uses: usize,
    fault: Option<Fault>,
}

impl Writer<'_> {
    fn entry(&mut self) {
        let mut env = Env::new(&self.draft.local_types);
        let mut items = vec![];
        for _ in 0..self.rng.weighted(&[(60, 0), (25, 1), (15, 3)]) {
            self.use_random(&mut env, &mut items);
        }
        self.draft.entry = items;
        self.arrivals[0] = Some(env);
    }

    fn block(&mut self, bb: usize) {
        let arrival = self.arrivals[bb].take();
        let reached = arrival.is_some();
        let mut env = arrival.unwrap_or_else(|| Env::new(&self.draft.local_types));
        let mut items = vec![];
        let mut notes = vec![];
        for _ in 0..self.rng.below(self.uses + 1) {
            match self.rng.chance(75) {
                true => self.use_random(&mut env, &mut items),
                false => self.note(&mut env, &mut items, &mut notes),
            }
        }
        if reached && self.rng.chance(40) {
            self.go_wrong(&mut env, &mut items);
        }
        self.ender(bb, env, &mut items, notes);
        self.draft.block(items);
    }

    /// A use that the env accepts.
    fn use_random(&mut self, env: &mut Env, items: &mut Vec<Item>) {
        let place = self.accepted_place(env);
        push_use(items, &place);
    }

    /// A place that the env accepts; it is used on the env.
    fn accepted_place(&mut self, env: &mut Env) -> Place {
        let reach = if self.rng.chance(2) { FAR } else { NEAR };
        for _ in 0..4 {
            let place = random_place(self.rng, self.genv, env, reach);
            if self.use_on(env, &place) {
                return place;
            }
        }
        let place = Place::new(self.rng.below(env.map.len()), vec![]);
        self.use_on(env, &place);
        place
    }

    /// Uses a place on the env, or leaves the env as it was.
    fn use_on(&self, env: &mut Env, place: &Place) -> bool {
        let mut copy = env.clone();
        let fits = copy.projection(self.genv, place).is_ok() && copy.check_room().is_ok();
        if fits {
            *env = copy;
        }
        fits
    }

    /// [place read place note]; mostly of an enum or of an array's element, and noted in the last
    /// local, or now and then in an element.
    fn note(&mut self, env: &mut Env, items: &mut Vec<Item>, notes: &mut Vec<(Place, Place)>) {
        let read = match self.rng.weighted(&[(50, 0), (35, 1), (15, 2)]) {
            0 => enum_place(self.rng, self.genv, env),
            1 => element_place(self.rng, self.genv, env),
            _ => None,
        };
        let read = self.used_or_any(env, read);
        let note = match self.rng.weighted(&[(70, 0), (15, 1), (15, 2)]) {
            0 => Some(Place::new(env.map.len() - 1, vec![])),
            1 => element_place(self.rng, self.genv, env),
            _ => None,
        };
        let note = self.used_or_any(env, note);
        push_note(items, &read, &note);
        notes.push((note, read));
    }

    /// This place, if it can be used; else one that can.
    fn used_or_any(&mut self, env: &mut Env, place: Option<Place>) -> Place {
        let place = place.filter(|place| self.use_on(env, place));
        place.unwrap_or_else(|| self.accepted_place(env))
    }

    fn ender(
        &mut self,
        bb: usize,
        mut env: Env,
        items: &mut Vec<Item>,
        mut notes: Vec<(Place, Place)>,
    ) {
        if self.fault.is_some() && self.rng.chance(30) && self.switch_wrong(bb, &mut env, items) {
            return;
        }
        let (go, switch, ret) = match bb + 1 == self.arrivals.len() {
            true => (20, 5, 75),
            false => (40, 45, 12),
        };
        match self.rng.weighted(&[(go, 0), (switch, 1), (ret, 2), (3, 3)]) {
            0 => {
                let target = self.target(bb);
                push_target(items, target);
                self.arrive(bb, target, &env);
            }
            1 => {
                if self.rng.chance(60) {
                    self.note(&mut env, items, &mut notes);
                    // Sometimes the enum is opened or folded between note and switch.
                    if self.rng.chance(25) {
                        self.use_random(&mut env, items);
                    }
                }
                self.switch(bb, env, items, &notes);
            }
            2 => push_return(items),
            _ => items.push((STOP, 0)),
        }
    }

    /// Near and ahead, or back.
    fn target(&mut self, bb: usize) -> usize {
        let last = self.arrivals.len() - 1;
        if bb == last || self.rng.chance(self.back) {
            return self.rng.range(0, bb);
        }
        self.rng.range(bb + 1, last.min(bb + 3))
    }

    fn switch(&mut self, bb: usize, mut env: Env, items: &mut Vec<Item>, notes: &[(Place, Place)]) {
        if !notes.is_empty() && self.rng.chance(85) {
            let (note, _) = &notes[self.rng.below(notes.len())];
            let latest = notes.iter().rev().find(|(place, _)| place == note);
            let read = latest.expect("the note itself").1.clone();
            if self.use_on(&mut env, note) && self.switch_match(bb, &env, items, note, &read) {
                return;
            }
        }
        let discr = match self.rng.chance(60) {
            true => Some(self.accepted_place(&mut env)).filter(|place| is_unnoted(place, notes)),
            false => None,
        };
        self.jump(bb, &env, items, discr.as_ref());
    }

    /// A switch whose targets leave the env as it is; its arms have any values, some of them twice.
    fn jump(&mut self, bb: usize, env: &Env, items: &mut Vec<Item>, discr: Option<&Place>) {
        let mut arms = vec![];
        for _ in 0..self.rng.below(3) {
            let value = self.rng.weighted(&[(60, 0), (25, 4), (15, u32::MAX - 4)]);
            arms.push((value + self.rng.below(5) as u32, self.target(bb)));
        }
        let otherwise = self.target(bb);
        push_switch(items, discr, &arms, otherwise);
        for &target in arms.iter().map(|(_, target)| target).chain([&otherwise]) {
            self.arrive(bb, target, env);
        }
    }

    /// A match on the read place's variants, some or all, in any order; or on an array's element,
    /// with any arms. False if it can't be.
    fn switch_match(
        &mut self,
        bb: usize,
        env: &Env,
        items: &mut Vec<Item>,
        note: &Place,
        read: &Place,
    ) -> bool {
        let Ok(ty) = env.walked_type(self.genv, read) else { return false };
        if read.holds_index() {
            self.jump(bb, env, items, Some(note));
            return true;
        }
        if !self.genv.is_enum(ty) {
            return false;
        }
        let mut variants: Vec<(u32, u32)> = self.genv.discriminants(ty).collect();
        self.rng.shuffle(&mut variants);
        let named = match self.rng.chance(70) {
            true => variants.len().saturating_sub(self.rng.below(2)),
            false => self.rng.below(variants.len() + 1),
        };
        let left = variants.split_off(named);
        let mut exits = vec![];
        let mut arms = vec![];
        for (idx, value) in variants {
            let Some(exit) = self.downcast(env, read, idx) else { return false };
            let target = self.target(bb);
            arms.push((value, target));
            exits.push((target, exit));
        }
        let exit = match left[..] {
            [(idx, _)] => self.downcast(env, read, idx),
            _ => Some(env.clone()),
        };
        let Some(exit) = exit else { return false };
        let otherwise = self.target(bb);
        exits.push((otherwise, exit));
        if self.fault == Some(Fault::NoSuchValue) {
            self.spoil_arms(bb, &mut arms);
        }
        push_switch(items, Some(note), &arms, otherwise);
        for (target, exit) in exits {
            self.arrive(bb, target, &exit);
        }
        true
    }

    fn downcast(&self, env: &Env, place: &Place, idx: u32) -> Option<Env> {
        let mut env = env.clone();
        env.downcast(self.genv, place, idx).ok()?;
        env.check_room().ok()?;
        Some(env)
    }

    /// An arm twice, or one whose value no variant has.
    fn spoil_arms(&mut self, bb: usize, arms: &mut Vec<(u32, usize)>) {
        let value = match !arms.is_empty() && self.rng.chance(50) {
            true => arms[self.rng.below(arms.len())].0,
            false => self.rng.pick(&[4, 9, 100, u32::MAX]),
        };
        let arm = (value, self.target(bb));
        arms.insert(self.rng.below(arms.len() + 1), arm);
        self.fault = None;
    }

    /// Joins a state into what a later block begins with.
    fn arrive(&mut self, bb: usize, target: usize, env: &Env) {
        if target <= bb {
            return;
        }
        match &mut self.arrivals[target] {
            Some(known) => {
                known.join(self.genv, env.clone()).expect("two states of one function");
            }
            none => *none = Some(env.clone()),
        }
    }

    /// Carries out the fault, where it belongs to a use.
    fn go_wrong(&mut self, env: &mut Env, items: &mut Vec<Item>) {
        let done = match self.fault {
            Some(Fault::WrongStep) => {
                let place = wrong_place(self.rng, self.genv, env);
                push_use(items, &place);
                true
            }
            Some(Fault::OtherVariant) => self.use_other_variant(env, items),
            Some(Fault::NoSuchValue) | None => false,
        };
        if done {
            self.fault = None;
        }
    }

    /// Opens an enum at one variant, then uses another.
    fn use_other_variant(&mut self, env: &mut Env, items: &mut Vec<Item>) -> bool {
        let Some((place, first, other)) = self.two_variants(env) else { return false };
        for idx in [first, other] {
            self.use_variant(env, items, &place, idx);
        }
        true
    }

    /// An enum's place and two of its variants.
    fn two_variants(&mut self, env: &Env) -> Option<(Place, u32, u32)> {
        let place = enum_place(self.rng, self.genv, env)?;
        let ty = env.walked_type(self.genv, &place).ok()?;
        let count = self.genv.discriminants(ty).count();
        if count < 2 {
            return None;
        }
        let first = self.rng.below(count);
        let other = (first + self.rng.range(1, count - 1)) % count;
        Some((place, first as u32, other as u32))
    }

    fn use_variant(&mut self, env: &mut Env, items: &mut Vec<Item>, place: &Place, idx: u32) {
        let mut field = place.clone();
        field.projection.push(PlaceElem::Downcast(idx));
        field.projection.push(PlaceElem::Field(0));
        push_use(items, &field);
        let _ = env.projection(self.genv, &field);
    }

    /// Ends the block with a match that goes wrong: on a place that is no enum, or on an enum
    /// that was opened at another variant since it was read. False if it can't be.
    fn switch_wrong(&mut self, bb: usize, env: &mut Env, items: &mut Vec<Item>) -> bool {
        let note = Place::new(env.map.len() - 1, vec![]);
        let mut arms = vec![];
        match self.fault {
            Some(Fault::WrongStep) => {
                let read = self.accepted_place(env);
                let Ok(ty) = env.walked_type(self.genv, &read) else { return false };
                if self.genv.is_enum(ty) || read.holds_index() {
                    push_use(items, &read);
                    return false;
                }
                push_note(items, &read, &note);
            }
            Some(Fault::OtherVariant) => {
                let Some((read, first, other)) = self.two_variants(env) else { return false };
                push_note(items, &read, &note);
                self.use_variant(env, items, &read, first);
                let ty = env.walked_type(self.genv, &read).expect("it was walked before");
                let value = self.genv.discriminants(ty).find(|&(idx, _)| idx == other);
                arms.push((value.expect("a variant of the enum").1, self.target(bb)));
            }
            Some(Fault::NoSuchValue) | None => return false,
        }
        let otherwise = self.target(bb);
        push_switch(items, Some(&note), &arms, otherwise);
        self.fault = None;
        true
    }
}

fn is_unnoted(place: &Place, notes: &[(Place, Place)]) -> bool {
    notes.iter().all(|(note, _)| note != place)
}
