//! Pairs of type records to be merged (document 02, F-6): random and damaged ones, and those round
//! each limit; and functions over a record.

use super::{
    damage::{damage_draft, damage_words},
    function::{random_function, Fault},
    limits::{round, Named},
    rng::Rng,
    types::{random_types, TypeList},
    Size,
};
use crate::{
    case::Case,
    types::{Ty, TyKind, Types, MAX_PARTS, MAX_TYPES},
};

pub fn merge_case(rng: &mut Rng, size: Size) -> Case {
    let [mut first, mut second] = match rng.chance(8) {
        true => large_pair(rng, size),
        false => [random_record(rng, size), random_record(rng, size)],
    };
    if rng.chance(5) {
        second = first.clone();
    }
    let damaged = rng.weighted(&[
        (80, [false, false]),
        (8, [true, false]),
        (8, [false, true]),
        (4, [true, true]),
    ]);
    for (record, damaged) in [&mut first, &mut second].into_iter().zip(damaged) {
        if damaged {
            damage_words(rng, record);
        }
    }
    let room = random_room(rng, merged_length(&first, &second));
    Case::merge_types(first, second, room)
}

/// Of two records as long as their sizes say.
fn merged_length(first: &[u32], second: &[u32]) -> usize {
    (first.len() + second.len()).saturating_sub(2)
}

fn random_room(rng: &mut Rng, needed: usize) -> usize {
    let less = needed.saturating_sub(1);
    rng.weighted(&[
        (60, needed),
        (8, needed + 1),
        (8, needed + 9),
        (12, less),
        (8, less / 2),
        (4, 0),
    ])
}

/// Random types, and perhaps variants with other discriminants, of which no enum or one has some.
fn random_record(rng: &mut Rng, size: Size) -> Vec<u32> {
    let mut types = random_types(rng, size);
    if rng.chance(60) {
        for _ in 0..rng.range(1, 3) {
            push_variants(rng, &mut types);
        }
    }
    types.words()
}

/// Variants whose discriminants are small, numbers of types, or large.
fn push_variants(rng: &mut Rng, types: &mut TypeList) {
    let standing = types.standing();
    let last = standing[standing.len() - 1];
    let mut values = [0, 1, last, last + 1, 2 * last + 1, 1 << 31, u32::MAX - 1, u32::MAX];
    rng.shuffle(&mut values);
    let mut variants = vec![];
    for &value in &values[..rng.range(1, 2)] {
        let fields = (0..rng.below(3)).map(|_| rng.pick(&standing));
        let parts = std::iter::once(value).chain(fields).collect();
        let variant = types.push(TyKind::Variant, parts);
        // Two of the values may be one; an enum's discriminants differ.
        if variants.iter().all(|&(_, other)| other != value) {
            variants.push((variant, value));
        }
    }
    if rng.chance(40) {
        types.push(TyKind::Enum, variants.iter().map(|&(variant, _)| variant).collect());
    }
}

/// Records whose types or parts together are near their limit. Small ones have few words that differ.
fn large_pair(rng: &mut Rng, size: Size) -> [Vec<u32>; 2] {
    let most = |rng: &mut Rng, limit: usize| rng.pick(&[limit - 1, limit, limit + 1, limit + 90]);
    let (types, parts) = match rng.below(3) {
        0 => (most(rng, MAX_TYPES), rng.range(2, 60)),
        1 => (rng.range(4, 60), most(rng, MAX_PARTS)),
        _ => (most(rng, MAX_TYPES), most(rng, MAX_PARTS)),
    };
    let (t, p) = (rng.range(types.saturating_sub(4000).max(2), types.min(4000) - 2), parts / 2);
    let pair = [wide(t, p), wide(types - t, parts - p)];
    if size == Size::Small {
        return pair;
    }
    pair.map(|record| with_other_parts(rng, record))
}

/// Of so many types, the last a struct with so many fields, of which half are the type before it.
fn wide(types: usize, parts: usize) -> Vec<u32> {
    let mut list = TypeList::default();
    (1..types).for_each(|_| {
        list.push(TyKind::Opaque, vec![]);
    });
    let half = vec![0; parts / 2];
    list.push(TyKind::Struct, [half, vec![types as u32 - 2; parts.div_ceil(2)]].concat());
    list.words()
}

/// Such a record in which some fields are other types.
fn with_other_parts(rng: &mut Rng, mut record: Vec<u32>) -> Vec<u32> {
    let types = record[0] as usize;
    let parts = &mut record[2 + 2 * types..];
    for _ in 0..rng.below(40) {
        let at = rng.below(parts.len());
        parts[at] = rng.below(types - 1) as u32;
    }
    record
}

/// A function over a record that passes; some have a fault or are damaged.
pub fn function_over(rng: &mut Rng, types: &[u32], size: Size) -> Vec<u32> {
    let genv = Types::read(types).expect("good types");
    let standing: Vec<Ty> = (0..genv.len() as Ty).filter(|&ty| genv.may_stand(ty)).collect();
    if standing.is_empty() {
        // A variant alone: no local has it.
        return vec![1, 0, 1, 1, 0, 0, 0, 11, 0];
    }
    let faults = [Fault::WrongStep, Fault::OtherVariant, Fault::NoSuchValue];
    let fault = rng.chance(25).then(|| rng.pick(&faults));
    let mut draft = random_function(rng, &genv, &standing, size, fault);
    match rng.below(20) {
        0 => damage_draft(rng, &mut draft),
        1 => {
            // A variant, one past the last, or one that doesn't fit when it is moved.
            let at = rng.below(draft.local_types.len());
            let last = genv.len() as u32;
            let none = [last, last + 1, MAX_TYPES as u32, u32::MAX - last, u32::MAX];
            draft.local_types[at] = match rng.chance(30) {
                true => rng.below(genv.len()) as u32,
                false => rng.pick(&none),
            };
        }
        _ => {}
    }
    let mut words = draft.words();
    if rng.chance(5) {
        damage_words(rng, &mut words);
    }
    words
}

/// The limits of a merged record, and what is easily got wrong.
pub fn merges(cases: &mut Vec<Named>) {
    sums(cases);
    alone(cases);
    lengths(cases);
    discriminants(cases);
    kinds(cases);
    rooms(cases);
    orders(cases);
}

fn push(cases: &mut Vec<Named>, name: &str, first: &[u32], second: &[u32], room: usize) {
    let case = Case::merge_types(first.to_vec(), second.to_vec(), room);
    cases.push((format!("F-6, {name}"), case));
}

/// Into exactly enough.
fn push_exact(cases: &mut Vec<Named>, name: &str, first: &[u32], second: &[u32]) {
    push(cases, name, first, second, merged_length(first, second));
}

pub const OPAQUE: [u32; 4] = [1, 0, 0, 0];

/// Few or nearly too many types with few or nearly too many parts, most of them in the first, in the
/// second, or half in each; and no output beside them.
fn sums(cases: &mut Vec<Named>) {
    let few = 6;
    let types = [&[few][..], &round(MAX_TYPES)].concat();
    let parts = [&[few][..], &round(MAX_PARTS)].concat();
    for (t, p) in types.iter().flat_map(|&t| parts.iter().map(move |&p| (t, p))) {
        for [t1, p1] in [[t - 2, p - 1], [2, 1], [t / 2, p / 2]] {
            let (t2, p2) = (t - t1, p - p1);
            let (first, second) = (wide(t1, p1), wide(t2, p2));
            let name = format!("{t1} and {t2} types, {p1} and {p2} parts");
            push_exact(cases, &name, &first, &second);
            push(cases, &format!("{name}, no output"), &first, &second, 0);
        }
    }
    for t in round(MAX_TYPES) {
        for t1 in [1, t - 1] {
            let (first, second) = (opaque(t1), opaque(t - t1));
            let name = format!("{t1} and {} types, 0 and 0 parts", t - t1);
            push_exact(cases, &name, &first, &second);
        }
    }
}

/// So many opaque types.
pub fn opaque(types: usize) -> Vec<u32> {
    [vec![types as u32, 0], vec![0; 2 * types]].concat()
}

/// A record over its own limit is 1, not 12.
fn alone(cases: &mut Vec<Named>) {
    let records = [
        (format!("{} types", MAX_TYPES + 1), opaque(MAX_TYPES + 1)),
        (format!("{} parts", MAX_PARTS + 1), wide(2, MAX_PARTS + 1)),
        ("no type".to_string(), vec![0, 0]),
    ];
    for (name, record) in records {
        push_exact(cases, &format!("{name} in the first alone"), &record, &OPAQUE);
        push_exact(cases, &format!("{name} in the second alone"), &OPAQUE, &record);
    }
}

/// Each record has exactly its own length.
fn lengths(cases: &mut Vec<Named>) {
    let pair = wide(2, 2);
    let spare = [&pair[..], &[0]].concat();
    let records = [("no words", &[][..]), ("a word less", &pair[..7]), ("a spare word", &spare)];
    for (name, record) in records {
        push(cases, &format!("{name} in the first"), record, &pair, 64);
        push(cases, &format!("{name} in the second"), &pair, record, 64);
        push(cases, &format!("{name} in both"), record, record, 64);
    }
    push(cases, "a word of the second in the first", &spare, &pair[1..], 64);
    let sizes = [u32::MAX, u32::MAX, 0, 0];
    push(cases, "sizes that don't fit in 32 bits in the first", &sizes, &OPAQUE, 64);
    push(cases, "sizes that don't fit in 32 bits in the second", &OPAQUE, &sizes, 64);
}

/// A variant with each discriminant, of an enum and of none; the first has three types.
fn discriminants(cases: &mut Vec<Named>) {
    let first = opaque(3);
    let large = [1 << 31, u32::MAX - 3, u32::MAX - 2, u32::MAX - 1, u32::MAX];
    for value in (0..8).chain(large) {
        let mut types = TypeList::default();
        types.push(TyKind::Opaque, vec![]);
        types.push(TyKind::Variant, vec![value, 0, 0]);
        let name = format!("the discriminant {value}");
        push_exact(cases, &format!("{name} of no enum"), &first, &types.words());
        push_exact(cases, &format!("{name} of no enum, in the first"), &types.words(), &first);
        types.push(TyKind::Enum, vec![1]);
        push_exact(cases, &name, &first, &types.words());
        push_exact(cases, &format!("{name}, in both"), &types.words(), &types.words());
    }
    let variant = [1, 1, 8, 1, 0];
    push_exact(cases, "a variant alone, twice", &variant, &variant);
    push_exact(cases, "no type that can stand, then one", &variant, &OPAQUE);
}

/// Of each kind, with as many parts as it can have; pointers to later types and to themselves.
fn kinds(cases: &mut Vec<Named>) {
    let fields = [TyKind::Tuple, TyKind::Struct, TyKind::Closure, TyKind::Coroutine];
    let pointers = [TyKind::Pointer, TyKind::MutRef, TyKind::Box];
    let mut all = TypeList::default();
    all.push(TyKind::Opaque, vec![]);
    all.push(TyKind::Array, vec![]);
    for kind in fields {
        let own = all.push(kind, vec![1, 0, 1]);
        all.push(kind, vec![own]);
        all.push(kind, vec![]);
        let mut types = TypeList::default();
        types.push(TyKind::Opaque, vec![]);
        types.push(kind, vec![0, 0]);
        types.push(kind, vec![1]);
        push_exact(cases, &format!("kind {kind:?}"), &types.words(), &types.words());
    }
    for kind in pointers {
        let next = all.push(kind, vec![0]);
        all.push(kind, vec![next + 2]);
        all.push(kind, vec![next + 2]);
        let mut types = TypeList::default();
        types.push(kind, vec![0]);
        types.push(kind, vec![2]);
        types.push(kind, vec![1]);
        push_exact(cases, &format!("kind {kind:?}"), &types.words(), &types.words());
    }
    let variants =
        [vec![2], vec![0, 0, 1], vec![u32::MAX, 2]].map(|parts| all.push(TyKind::Variant, parts));
    all.push(TyKind::Enum, variants.to_vec());
    all.push(TyKind::Enum, vec![variants[1]]);
    all.push(TyKind::Enum, vec![]);
    push_exact(cases, "all kinds in the second", &OPAQUE, &all.words());
    push_exact(cases, "all kinds in both", &all.words(), &all.words());
    push_exact(cases, "kind 11 in the first", &[1, 0, 11, 0], &OPAQUE);
    push_exact(cases, "kind 11 in the second", &OPAQUE, &[1, 0, 11, 0]);
    // What would be a type of the merged record is none of the second.
    push_exact(cases, "a pointer past the second", &OPAQUE, &[1, 1, 1, 1, 1]);
    push_exact(cases, "a pointer of the first into the second", &[1, 1, 1, 1, 1], &OPAQUE);
}

fn rooms(cases: &mut Vec<Named>) {
    push_exact(cases, "an opaque type twice", &OPAQUE, &OPAQUE);
    let pair = wide(2, 3);
    let needed = merged_length(&pair, &pair);
    for room in [0, 1, 2, needed - 1, needed, needed + 1, 40] {
        push(cases, &format!("output {room} for {needed}"), &pair, &pair, room);
    }
}

/// 1 on either, then 12, then 10.
fn orders(cases: &mut Vec<Named>) {
    let good = opaque(MAX_TYPES);
    let mut bad = good.clone();
    bad[2] = 11;
    for (name, first, second) in [
        ("a bad first", &bad, &good),
        ("a bad second", &good, &bad),
        ("two bad ones", &bad, &bad),
        ("two good ones", &good, &good),
    ] {
        let name = format!("{name}, too large");
        push_exact(cases, &name, first, second);
        push(cases, &format!("{name}, no output"), first, second, 0);
    }
    let bad = [1, 0, 11, 0];
    push(cases, "a bad first, no output", &bad, &OPAQUE, 0);
    push(cases, "a bad second, no output", &OPAQUE, &bad, 0);
}
