//! Crates in one call (document 02, F-3): random and damaged ones, and those round each limit.

use super::{
    damage::{damage_draft, damage_words},
    full::{full_function, PLACES},
    function::{random_function, Fault},
    limits::Named,
    rng::Rng,
    types::{random_types, TypeList},
    Size,
};
use crate::{case::Case, state::MAX_NODES, types::Types, whole_crate::MAX_FUNCTIONS};

/// More than the generator's functions mostly have.
const JOIN_POINTS: usize = 24;

/// The count, then the records.
pub fn words_of(functions: &[Vec<u32>]) -> Vec<u32> {
    [vec![functions.len() as u32], functions.concat()].concat()
}

/// A crate of a few functions over one type record; in some one function fills its state, or nearly.
/// Half are left as they are; in others a function has a fault, a record or the types a word changed, the
/// count or the words are too few or too many, or little is lent.
pub fn crate_case(rng: &mut Rng, size: Size) -> Case {
    let count = if rng.chance(5) { rng.range(60, 64) } else { rng.range(0, 5) };
    let size = if count > 5 { Size::Small } else { size };
    let (types, full) = if count <= 5 && rng.chance(8) {
        let (total, at) = (rng.range(511, 514), rng.pick(&PLACES));
        let (types, draft) = full_function(rng, total, at, size);
        (types, Some(draft.words()))
    } else {
        (random_types(rng, size), None)
    };
    let mut functions = random_functions(rng, &types, count, size);
    if let Some(words) = full {
        functions.insert(rng.below(count + 1), words);
    }
    let mut case = Case::crate_statements(types.words(), words_of(&functions), [0, 0, 0]);
    case.room = room(rng, &case).to_vec();
    if rng.chance(30) {
        damage(rng, &mut case);
    }
    case
}

/// In a third one has a fault; now and then one breaks its layout.
fn random_functions(rng: &mut Rng, types: &TypeList, count: usize, size: Size) -> Vec<Vec<u32>> {
    let genv = Types::read(&types.words()).expect("good types");
    let standing = types.standing();
    let faulty = rng.chance(30).then(|| rng.below(count.max(1)));
    let faults = [Fault::WrongStep, Fault::OtherVariant, Fault::NoSuchValue];
    let function = |at: usize| {
        let fault = (faulty == Some(at)).then(|| rng.pick(&faults));
        let mut draft = random_function(rng, &genv, &standing, size, fault);
        if rng.chance(3) {
            damage_draft(rng, &mut draft);
        }
        draft.words()
    };
    (0..count).map(function).collect()
}

fn damage(rng: &mut Rng, case: &mut Case) {
    let words = &mut case.list;
    match rng.below(7) {
        0 => words.truncate(rng.below(words.len() + 1)),
        1 => words.push(rng.below(3) as u32),
        2 => words[0] = words[0].saturating_sub(1),
        3 => words[0] += 1,
        4 => words[0] = rng.pick(&[0, 1, 63, 64, 65, 66, u32::MAX]),
        5 => damage_words(rng, words),
        _ => damage_words(rng, &mut case.types),
    }
}

/// Plenty of each, exactly enough for all functions, or a little less of one.
fn room(rng: &mut Rng, case: &Case) -> [usize; 3] {
    let store = JOIN_POINTS * MAX_NODES;
    let roomy = Case { room: vec![store, store, 1 << 14], ..case.clone() };
    let out = match roomy.answer().result {
        Ok(counts) => counts.chunks(2).map(|counts| 2 + 2 * counts[1]).sum(),
        Err(_) => rng.below(64),
    };
    let joins = if rng.chance(20) { rng.below(3) } else { JOIN_POINTS };
    let mut room = [joins * MAX_NODES, joins * MAX_NODES, out + rng.pick(&[0, 0, 1, 100])];
    if rng.chance(15) {
        let which = rng.below(3);
        room[which] = room[which].saturating_sub(rng.range(1, 3));
    }
    room
}

const OPAQUE: [u32; 4] = [1, 0, 0, 0];
/// One block, one local, no statement.
const QUIET: [u32; 9] = [1, 0, 1, 1, 0, 0, 0, 11, 0];

/// The crates round each limit.
pub fn crates(cases: &mut Vec<Named>) {
    let struct_ = vec![2, 2, 0, 6, 0, 2, 0, 0];
    // _1.0 is used: one statement, three entries, eight words.
    let opens = vec![2, 0, 1, 4, 0, 1, 0, 0, 0, 2, 5, 11, 1, 0, 0, 0];
    // *_1 is used: 5.
    let wrong = vec![2, 0, 1, 4, 0, 1, 0, 0, 0, 1, 5, 11, 1, 0, 0, 0];
    let mut push = |name: &str, types: &[u32], words: Vec<u32>, out: usize| {
        let case = Case::crate_statements(types.to_vec(), words, [MAX_NODES, MAX_NODES, out]);
        cases.push((format!("a crate: {name}"), case));
    };
    for n in [0, 1, 2, 63, 64, 65, 66] {
        push(&format!("{n} functions"), &OPAQUE, words_of(&vec![QUIET.to_vec(); n]), 140);
    }
    for n in [MAX_FUNCTIONS, MAX_FUNCTIONS + 1, u32::MAX] {
        push(&format!("a count of {n} and no function"), &OPAQUE, vec![n], 140);
        push(&format!("a count of {n} and no types"), &[], vec![n], 140);
    }
    push("no words", &OPAQUE, vec![], 140);
    push("no words and no types", &[], vec![], 140);
    push("no functions and no types", &[], vec![0], 140);
    push("words after the last record, and no types", &[], vec![0, 0], 140);
    push("a word after no record", &OPAQUE, vec![0, 0], 140);
    let two = words_of(&[opens.clone(), opens.clone()]);
    for n in 0..=two.len() {
        push(&format!("the first {n} words"), &struct_, two[..n].to_vec(), 16);
    }
    push("a word after the last record", &struct_, [two.clone(), vec![0]].concat(), 16);
    for n in [0, 1, 7, 8, 9, 15, 16, 17] {
        push(&format!("room for {n} words"), &struct_, two.clone(), n);
    }
    let three = [opens.clone(), wrong.clone(), opens.clone()];
    for count in 1..=4 {
        let mut words = words_of(&three);
        words[0] = count;
        push(&format!("a count of {count} for three"), &struct_, words, 40);
    }
    let behind = [wrong.clone(), opens[..7].to_vec()];
    push("a wrong step, then a record cut off", &struct_, words_of(&behind), 40);
    for sizes in [[0; 4], [u32::MAX; 4], [1, 0, 1, u32::MAX], [0, 0, 0, 1 << 31]] {
        let name = format!("the sizes {sizes:?} first");
        push(&name, &struct_, words_of(&[sizes.to_vec(), opens.clone()]), 40);
        push(&format!("{name}, alone"), &struct_, words_of(&[sizes.to_vec()]), 40);
        push(&format!("{name}, last"), &struct_, words_of(&[opens.clone(), sizes.to_vec()]), 40);
    }
    stores(cases);
}

/// Functions of one join point and of none, by what of the store is lent.
fn stores(cases: &mut Vec<Named>) {
    // Document 01's worked example.
    let types = vec![2, 2, 0, 6, 0, 2, 0, 0];
    let joins = vec![
        2, 1, 4, 12, 0, 1, 0, 7, 10, 11, 0, 1, 2, 3, 0, 2, 5, 8, 9, 10, 10, 0, 5, 10, 10, 11, 1, 0,
        0, 0, 0, 1, 2, 1, 0, 3, 3, 0,
    ];
    let orders =
        [("first", vec![joins.clone(), QUIET.to_vec()]), ("last", vec![QUIET.to_vec(), joins])];
    for (name, functions) in orders {
        for lent in [[512, 512], [513, 600], [511, 512], [512, 511], [0, 0]] {
            let case =
                Case::crate_statements(types.clone(), words_of(&functions), [lent[0], lent[1], 30]);
            cases.push((
                format!("a crate: a join point in the {name} function, store {lent:?}"),
                case,
            ));
        }
    }
}
