//! Random cases of the whole-function call, of the two layouts, and of `ghosts`.

use super::{
    damage::{damage_draft, damage_text, damage_words},
    draft::{place_ranges, push_switch, push_target, Draft, Item},
    full::{full_function, PLACES},
    function::{random_function, Fault},
    places::bad_place,
    rng::Rng,
    types::{random_types, TypeList},
    Size,
};
use crate::{
    case::{Call, Case},
    function::{NOTE, READ, RETURN, STOP, USE},
    place::{Place, PlaceElem, INDEX, ROOT},
    state::MAX_NODES,
    types::Types,
};

/// Items of a small function, at most.
const SMALL_ITEMS: usize = 60;
/// The codes of items, and one that is none.
const CODES: u64 = 14;

/// How a case is made; each aims at one refusal, and the caller looks whether it hit.
fn attempt(rng: &mut Rng, size: Size, want: u32) -> Case {
    let (types, mut draft) = match want {
        9 => {
            let total = rng.pick(&[513, 513, 513, 514, 520, 540]);
            let at = rng.pick(&PLACES);
            full_function(rng, total, at, size)
        }
        0 if size != Size::Small && rng.chance(3) => {
            let (total, at) = (rng.range(508, 512), rng.pick(&PLACES));
            full_function(rng, total, at, size)
        }
        _ => random_pair(rng, size, fault_for(want)),
    };
    match want {
        4 => spoil_place(rng, &mut draft),
        2 if rng.chance(40) => damage_draft(rng, &mut draft),
        _ => {}
    }
    let mut case = Case::whole(types.words(), draft.words(), [0; 4]);
    match want {
        1 => damage_words(rng, &mut case.types),
        2 if rng.chance(60) => damage_words(rng, &mut case.function),
        _ => {}
    }
    case.room = random_room(rng, &case, want).to_vec();
    case
}

fn fault_for(want: u32) -> Option<Fault> {
    match want {
        5 => Some(Fault::WrongStep),
        6 => Some(Fault::OtherVariant),
        8 => Some(Fault::NoSuchValue),
        _ => None,
    }
}

fn random_pair(rng: &mut Rng, size: Size, fault: Option<Fault>) -> (TypeList, Draft) {
    loop {
        let types = random_types(rng, size);
        let genv = Types::read(&types.words()).expect("good types");
        let draft = random_function(rng, &genv, &types.standing(), size, fault);
        if size != Size::Small || item_count(&draft) <= SMALL_ITEMS {
            return (types, draft);
        }
    }
}

fn item_count(draft: &Draft) -> usize {
    draft.entry.len() + draft.blocks.iter().map(Vec::len).sum::<usize>()
}

/// Spoils one place, if there is one.
fn spoil_place(rng: &mut Rng, draft: &mut Draft) {
    let locals = draft.local_types.len();
    let mut lists = draft.lists();
    let holders: Vec<usize> =
        (0..lists.len()).filter(|&at| !place_ranges(lists[at]).is_empty()).collect();
    if holders.is_empty() {
        return;
    }
    let items = &mut lists[rng.pick(&holders)];
    let ranges = place_ranges(items);
    let range = ranges[rng.below(ranges.len())].clone();
    let (ops, args): (Vec<u32>, Vec<u32>) = items[range.clone()].iter().copied().unzip();
    let place = Place::from_items(&ops, &args).expect("a place that was written");
    let mut bad = bad_place(rng, &place, locals);
    // Sometimes a limit is kept by an index.
    if rng.chance(10) {
        bad.projection.push(PlaceElem::Index);
    }
    items.splice(range, bad.to_items());
}

/// Exactly enough, plenty, or, for 10, too little of one. Another refusal comes before the numbers, so
/// that any length will do for them.
fn random_room(rng: &mut Rng, case: &Case, want: u32) -> [usize; 4] {
    let checked = Case { call: Call::Function, ..case.clone() };
    let joins = checked.answer().result.map_or(0, |words| words[0]);
    let store = joins * MAX_NODES;
    let roomy = Case { room: vec![store, store, 1 << 16, 1 << 14], ..case.clone() };
    let (out, told) = match roomy.answer().result {
        Ok(counts) => (2 + 2 * counts[1], counts[0]),
        Err(_) => (2, rng.pick(&[0, 0, 1, 8])),
    };
    let enough = [store, store, out, told];
    let mut room = enough.map(|exact| match rng.below(3) {
        0 => exact,
        1 => exact + 1,
        _ => exact + rng.below(600),
    });
    if want == 10 {
        let some: Vec<usize> = (0..4).filter(|&which| enough[which] > 0).collect();
        let which = rng.pick(&some);
        room[which] = match rng.below(5) {
            0..=2 => enough[which] - 1,
            3 => rng.below(enough[which]),
            _ => 0,
        };
    }
    room
}

/// A whole-function case with the refusal asked for, 0 for none. Few accepted ones have no
/// statement at all.
pub fn whole_case(rng: &mut Rng, size: Size, want: u32) -> Option<Case> {
    for _ in 0..2000 {
        let case = attempt(rng, size, want);
        let hit = match case.answer().result {
            Ok(counts) => want == 0 && (counts[0] > 0 || rng.chance(10)),
            Err(refusal) => want == refusal.number(),
        };
        if hit {
            return Some(case);
        }
    }
    None
}

/// A type record, good or damaged.
pub fn types_case(rng: &mut Rng, size: Size) -> Case {
    let mut case = Case { types: random_types(rng, size).words(), ..Case::new(Call::Types) };
    if rng.chance(70) {
        damage_words(rng, &mut case.types);
    }
    case
}

/// A function record, good or damaged; now and then over damaged types.
pub fn function_case(rng: &mut Rng, size: Size) -> Case {
    let want = rng.weighted(&[(30, 0), (3, 1), (52, 2), (15, 4)]);
    Case { call: Call::Function, room: vec![], ..attempt(rng, size, want) }
}

/// Any words as the records, the second or both; or good records of which a word is changed.
pub fn words_case(rng: &mut Rng, size: Size) -> Case {
    let (types, draft) = random_pair(rng, size, None);
    let told = rng.weighted(&[(80, 512), (20, 0)]);
    let mut case = Case::whole(types.words(), draft.words(), [4096, 4096, 1024, told]);
    match rng.below(4) {
        0 => {
            case.types = random_words(rng);
            case.function = random_words(rng);
        }
        1 => case.function = random_words(rng),
        2 => damage_words(rng, &mut case.types),
        _ => damage_words(rng, &mut case.function),
    }
    case
}

/// From no word up, small ones more often.
fn random_words(rng: &mut Rng) -> Vec<u32> {
    let most = rng.pick(&[2, 4, 14, 257, usize::MAX]);
    (0..rng.below(40)).map(|_| rng.below(most) as u32).collect()
}

/// A few blocks of random items over one opaque local: in order, or nearly so.
pub fn items_case(rng: &mut Rng) -> Case {
    let mut draft = Draft::new(vec![0], 0);
    for _ in 0..rng.weighted(&[(60, 0), (30, 1), (10, 2)]) {
        push_place_items(rng, &mut draft.entry);
        draft.entry.push((USE, 0));
    }
    let blocks = rng.range(1, 2);
    for _ in 0..blocks {
        let items = random_items(rng, blocks);
        draft.block(items);
    }
    for _ in 0..rng.weighted(&[(35, 0), (50, 1), (15, 2)]) {
        damage_draft(rng, &mut draft);
    }
    Case { types: vec![1, 0, 0, 0], function: draft.words(), ..Case::new(Call::Function) }
}

/// The block of items with this number: all sequences of the codes 0 to 13, the shorter first.
pub fn short_case(number: u64) -> Case {
    let (mut rest, mut length, mut sequences) = (number, 1, CODES);
    while rest >= sequences {
        rest -= sequences;
        sequences *= CODES;
        length += 1;
    }
    let mut items = vec![];
    for _ in 0..length {
        items.insert(0, ((rest % CODES) as u32, 0));
        rest /= CODES;
    }
    let mut draft = Draft::new(vec![0], 0);
    draft.block(items);
    Case { types: vec![1, 0, 0, 0], function: draft.words(), ..Case::new(Call::Function) }
}

fn random_items(rng: &mut Rng, blocks: usize) -> Vec<Item> {
    let mut items = vec![];
    while rng.chance(45) {
        push_place_items(rng, &mut items);
        if rng.chance(60) {
            items.push((USE, 0));
        } else {
            items.push((READ, 0));
            push_place_items(rng, &mut items);
            items.push((NOTE, 0));
        }
    }
    match rng.below(6) {
        0 => items.push((RETURN, 0)),
        1 => items.push((STOP, 0)),
        2 | 3 => push_target(&mut items, rng.below(blocks)),
        _ => {
            if rng.chance(60) {
                push_place_items(rng, &mut items);
            }
            let arms: Vec<_> =
                (0..rng.below(3)).map(|_| (rng.below(3) as u32, rng.below(blocks))).collect();
            push_switch(&mut items, None, &arms, rng.below(blocks));
        }
    }
    items
}

/// A root, and elements that may break refusal 4 but are in order.
fn push_place_items(rng: &mut Rng, items: &mut Vec<Item>) {
    items.push((ROOT, 0));
    while rng.chance(30) {
        items.push(rng.pick(&[(1, 0), (2, 0), (3, 0), (INDEX, 0)]));
    }
}

/// The text of a whole-function case, good or damaged.
pub fn ghosts_case(rng: &mut Rng, size: Size) -> Case {
    let want = rng.weighted(&[(60, 0), (5, 1), (8, 2), (6, 4), (6, 5), (8, 6), (8, 8), (5, 9)]);
    // Many blocks pass the limits of 16 join points, 1,024 entries or 4,096 words.
    let size = if size == Size::Normal && rng.chance(15) { Size::Large } else { size };
    let case = match rng.chance(50) {
        true => attempt(rng, size, want),
        false => whole_case(rng, size, want).unwrap_or_else(|| attempt(rng, size, want)),
    };
    let mut words = case.types;
    words.extend(case.function);
    if rng.chance(5) {
        damage_words(rng, &mut words);
    }
    let mut text = spell(rng, &words);
    if rng.chance(15) {
        damage_text(rng, &mut text);
    }
    Case::ghosts(&text)
}

/// Words as text, with gaps of blanks and newlines and some leading zeros.
pub fn spell(rng: &mut Rng, words: &[u32]) -> Vec<u8> {
    let mut text = String::new();
    for word in words {
        if rng.chance(3) {
            text.push_str("000");
        }
        text.push_str(&word.to_string());
        text.push_str(rng.weighted(&[(90, " "), (5, "\n"), (3, "  "), (2, " \n\n ")]));
    }
    text.into_bytes()
}
