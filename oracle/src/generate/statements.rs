//! Random lists of MIR statements, good and damaged, and those round each limit of a list (document
//! 02, F-2).

use super::{
    damage::damage_words,
    limits::{root, round, Named},
    rng::Rng,
    Size,
};
use crate::{
    case::Case,
    function::MAX_ITEMS,
    place::{Place, PlaceElem},
    statements::{Listed, Operand},
};
use PlaceElem::{Deref, Downcast, Field, Index};

/// More than any list that passes gives.
const ALL: usize = 1 << 17;

pub fn statements_case(rng: &mut Rng, size: Size) -> Case {
    let most = match size {
        Size::Small => 3,
        Size::Normal => 12,
        Size::Large => 100,
    };
    let mut list: Vec<Listed> = (0..rng.range(0, most)).map(|_| random_statement(rng)).collect();
    if rng.chance(20) && !list.is_empty() {
        let at = rng.below(list.len());
        make_unknown(rng, &mut list[at]);
    }
    let mut words = words(&list);
    if rng.chance(20) && !words.is_empty() {
        damage_words(rng, &mut words);
    }
    let needed = 1 + 2 * given(&words);
    let room = rng.weighted(&[(60, needed), (15, needed + 7), (15, needed - 1), (10, needed / 2)]);
    Case::statement_items(words, room)
}

fn words(list: &[Listed]) -> Vec<u32> {
    list.iter().flat_map(Listed::words).collect()
}

/// How many items a list gives.
fn given(words: &[u32]) -> usize {
    Case::statement_items(words.to_vec(), ALL).answer().result.map_or(0, |answer| answer[0])
}

fn random_statement(rng: &mut Rng) -> Listed {
    let kind = rng.below(9) as u32;
    let count = match kind {
        5 => 2,
        8 => rng.range(0, 4),
        _ => 1,
    };
    let constants = if matches!(kind, 2 | 3 | 7) { 0 } else { 30 };
    Listed {
        kind,
        flag: u32::from(matches!(kind, 2 | 6) && rng.chance(50)),
        operands: (0..count).map(|_| random_operand(rng, constants)).collect(),
        destination: random_operand(rng, 0),
    }
}

/// A constant in so many of a hundred; else a place, which refusal 4 may meet in the record.
fn random_operand(rng: &mut Rng, constants: usize) -> Operand {
    if rng.chance(constants) {
        return Operand::Constant;
    }
    let number = |rng: &mut Rng| rng.weighted(&[(90, 4), (10, usize::MAX)]);
    let most = number(rng);
    let mut place = root(rng.below(most) as u32 as usize);
    while rng.chance(45) {
        let most = number(rng);
        let number = rng.below(most) as u32;
        place.projection.push(rng.pick(&[Deref, Field(number), Downcast(number), Index]));
    }
    Operand::Place(place)
}

/// A kind, flag or operand count that there is none of, or a constant for a place.
fn make_unknown(rng: &mut Rng, statement: &mut Listed) {
    match rng.below(6) {
        0 => statement.kind = rng.pick(&[9, 10, 1 << 31, u32::MAX]),
        1 => statement.flag = rng.pick(&[1, 2, u32::MAX]),
        2 => statement.operands.push(random_operand(rng, 50)),
        3 => drop(statement.operands.pop()),
        4 => statement.destination = Operand::Constant,
        _ => statement.operands.fill(Operand::Constant),
    }
}

/// The limits of a list, and what is easily got wrong.
pub fn lists(cases: &mut Vec<Named>) {
    item_counts(cases);
    kinds(cases);
    constants(cases);
    places(cases);
    cut_off(cases);
    rooms(cases);
}

fn push(cases: &mut Vec<Named>, name: &str, words: Vec<u32>, room: usize) {
    cases.push((format!("F-2, {name}"), Case::statement_items(words, room)));
}

fn place(elems: &[PlaceElem]) -> Operand {
    Operand::Place(Place::new(1, elems.to_vec()))
}

fn listed(kind: u32, flag: u32, operands: &[Operand]) -> Listed {
    Listed { kind, flag, operands: operands.to_vec(), destination: Operand::Place(root(0)) }
}

/// In one place, and in many, with the deref that `PtrMetadata` adds to each.
fn item_counts(cases: &mut Vec<Named>) {
    for n in round(MAX_ITEMS) {
        let words = listed(0, 0, &[place(&vec![Field(0); n - 2])]).words();
        push(cases, &format!("{n} items in two places"), words, 1 + 2 * (n + 2));
        let pairs = vec![listed(6, 1, &[place(&[])]); n / 2];
        let list = [pairs, vec![listed(8, 0, &[]); n % 2]].concat();
        push(cases, &format!("{n} items in as many places"), words_of(&list, n), ALL);
    }
}

/// The words, in which so many items stand.
fn words_of(list: &[Listed], items: usize) -> Vec<u32> {
    let words = words(list);
    let places = list.iter().map(|statement| statement.operands.len() + 1).sum::<usize>();
    assert_eq!(words.len(), 3 * list.len() + places + 2 * items);
    words
}

fn kinds(cases: &mut Vec<Named>) {
    for kind in 0..=9 {
        for flag in 0..=2 {
            for count in 0..=3 {
                let operands = [place(&[]), place(&[Deref]), place(&[Field(2), Downcast(1)])];
                let words = listed(kind, flag, &operands[..count]).words();
                push(cases, &format!("kind {kind}, flag {flag}, operands {count}"), words, 64);
            }
        }
    }
    for kind in [9, 1 << 31, u32::MAX] {
        let words = listed(kind, 0, &[place(&[])]).words();
        push(cases, &format!("kind {kind}"), words, 64);
    }
}

fn constants(cases: &mut Vec<Named>) {
    for kind in 0..9 {
        let other = if kind == 5 { vec![place(&[])] } else { vec![] };
        for flag in 0..2 {
            let first = [vec![Operand::Constant], other.clone()].concat();
            let words = listed(kind, flag, &first).words();
            push(cases, &format!("kind {kind}, flag {flag}, of a constant"), words, 64);
        }
        let first = [vec![place(&[])], other].concat();
        let destination = Operand::Constant;
        let words = Listed { destination, ..listed(kind, 0, &first) }.words();
        push(cases, &format!("kind {kind} to a constant"), words, 64);
    }
    let words = listed(5, 0, &[place(&[]), Operand::Constant]).words();
    push(cases, "a second operand that is a constant", words, 64);
    let some = [place(&[]), Operand::Constant, place(&[Deref])];
    push(cases, "an aggregate with a constant in it", listed(8, 0, &some).words(), 64);
}

fn places(cases: &mut Vec<Named>) {
    for (name, elems) in [("an index", vec![Index]), ("63 derefs", vec![Deref; 63])] {
        let words = listed(6, 1, &[place(&elems)]).words();
        push(cases, &format!("the metadata behind {name}"), words, 256);
    }
    let items = [
        ("an element first", vec![1, 0]),
        ("a use", vec![5, 0]),
        ("a second root", vec![0, 1, 0, 1]),
        ("a deref with an arg", vec![0, 1, 1, 1]),
        ("a field with any arg", vec![0, 1, 2, u32::MAX]),
        ("a downcast last", vec![0, u32::MAX, 3, u32::MAX]),
        ("an index with an arg", vec![0, 1, 4, 1]),
        ("a use behind a root", vec![0, 1, 5, 0]),
    ];
    for (name, items) in items {
        let operand = [vec![items.len() as u32 / 2], items].concat();
        let words = [vec![0, 0, 1], operand.clone(), vec![1, 0, 0]].concat();
        push(cases, &format!("{name}, in an operand"), words, 64);
        let words = [vec![0, 0, 1, 0], operand].concat();
        push(cases, &format!("{name}, in a destination"), words, 64);
    }
}

/// A list cut off at each word, and numbers that reach behind it.
fn cut_off(cases: &mut Vec<Named>) {
    let list = [listed(7, 0, &[place(&[Field(1)])]), listed(5, 0, &[place(&[]), place(&[Deref])])];
    let words = words(&list);
    for n in 0..=words.len() {
        push(cases, &format!("the first {n} words"), words[..n].to_vec(), 64);
    }
    for n in [1, 2, 1 << 30, (1 << 31) - 1, 1 << 31, u32::MAX - 1, u32::MAX] {
        push(cases, &format!("a count of {n} operands"), vec![8, 0, n, 0, 1, 0, 0], 64);
        push(cases, &format!("a count of {n} items"), vec![0, 0, 1, n, 0, 0, 1, 0, 0], 64);
        push(cases, &format!("a count of {n} items to a place"), vec![0, 0, 1, 0, n, 0, 0], 64);
    }
    // 2 comes before 11.
    push(cases, "an unknown kind, cut off", vec![9, 0, 1, 0, 1, 0], 64);
    push(cases, "an unknown kind to no place", vec![9, 0, 0, 1, 5, 0], 64);
}

/// Of a buffer, and 10 last.
fn rooms(cases: &mut Vec<Named>) {
    for n in [0, 1, 2] {
        push(cases, &format!("no statements and room for {n}"), vec![], n);
    }
    let words = listed(2, 0, &[place(&[Deref])]).words();
    for n in round(1 + 2 * given(&words)) {
        push(cases, &format!("room for {n}"), words.clone(), n);
    }
    let unknown = listed(9, 0, &[place(&[])]).words();
    push(cases, "an unknown kind and no room", unknown, 0);
}
