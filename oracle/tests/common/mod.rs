//! Short texts for places, trees and blocks, so that tests can be read.
#![allow(dead_code)]

use oracle::{
    calls,
    env::Env,
    function::STOP,
    generate::draft::{push_note, push_return, push_switch, push_target, push_use, Draft, Item},
    ghost_statements::GhostStatements,
    place::{Place, PlaceElem},
    place_node::PlaceNode,
    refusal::Refusal,
    state::{State, MAX_NODES},
    types::{Ty, TyKind, Types},
};

/// The types of the table W1 to W14: 0 opaque, 1 struct(0,0), 2 mutable reference to 1,
/// 3 variant value 0, 4 variant value 1 (0), 5 enum(3,4), 6 plain pointer to 1, 7 tuple(1),
/// 8 array, 9 mutable reference to 7.
pub fn table_types() -> Vec<u32> {
    types(&[
        (TyKind::Opaque, &[]),
        (TyKind::Struct, &[0, 0]),
        (TyKind::MutRef, &[1]),
        (TyKind::Variant, &[0]),
        (TyKind::Variant, &[1, 0]),
        (TyKind::Enum, &[3, 4]),
        (TyKind::Pointer, &[1]),
        (TyKind::Tuple, &[1]),
        (TyKind::Array, &[]),
        (TyKind::MutRef, &[7]),
    ])
}

/// A type record, written out.
pub fn types(list: &[(TyKind, &[u32])]) -> Vec<u32> {
    let parts = list.iter().map(|(_, parts)| parts.len() as u32);
    let mut words = vec![list.len() as u32, parts.clone().sum()];
    words.extend(list.iter().map(|(kind, _)| *kind as u32));
    words.extend(parts);
    words.extend(list.iter().flat_map(|(_, parts)| parts.iter()));
    words
}

pub fn read_types(words: &[u32]) -> Types {
    Types::read(words).expect("good types")
}

/// `_1`, then `.*`, `.0`, `.as1` and `.[]`.
pub fn place(text: &str) -> Place {
    let mut parts = text.split('.');
    let local = parts.next().unwrap().strip_prefix('_').expect("a local").parse().unwrap();
    let elem = |part: &str| match part {
        "*" => PlaceElem::Deref,
        "[]" => PlaceElem::Index,
        _ => match part.strip_prefix("as") {
            Some(variant) => PlaceElem::Downcast(variant.parse().unwrap()),
            None => PlaceElem::Field(part.parse().unwrap()),
        },
    };
    Place::new(local, parts.map(elem).collect())
}

/// The items of a place, as two arrays.
pub fn items(text: &str) -> (Vec<u32>, Vec<u32>) {
    place(text).to_items().into_iter().unzip()
}

/// `F` folded, `*x` deref, `S(..)` struct, `T(..)` tuple, `C(..)` closure, `G(..)` generator,
/// `V1(..)` or `V0` variant.
pub fn tree(genv: &Types, ty: Ty, text: &str) -> PlaceNode {
    let mut rest = text;
    let node = read_tree(genv, ty, &mut rest);
    assert_eq!(rest, "", "all of {text} is read");
    node
}

fn read_tree(genv: &Types, ty: Ty, rest: &mut &str) -> PlaceNode {
    let form = take(rest, 1);
    match form {
        "F" => PlaceNode::Ty(ty),
        "*" => {
            let pointee = genv.deref(ty).expect("a pointer");
            PlaceNode::Deref(ty, Box::new(read_tree(genv, pointee, rest)))
        }
        "V" => {
            let idx = take(rest, 1).parse().unwrap();
            let fields = read_fields(genv, genv.variant(ty, idx).expect("a variant"), rest);
            PlaceNode::Downcast(ty, idx, fields)
        }
        _ => {
            let fields = read_fields(genv, genv.fields(ty).expect("fields"), rest);
            match form {
                "S" => PlaceNode::Downcast(ty, 0, fields),
                "T" => PlaceNode::Tuple(ty, fields),
                "C" => PlaceNode::Closure(ty, fields),
                "G" => PlaceNode::Generator(ty, fields),
                _ => panic!("no form {form}"),
            }
        }
    }
}

/// `(x,y)`, or nothing at all for no fields.
fn read_fields(genv: &Types, types: &[Ty], rest: &mut &str) -> Vec<PlaceNode> {
    if !rest.starts_with('(') {
        assert!(types.is_empty(), "fields are missing");
        return vec![];
    }
    take(rest, 1);
    let mut fields = vec![];
    for (i, &ty) in types.iter().enumerate() {
        if i > 0 {
            assert_eq!(take(rest, 1), ",");
        }
        fields.push(read_tree(genv, ty, rest));
    }
    assert_eq!(take(rest, 1), ")");
    fields
}

fn take<'a>(rest: &mut &'a str, n: usize) -> &'a str {
    let (head, tail) = rest.split_at(n);
    *rest = tail;
    head
}

pub fn env(genv: &Types, locals: &[Ty], trees: &[&str]) -> Env {
    assert_eq!(locals.len(), trees.len());
    Env { map: locals.iter().zip(trees).map(|(&ty, text)| tree(genv, ty, text)).collect() }
}

pub fn state(genv: &Types, locals: &[Ty], trees: &[&str]) -> State {
    State::encode(&env(genv, locals, trees)).expect("at most 512 nodes")
}

/// Statements parted by `;`: `use P`, `note READ NOTE`, `goto B`, `return`, `stop`,
/// `switch [P] [VALUE>BLOCK].. BLOCK`.
pub fn block(text: &str) -> Vec<Item> {
    let mut items = vec![];
    for statement in text.split(';').map(str::trim).filter(|part| !part.is_empty()) {
        let words: Vec<&str> = statement.split_whitespace().collect();
        match words[..] {
            ["use", used] => push_use(&mut items, &place(used)),
            ["note", read, note] => push_note(&mut items, &place(read), &place(note)),
            ["goto", target] => push_target(&mut items, target.parse().unwrap()),
            ["return"] => push_return(&mut items),
            ["stop"] => items.push((STOP, 0)),
            ["switch", .., otherwise] => {
                push_a_switch(&mut items, &words[1..words.len() - 1], otherwise)
            }
            _ => panic!("no statement {statement}"),
        }
    }
    items
}

fn push_a_switch(items: &mut Vec<Item>, words: &[&str], otherwise: &str) {
    let discr = words.first().filter(|word| word.starts_with('_')).map(|word| place(word));
    let arms: Vec<(u32, usize)> = words
        .iter()
        .filter_map(|word| word.split_once('>'))
        .map(|(value, target)| (value.parse().unwrap(), target.parse().unwrap()))
        .collect();
    push_switch(items, discr.as_ref(), &arms, otherwise.parse().unwrap());
}

/// A function of these local types and blocks; all locals but 0 are arguments.
pub fn function(local_types: &[Ty], entry: &str, blocks: &[&str]) -> Draft {
    let mut draft = Draft::new(local_types.to_vec(), local_types.len() - 1);
    draft.entry = block(entry);
    for text in blocks {
        draft.block(block(text));
    }
    draft
}

/// The statements of a function as lines, or the number of the refusal.
pub fn run(types: &[u32], draft: &Draft) -> Result<Vec<String>, u32> {
    run_words(types, &draft.words())
}

pub fn run_words(types: &[u32], function: &[u32]) -> Result<Vec<String>, u32> {
    let mut forms = vec![1; 256 * MAX_NODES];
    let mut whats = vec![1; 256 * MAX_NODES];
    let mut out = vec![1; 1 << 17];
    let mut told = vec![1; 1 << 15];
    let result =
        calls::ghost_statements(types, function, &mut forms, &mut whats, &mut out, &mut told);
    match result {
        Ok((statements, entries)) => {
            assert_eq!(out[..2], [statements as u32, entries as u32]);
            assert!(told[statements..].iter().all(|&word| word == 0), "zeros behind the numbers");
            let stmts = GhostStatements::from_record(&out, &told).expect("a statement record");
            Ok(lines(&stmts))
        }
        Err(refusal) => {
            assert!(out.iter().chain(&told).all(|&word| word == 0), "output is zeroed");
            assert!(forms.iter().chain(&whats).all(|&word| word == 0), "store is zeroed");
            Err(refusal.number())
        }
    }
}

pub fn lines(stmts: &GhostStatements) -> Vec<String> {
    stmts.to_string().lines().map(str::to_string).collect()
}

/// The lines of a record that a collecting call wrote.
pub fn collected_lines(out: &[u32]) -> Vec<String> {
    lines(&GhostStatements::from_collected(out).expect("a statement record"))
}

pub fn number<A>(result: Result<A, Refusal>) -> u32 {
    result.err().map_or(0, Refusal::number)
}
