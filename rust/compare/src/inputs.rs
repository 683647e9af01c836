//! Functions to measure, each as its type record and its function record.

use std::iter::repeat_n;

use hirvoksne::{Assign, Elem, Function, Label, Open, Operand, Place, Rvalue, Switch, Type, Types};
use oracle::generate::{random, rng::Rng, Kind, Size};
use oracle::{
    case::Call,
    function::{MAX_BLOCKS, MAX_ITEMS},
    types::MAX_TYPES,
};

pub struct Input {
    pub types: Vec<u32>,
    pub function: Vec<u32>,
}

impl Input {
    fn new(types: &Types, function: &Function) -> Input {
        Input { types: types.record(), function: function.record() }
    }

    /// Blocks and items.
    pub fn sizes(&self) -> (usize, usize) {
        (self.function[2] as usize, self.function[3] as usize)
    }
}

fn labels(function: &mut Function, count: usize) -> Vec<Label> {
    (0..count).map(|_| function.block()).collect()
}

/// The deepest chain: each block leads to the next alone, the last but one twice to the last, which
/// is a join point. The state has 511 nodes and is 63 deep, the deep field last, since a level of
/// recursion is taken for each field before it too. Every block uses a place and matches on an enum,
/// and the last but one folds the deep local and opens it again.
pub fn match_chain(blocks: usize) -> Input {
    let mut types = Types::new();
    let int = types.opaque();
    let one = types.structure(&[int]);
    let mut deep = int;
    for _ in 0..63 {
        deep = types.structure(&[int, int, int, int, int, int, int, deep]);
    }
    let variants = [types.variant(0, &[int]), types.variant(1, &[int])];
    let choice = types.enumeration(&variants);
    let mut function = Function::new(int, &[deep, choice, one], &[int]);
    let labels = labels(&mut function, blocks);
    let deepest = Place { local: 1, elems: vec![Elem::Field(7); 63] };
    for (at, pair) in labels.windows(2).enumerate() {
        let last = at + 2 == blocks;
        let block = Open::new().used(&Place::local(3).field(0));
        let block = if at == 0 { block.used(&deepest) } else { block };
        let block = if last { block.used(&Place::local(1)).used(&deepest) } else { block };
        let switch = block.read(&Place::local(2)).note(&Place::local(4)).switch(&Place::local(4));
        let switch = if last { switch.arm(1, pair[1]) } else { switch };
        function.write(pair[0], switch.otherwise(pair[1]));
    }
    function.write(labels[blocks - 1], Open::new().ret());
    Input::new(&types, &function)
}

/// A chain in which each block uses a place and goes on.
pub fn goto_chain(blocks: usize) -> Input {
    let mut types = Types::new();
    let int = types.opaque();
    let wide = types.structure(&vec![int; 509]);
    let mut function = Function::new(int, &[wide], &[]);
    let labels = labels(&mut function, blocks);
    for pair in labels.windows(2) {
        function.write(pair[0], Open::new().used(&Place::local(1).field(0)).goto(pair[1]));
    }
    Input::new(&types, &function)
}

/// Accepted functions of 10 blocks from the generator.
pub fn small(count: usize) -> Vec<Input> {
    let mut rng = Rng::new(10);
    let mut inputs = vec![];
    while inputs.len() < count {
        let case = random(&mut rng, Kind::Call(Call::Whole), Size::Normal, Some(0));
        let case = case.expect("an accepted function");
        if case.function[2] == 10 {
            inputs.push(Input { types: case.types, function: case.function });
        }
    }
    inputs
}

/// 256 blocks, 16,384 items, 64 join points, states of 501 nodes: 64 diamonds of 256 items, whose
/// lower ends are the join points. One side of each uses parts of the locals, the other the locals
/// whole, so that both folds and unfolds are recorded.
pub fn large() -> Input {
    const LOCALS: usize = 20;
    const FIELDS: usize = 24;
    let mut types = Types::new();
    let int = types.opaque();
    let wide = types.structure(&[int; FIELDS]);
    let mut function = Function::new(int, &[wide; LOCALS], &[]);
    let labels = labels(&mut function, MAX_BLOCKS);
    // A use of a part is 3 items, of a local 2.
    let part = |n: usize| Place::local(1 + (n % LOCALS) as u32).field((n * 7 % FIELDS) as u32);
    let whole = |n: usize| Place::local(1 + (n % LOCALS) as u32);
    for (at, diamond) in labels.chunks(4).enumerate() {
        let &[head, left, right, tail] = diamond else { unreachable!("256 is 64 times 4") };
        let block = (0..26).fold(Open::new(), |block, n| block.used(&part(at + n)));
        function.write(head, block.switch_constant().arm(0, left).otherwise(right));
        let block = (0..25).fold(Open::new(), |block, n| block.used(&part(2 * at + n)));
        function.write(left, block.used(&whole(at)).used(&whole(at + 1)).goto(tail));
        let block = (0..28).fold(Open::new(), |block, n| block.used(&whole(at + n)));
        function.write(right, block.used(&part(at)).used(&part(at + 1)).goto(tail));
        let block = (0..8).fold(Open::new(), |block, n| block.used(&part(at + n)));
        let block = (0..3).fold(block, |block, n| block.used(&whole(at + 3 * n)));
        let end = labels.get(4 * at + 4).map_or(block.clone().ret(), |&next| block.goto(next));
        function.write(tail, end);
    }
    let input = Input::new(&types, &function);
    assert_eq!(input.sizes(), (MAX_BLOCKS, MAX_ITEMS));
    input
}

/// One block of at most so many items: uses of parts of four locals, of which the first four open them
/// and the others change nothing.
pub fn items(count: usize) -> Input {
    let mut types = Types::new();
    let int = types.opaque();
    let pair = types.structure(&[int; 2]);
    let mut function = Function::new(int, &[pair; 4], &[]);
    let block = function.block();
    let part = |n: usize| Place::local(1 + (n % 4) as u32).field((n / 4 % 2) as u32);
    let used = (0..count / 3).fold(Open::new(), |block, n| block.used(&part(n)));
    function.write(block, used.ret());
    Input::new(&types, &function)
}

/// 256 blocks of 64 items, of all kinds and mixed: uses, reads with their notes, and each ender; places
/// of up to five elements of any kind. It passes refusal 2, and no more: its locals are opaque.
pub fn mixed() -> Input {
    const EACH: usize = MAX_ITEMS / MAX_BLOCKS;
    let mut rng = Rng::new(7);
    let mut types = Types::new();
    let int = types.opaque();
    let mut function = Function::new(int, &[int; 3], &[]);
    let labels = labels(&mut function, MAX_BLOCKS);
    for (at, &label) in labels.iter().enumerate() {
        let ender = if at + 1 == MAX_BLOCKS { 0 } else { rng.below(5) };
        let mut left = EACH - [1, 1, 1, 8, 9][ender];
        let mut block = Open::new();
        while left > 0 {
            let noted = left >= 4 && rng.chance(30);
            let least = if noted { 4 } else { 2 };
            let elems = rng.below(5).min(left - least);
            // A single item is nothing.
            let elems = elems + usize::from(left - least - elems == 1);
            left -= least + elems;
            let kinds = [Elem::Deref, Elem::Field(0), Elem::Downcast(0), Elem::Index];
            let elems = (0..elems).map(|_| rng.pick(&kinds)).collect();
            let place = Place { local: rng.below(4) as u32, elems };
            block =
                if noted { block.read(&Place::local(1)).note(&place) } else { block.used(&place) };
        }
        let to = |n: usize| labels[(at + n) % MAX_BLOCKS];
        let arms = |switch: Switch| (1..=3).fold(switch, |switch, n| switch.arm(0, to(n)));
        let block = match ender {
            0 => block.ret(),
            1 => block.stop(),
            2 => block.goto(to(1)),
            3 => arms(block.switch_constant()).otherwise(to(4)),
            _ => arms(block.switch(&Place::local(2))).otherwise(to(4)),
        };
        function.write(label, block);
    }
    let input = Input::new(&types, &function);
    assert_eq!(input.sizes(), (MAX_BLOCKS, MAX_ITEMS));
    input
}

/// The same but for the arg of the last item, a return, for which the record is refused: all of it is
/// tested, and nothing else is done.
pub fn refused_last(mut input: Input) -> Input {
    *input.function.last_mut().expect("a record has words") = 1;
    input
}

/// Many rounds: a line of 100 join points that lead back and forth, each of which opens a field of its
/// own. What one opens goes back through all before it, and only then the next in the line is visited:
/// over 5,000 visits.
pub fn rounds() -> Input {
    const POINTS: usize = 100;
    let mut types = Types::new();
    let int = types.opaque();
    let inner = types.structure(&[int]);
    let outer = types.structure(&[inner; POINTS]);
    let mut function = Function::new(int, &[outer], &[]);
    let labels = labels(&mut function, POINTS);
    for (at, &label) in labels.iter().enumerate() {
        let block = Open::new().used(&Place::local(1).field(at as u32).field(0));
        let (back, on) = (labels[at.saturating_sub(1)], labels[(at + 1).min(POINTS - 1)]);
        function.write(label, block.switch_constant().arm(0, back).otherwise(on));
    }
    Input::new(&types, &function)
}

/// Many visits with little to do, while some half of the blocks wait: a head leads to 204 join
/// points that only stop, and 50 others wait until those are done. Each of the others changes one
/// thing in a small state and goes to the head, so that the 204 wait again. The start leads to all
/// blocks, itself too, and to the others twice, so that all are join points. The ranks are in no
/// order of the blocks.
pub fn waiting() -> Input {
    const POINTERS: usize = 5;
    const LEVELS: usize = 9;
    let mut types = Types::new();
    let int = types.opaque();
    let nest = (0..LEVELS).fold(int, |inner, _| types.structure(&[inner]));
    let pointer = types.plain_pointer(nest);
    let mut function = Function::new(int, &[pointer; POINTERS], &[]);
    // A use opens one level more behind a pointer; after the last level, one folds the pointer.
    let mut changes = vec![];
    for pointer in (1..=POINTERS as u32).map(Place::local) {
        let mut inner = pointer.clone().deref();
        function.used_at_entry(&inner);
        for _ in 0..LEVELS {
            inner = inner.field(0);
            changes.push(inner.clone());
        }
        changes.push(pointer);
    }
    let mut by_rank = labels(&mut function, MAX_BLOCKS);
    Rng::new(5).shuffle(&mut by_rank[1..]);
    let mut ranks = [0; MAX_BLOCKS];
    (0..).zip(&by_rank).for_each(|(rank, label)| ranks[label.number() as usize] = rank);
    function.set_ranks(&ranks);
    let (head, rest) = (by_rank[1], &by_rank[2..]);
    let (stops, others) = rest.split_at(rest.len() - changes.len());
    let lead = |to: &[Label]| {
        let switch = Open::new().switch_constant();
        to.iter().fold(switch, |switch, &label| switch.arm(0, label)).otherwise(head)
    };
    function.write(by_rank[0], lead(&[&by_rank[..], others].concat()));
    function.write(head, lead(stops));
    for (&label, change) in others.iter().zip(&changes) {
        function.write(label, Open::new().used(change).goto(head));
    }
    Input::new(&types, &function)
}

/// `to = from`.
fn copied(block: Open, from: &Place, to: &Place) -> Open {
    block.used(from).used(to)
}

/// A part of the model that `restore` is lent: age, registers, timers, flags.
fn model(part: u32) -> Place {
    Place::local(1).deref().field(part)
}

const AGES: u32 = 8;
/// The locals of `restore` from here on are no ints: a box and a struct for what an age holds, the
/// registers, a reference, and some more.
const HELD: u32 = 52;
const REGISTERS: u32 = 54;
const LENT: u32 = 55;

/// The types of `restore`, its argument's, and those of its other locals. Every second age holds its struct
/// in a box.
fn model_types() -> (Types, Type, Vec<Type>) {
    let mut types = Types::new();
    let int = types.opaque();
    let saved = types.structure(&[int; 3]);
    let boxed = types.boxed(saved);
    let lent = types.mut_ref(saved);
    let variant = |age: u32| {
        let held = if age.is_multiple_of(2) { boxed } else { saved };
        types.variant(age, &[int, held, int, boxed, int][..2 + age as usize % 4])
    };
    let ages: Vec<_> = (0..AGES).map(variant).collect();
    let [age, registers] = [types.enumeration(&ages), types.structure(&[int; 8])];
    let [timers, flags] = [types.array(), types.structure(&[int; 4])];
    let model = types.structure(&[age, registers, timers, flags]);
    let model = types.mut_ref(model);
    let mut others = vec![int; HELD as usize - 2];
    others.extend([boxed, saved, registers, lent, flags, boxed, lent, saved]);
    (types, model, others)
}

/// The match arm of an age, from the first of its blocks to the last: a branch of one side or two, on a
/// constant or on an int. The first side takes what the age holds whole, the second parts of it.
fn restore_age(function: &mut Function, age: u32, blocks: &[Label], done: Label) {
    let (&[head, side, other, ..], &[.., meet]) = (blocks, blocks) else { unreachable!("3 or 4") };
    let temporary = |n: u32| Place::local(3 + 5 * age + n);
    let field = |n: u32| model(0).downcast(age).field(n);
    let is_boxed = age.is_multiple_of(2);
    let held = |n: u32| if is_boxed { field(1).deref().field(n) } else { field(1).field(n) };
    let block = copied(Open::new(), &field(0), &temporary(0));
    let block = copied(block, &held(0), &temporary(1));
    let switch = if age < 3 { block.switch_constant() } else { block.switch(&temporary(0)) };
    function.write(head, switch.arm(0, side).otherwise(other));
    let to = Place::local(if is_boxed { HELD } else { HELD + 1 });
    function.write(side, copied(Open::new(), &field(1), &to).goto(meet));
    if other != meet {
        let block = copied(Open::new(), &held(1), &temporary(2));
        function.write(other, copied(block, &held(2), &temporary(3)).goto(meet));
    }
    let rest = [field(2), field(3).deref().field(age % 3), field(4)];
    let rest = rest.iter().take(age as usize % 4);
    let block = rest.fold(Open::new(), |block, part| copied(block, part, &temporary(4)));
    function.write(meet, block.goto(done));
}

/// What comes behind the match: a loop over the timers, a branch on a flag, and the registers, by their
/// fields and whole.
fn restore_rest(function: &mut Function, done: Label, [turn, bound, timer, rest]: [Label; 4]) {
    let [index, size, is_less, value] = [43, 44, 45, 46].map(Place::local);
    let block = copied(Open::new(), &model(3).field(0), &size).used(&index);
    function.write(done, block.goto(turn));
    let block = Open::new().used(&index).used(&size).used(&is_less);
    function.write(turn, block.switch(&is_less).arm(0, rest).otherwise(bound));
    function.write(bound, Open::new().used(&index).used(&is_less).goto(timer));
    let block = copied(Open::new(), &model(2).index(), &value);
    let block = copied(block, &value, &model(2).index());
    function.write(timer, copied(block, &index, &index).goto(turn));
    let [raised, lowered, meet, last] = function.blocks();
    let register = |n: u32| Place::local(47 + n);
    let fields = (0..3).map(|n| (model(1).field(2 * n), register(n)));
    let block = fields.fold(Open::new(), |block, (from, to)| copied(block, &from, &to));
    let flag = Place::local(51);
    let block = copied(block, &model(3).field(1), &flag);
    function.write(rest, block.switch(&flag).arm(0, lowered).otherwise(raised));
    let registers = Place::local(REGISTERS);
    let block = copied(Open::new(), &register(0), &model(1).field(1));
    function.write(raised, copied(block, &model(1), &registers).goto(meet));
    let block = copied(Open::new(), &register(1), &registers.clone().field(0));
    function.write(lowered, block.used(&model(3)).goto(meet));
    let block = copied(Open::new(), &registers, &model(1));
    let lent = Place::local(LENT).deref().field(2);
    function.write(meet, copied(block, &lent, &register(3)).goto(last));
    let block = copied(Open::new(), &model(1).field(7), &Place::local(0));
    function.write(last, block.ret());
}

/// A restore function as a user writes it, over a model behind a mutable reference: a match on its eight
/// host ages, whose arms have a branch each and meet in one block, then a loop over the timers, a branch,
/// and the registers.
pub fn restore() -> Input {
    let (types, model_type, others) = model_types();
    let mut function = Function::new(others[0], &[model_type], &others);
    let start = function.block();
    let arms = [4, 3, 4, 3, 4, 3, 4, 3].map(|blocks| labels(&mut function, blocks));
    let [unreachable, done] = function.blocks();
    let kind = Place::local(2);
    let switch = Open::new().read(&model(0)).note(&kind).switch(&kind);
    let switch = (0..).zip(&arms).fold(switch, |switch, (age, arm)| switch.arm(age, arm[0]));
    function.write(start, switch.otherwise(unreachable));
    (0..).zip(&arms).for_each(|(age, arm)| restore_age(&mut function, age, arm, done));
    function.write(unreachable, Open::new().stop());
    let behind = function.blocks();
    restore_rest(&mut function, done, behind);
    Input::new(&types, &function)
}

/// 256 blocks and states of at most 20 nodes: ten locals, of which five are structs of two ints, most of
/// them open. Eight blocks are a diamond, a branch of one side, a chain of two, and a branch of one side;
/// three of them are join points.
pub fn small_states() -> Input {
    const PAIRS: usize = 5;
    let mut types = Types::new();
    let int = types.opaque();
    let pair = types.structure(&[int; 2]);
    let mut function = Function::new(int, &[pair; PAIRS], &[int; 4]);
    let labels = labels(&mut function, MAX_BLOCKS);
    let pair = |n: usize| Place::local(1 + (n % PAIRS) as u32);
    let uses = |at: usize| {
        let parts = (0..3).map(|n| pair(at + n).field((at / 2 % 2) as u32));
        let block = parts.fold(Open::new(), |block, part| block.used(&part));
        let block = block.used(&Place::local((1 + PAIRS + at % 4) as u32));
        if at.is_multiple_of(3) {
            block.used(&pair(at + 4))
        } else {
            block
        }
    };
    let branch = |at, to, past| uses(at).switch_constant().arm(0, to).otherwise(past);
    for (first, eight) in (0..).step_by(8).zip(labels.chunks(8)) {
        let &[head, left, right, meet, side, joint, on, last] = eight else { unreachable!("8") };
        function.write(head, branch(first, left, right));
        function.write(left, uses(first + 1).goto(meet));
        function.write(right, uses(first + 2).goto(meet));
        function.write(meet, branch(first + 3, side, joint));
        function.write(side, uses(first + 4).goto(joint));
        function.write(joint, uses(first + 5).goto(on));
        let (block, end) = match labels.get(first + 8) {
            Some(&next) => (branch(first + 6, last, next), uses(first + 7).goto(next)),
            None => (uses(first + 6).goto(last), uses(first + 7).ret()),
        };
        function.write(on, block);
        function.write(last, end);
    }
    Input::new(&types, &function)
}

/// The uses of `many_locals` that change nothing.
pub const LATER_USES: usize = 4096;

/// One block of so many locals, all but the return place structs of one field. Each is opened, and then
/// the last one's field is used again and again.
pub fn many_locals(count: usize) -> Input {
    let mut types = Types::new();
    let int = types.opaque();
    let one = types.structure(&[int]);
    let mut function = Function::new(int, &[], &vec![one; count - 1]);
    let block = function.block();
    let locals = (1..count).chain(repeat_n(count - 1, LATER_USES));
    let places = locals.map(|local| Place::local(local as u32).field(0));
    function.write(block, places.fold(Open::new(), |block, place| block.used(&place)).ret());
    Input::new(&types, &function)
}

/// Six types more, over an opaque one and the last; gives their last.
fn six_types(types: &mut Types, int: Type, last: Type, n: usize) -> Type {
    let pointer = types.mut_ref(last);
    let pair = types.structure(&[int, pointer, int, last, int, int, int]);
    let variants = [types.variant(0, &[pair, int, int]), types.variant(1, &[int, int, int])];
    let list = types.enumeration(&variants);
    if n.is_multiple_of(2) {
        types.tuple(&[list, int, int, int, int])
    } else {
        types.boxed(list)
    }
}

/// So many types with four times as many parts, the limits' own ratio: two records of 2,048 types make
/// the largest merged record.
pub fn types_to_merge(count: usize) -> Vec<u32> {
    let mut types = Types::new();
    let int = types.opaque();
    let mut last = int;
    for n in 0..(count - 2) / 6 {
        last = six_types(&mut types, int, last, n);
    }
    while (types.count() as usize) < count - 1 {
        types.array();
    }
    let parts = 4 * count - types.record()[1] as usize;
    types.structure(&vec![int; parts]);
    types.record()
}

/// 4,096 types with 14,322 parts, and a function that looks at few of them.
pub fn many_types() -> Input {
    let mut types = Types::new();
    let int = types.opaque();
    (0..3).for_each(|_| {
        types.array();
    });
    let last = (0..682).fold(int, |last, n| six_types(&mut types, int, last, n));
    let mut function = Function::new(int, &[last], &[]);
    let block = function.block();
    function.write(block, Open::new().used(&Place::local(1)).ret());
    let input = Input::new(&types, &function);
    assert_eq!(input.types[..2], [MAX_TYPES as u32, 14_322]);
    input
}

/// A device model: so many functions over one type record of 4,096 types, as types and function records.
/// Each restores an enum of three host ages behind a mutable reference: a match whose arms meet again,
/// then uses of a struct's fields and of all of it.
pub fn device_model(count: usize) -> (Vec<u32>, Vec<Vec<u32>>) {
    let mut types = Types::new();
    let int = types.opaque();
    let regs = types.structure(&[int; 6]);
    let ages: Vec<_> = (0..3).map(|age| types.variant(age, &[int, regs])).collect();
    let age = types.enumeration(&ages);
    let model = types.structure(&[regs, age, int]);
    let lent = types.mut_ref(model);
    let mut last = int;
    for _ in 8..MAX_TYPES {
        last = types.structure(&[int, last, int]);
    }
    let restore = |n: usize| {
        let mut function = Function::new(int, &[lent], &[int, regs]);
        let labels = labels(&mut function, 6);
        let place = Place::local(1).deref();
        let saved = place.clone().field(1);
        let start = Open::new().used(&place.clone().field(2)).read(&saved).note(&Place::local(2));
        let switch = start.switch(&Place::local(2));
        let switch = (0..3).fold(switch, |switch, age| switch.arm(age, labels[1 + age as usize]));
        function.write(labels[0], switch.otherwise(labels[5]));
        for age in 0..3 {
            let saved = saved.clone().downcast(age);
            let parts = (0..4).map(|k| saved.clone().field(1).field((n as u32 + k) % 6));
            let block = parts.fold(Open::new(), |block, part| block.used(&part));
            function.write(labels[1 + age as usize], block.used(&saved.field(0)).goto(labels[4]));
        }
        let parts = (0..6).map(|k| place.clone().field(0).field((n as u32 + k) % 6));
        let block = parts.fold(Open::new(), |block, part| block.used(&part));
        function.write(labels[4], block.used(&place.clone().field(0)).used(&Place::local(3)).ret());
        function.write(labels[5], Open::new().stop());
        function.record()
    };
    (types.record(), (0..count).map(restore).collect())
}

/// So many statements: all kinds in turn, over places of one element.
pub fn assigns(count: usize) -> Vec<Assign> {
    let statement = |n: usize| {
        let place = |k: usize| Place::local(1 + ((n + k) % 7) as u32).field((n % 3) as u32);
        let operand = |k: usize| Operand::from(place(k));
        let rvalue = match n % 11 {
            0 => Rvalue::Use(operand(1)),
            1 => Rvalue::Repeat(Operand::Constant),
            2 => Rvalue::Ref(place(1)),
            3 => Rvalue::FakeRef(place(1)),
            4 => Rvalue::RawPtr(place(1)),
            5 => Rvalue::Cast(operand(1)),
            6 => Rvalue::BinaryOp(operand(1), Operand::Constant),
            7 => Rvalue::UnaryOp(operand(1)),
            8 => Rvalue::PtrMetadata(operand(1)),
            9 => Rvalue::Discriminant(place(1)),
            _ => Rvalue::Aggregate(vec![operand(1)]),
        };
        Assign::new(place(0), rvalue)
    };
    (0..count).map(statement).collect()
}

#[cfg(test)]
mod tests {
    use std::collections::hash_map::{Entry, HashMap};

    use hirvoksne::{Point, SHARE};
    use oracle::{
        calls,
        env::Env,
        function::{Body, Statement, START_BLOCK},
        queue::WorkQueue,
        refusal::Refusal,
    };

    use super::*;
    use crate::left::Left;

    /// Join points, and the most open nodes of a stored state.
    fn stored(input: &Input) -> (usize, usize) {
        let statements = hirvoksne::ghost_statements(&input.types, &input.function).unwrap();
        let join_points = statements.join_points();
        let open = |&block: &u32| {
            let state = statements.stored(block).unwrap();
            state.forms.iter().filter(|&&form| form != 0).count()
        };
        (join_points.len(), join_points.iter().map(open).max().unwrap_or(0))
    }

    /// 20 open locals of 24 fields, and the return place: 501 nodes.
    #[test]
    fn large_states() {
        assert_eq!(stored(&large()), (64, 20));
    }

    /// Records that pass refusal 2 as they are, and are refused with it for the arg of the last item.
    #[test]
    fn refused_for_the_last_item() {
        for input in [items(16383), large(), mixed()] {
            assert_eq!(input.sizes().1, MAX_ITEMS);
            let types = oracle::types::Types::read(&input.types).unwrap();
            assert!(Body::read(&types, &input.function).is_ok());
            let Input { function, .. } = refused_last(input);
            assert_eq!(Body::read(&types, &function).err(), Some(Refusal::BadFunction));
        }
    }

    /// One open struct with all its fields open: 202 nodes with the return place.
    #[test]
    fn rounds_reach_all() {
        assert_eq!(stored(&rounds()), (100, 101));
        assert!(visits(&rounds()) > 5_000);
    }

    /// How often the first pass pops a block, by the transcription's parts: of a function without a match,
    /// in which all blocks are join points, or all but the start.
    fn visits(input: &Input) -> usize {
        let types = oracle::types::Types::read(&input.types).unwrap();
        let body = Body::read(&types, &input.function).unwrap();
        let mut queue = WorkQueue::empty(body.basic_blocks.len(), &body.rank);
        let (mut stored, mut visits) = (HashMap::new(), 0);
        let mut env = Env::new(&body.local_types);
        for used in &body.entry_uses {
            env.projection(&types, &used.place).unwrap();
        }
        let mut arrivals = vec![(START_BLOCK, env)];
        loop {
            for (block, env) in arrivals.drain(..) {
                let changed = match stored.entry(block) {
                    Entry::Occupied(mut entry) => Env::join(entry.get_mut(), &types, env).unwrap(),
                    Entry::Vacant(entry) => {
                        entry.insert(env);
                        true
                    }
                };
                if changed {
                    queue.insert(block);
                }
            }
            let Some(block) = queue.pop() else { return visits };
            visits += usize::from(body.is_join_point(block));
            let mut env: Env = stored[&block].clone();
            for statement in &body.basic_blocks[block].statements {
                let Statement::Use(used) = statement else { panic!("a match") };
                env.projection(&types, &used.place).unwrap();
            }
            let targets = body.basic_blocks[block].targets().into_iter();
            arrivals.extend(targets.map(|target| (target.block, env.clone())));
        }
    }

    /// The start, the head and the 204 after it are popped first, then each of the 50 others, and the 205
    /// again. The others keep the five pointers open.
    #[test]
    fn waiting_visits() {
        assert_eq!(stored(&waiting()), (256, 5));
        assert_eq!(visits(&waiting()), 1 + 205 + 50 * (1 + 205));
    }

    /// What is recorded follows the order of the visits, and is the transcription's.
    #[test]
    fn waiting_answers() {
        let Input { types, function } = waiting();
        let statements = hirvoksne::ghost_statements(&types, &function).unwrap();
        let room = [256 * SHARE, 256 * SHARE, statements.record().len(), statements.len()];
        let left = Left::by(room, 0xaa, |forms, whats, out, told| {
            calls::ghost_statements(&types, &function, forms, whats, out, told)
        });
        assert_eq!(statements.record(), left.out);
        assert_eq!(statements.numbers(), left.told);
    }

    /// 63 open structs of 8 fields, one of one field, and five locals.
    #[test]
    fn chains() {
        assert_eq!(stored(&match_chain(256)), (1, 64));
        assert_eq!(stored(&goto_chain(256)), (0, 0));
    }

    /// Its size, and that arms record statements where they lead to join points.
    #[test]
    fn restore_in_size() {
        let input = restore();
        let (blocks, items) = input.sizes();
        assert!((35..=45).contains(&blocks) && (200..=600).contains(&items), "{blocks} {items}");
        assert!((55..=65).contains(&input.function[0]), "{}", input.function[0]);
        let statements = hirvoksne::ghost_statements(&input.types, &input.function).unwrap();
        assert!(statements.len() > 8);
        let types = oracle::types::Types::read(&input.types).unwrap();
        let body = Body::read(&types, &input.function).unwrap();
        let joins = |block: &usize| {
            let targets = body.basic_blocks[*block].targets().into_iter();
            let mut joins = targets.filter(|target| body.is_join_point(target.block));
            joins.any(|join| statements.at(Point::BeforeItem(join.item as u32)).next().is_some())
        };
        // The blocks of the arms are 1 to 28.
        assert!((1..=28).filter(joins).count() > 8);
    }

    /// Ten locals, and two fields for each open one: 20 nodes at most.
    #[test]
    fn small_states_stay_small() {
        let input = small_states();
        assert_eq!(input.sizes().0, MAX_BLOCKS);
        assert_eq!(stored(&input), (95, 5));
    }

    /// One unfold for each local but the return place, and none by the later uses.
    #[test]
    fn later_uses_are_quiet() {
        for count in [8, 64, 256] {
            let input = many_locals(count);
            assert_eq!(input.function[0] as usize, count);
            assert_eq!(input.sizes(), (1, 3 * (count - 1 + LATER_USES) + 1));
            let statements = hirvoksne::ghost_statements(&input.types, &input.function).unwrap();
            assert_eq!(statements.len(), count - 1);
        }
    }

    #[test]
    fn others() {
        assert_eq!(stored(&many_types()), (0, 0));
        let (types, functions) = device_model(2);
        assert_eq!(types[0], MAX_TYPES as u32);
        let one = hirvoksne::ghost_statements(&types, &functions[1]).unwrap();
        assert_eq!((one.join_points(), one.len() > 3), (&[4][..], true));
        assert!(small(3).iter().all(|input| input.sizes().0 == 10));
    }

    #[test]
    fn the_largest_sum() {
        for count in [512, 1024, 2048] {
            let record = types_to_merge(count);
            assert_eq!(record[..2], [count as u32, 4 * count as u32]);
            let merged = hirvoksne::merge_types(&record, &record).unwrap();
            assert_eq!(merged[..2], [2 * count as u32, 8 * count as u32]);
        }
        let largest = types_to_merge(2048);
        let larger = hirvoksne::merge_types(&largest, &types_to_merge(2049));
        assert_eq!(larger, Err(hirvoksne::Refusal::MergedTooLarge));
    }
}
