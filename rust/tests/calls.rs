//! The wrapper: what it gives, how it sizes what it lends, and the stack.

use hirvoksne::{
    ghost_statements, ghost_statements_into, read_numbered, read_record, Elem, Function, Label,
    Open, Place, Point, Refusal, Statement, Told, Type, Types, Verb, CALLERS_BLOCKS, SHARE,
};

const TYPES: [u32; 8] = [2, 2, 0, 6, 0, 2, 0, 0];
const WORKED: [u32; 38] = [
    2, 1, 4, 12, 0, 1, 0, 7, 10, 11, 0, 1, 2, 3, 0, 2, 5, 8, 9, 10, 10, 0, 5, 10, 10, 11, 1, 0, 0,
    0, 0, 1, 2, 1, 0, 3, 3, 0,
];

fn statement(point: u32, verb: Verb, local: u32, elems: &[Elem], told: Told) -> Statement {
    let place = Place { local, elems: elems.to_vec() };
    Statement { point: Point::BeforeItem(point), verb, place, told }
}

fn one_block(types: &Types, locals: &[Type], write: impl Fn(Open) -> Open) -> Result<String, u32> {
    let mut function = Function::new(locals[0], &[], &locals[1..]);
    let block = function.block();
    function.write(block, write(Open::new()).ret());
    let answer = ghost_statements(&types.record(), &function.record());
    answer.map(|statements| statements.to_string()).map_err(Refusal::number)
}

#[test]
fn the_worked_example() {
    let statements = ghost_statements(&TYPES, &WORKED).unwrap();
    let list: Vec<_> = statements.iter().cloned().collect();
    let at = (2, Verb::Unfold, Told::Used(0));
    let back = (8, Verb::Fold, Told::Used(0));
    let again = (9, Verb::Unfold, Told::Collected);
    let expected = [at, back, again];
    assert_eq!(list, expected.map(|(item, verb, told)| statement(item, verb, 1, &[], told)));
    assert_eq!(statements.to_string(), "at 2 unfold _1 0\nat 8 fold _1\nat 9 unfold _1 -\n");
    assert_eq!(statements.numbers(), [0, 0, 255]);
    assert_eq!(statements.len(), 3);
    assert_eq!(statements.at(Point::BeforeItem(8)).count(), 1);
    assert_eq!(statements.at(Point::Entry).count(), 0);
    let record = [3, 9, 13, 16, 0, 13, 15, 0, 13, 16, 0, 2, 0, 1, 8, 0, 1, 9, 0, 1];
    assert_eq!(statements.record(), record);
    assert_eq!(statements.join_points(), [3]);
    let stored = statements.stored(3).unwrap();
    assert_eq!(stored.forms[..5], [0, 2, 0, 0, 0]);
    assert_eq!((stored.forms.len(), stored.whats.len()), (SHARE, SHARE));
    assert_eq!(statements.stored(0), None);
}

#[test]
fn the_builder_writes_the_worked_example() {
    let mut types = Types::new();
    let int = types.opaque();
    let pair = types.structure(&[int, int]);
    assert_eq!(types.record(), TYPES);
    let mut function = Function::new(int, &[pair], &[]);
    let [a, b, c, d] = function.blocks();
    let one = Place::local(1);
    let test = Open::new().used(&one.clone().field(0)).switch_constant();
    function.write(a, test.arm(0, b).otherwise(c));
    function.write(b, Open::new().used(&one).goto(d));
    function.write(c, Open::new().goto(d));
    function.write(d, Open::new().ret());
    assert_eq!(function.record(), WORKED);
    function.set_ranks(&[3, 2, 1, 0]);
    assert_eq!(function.record()[10..14], [3, 2, 1, 0]);
}

#[test]
fn entry_uses_come_first() {
    let mut types = Types::new();
    let int = types.opaque();
    let pair = types.tuple(&[int, int]);
    let mut function = Function::new(int, &[pair], &[]);
    let block = function.block();
    function.write(block, Open::new().used(&Place::local(1)).ret());
    function.used_at_entry(&Place::local(1).field(1));
    let statements = ghost_statements(&types.record(), &function.record()).unwrap();
    assert_eq!(statements.to_string(), "entry unfold _1 0\nat 4 fold _1\n");
}

/// A match: the arm of value 7 unfolds its variant, unrecorded; a value that no variant has is 8.
#[test]
fn a_match() {
    let mut types = Types::new();
    let int = types.opaque();
    let none = types.variant(3, &[]);
    let some = types.variant(7, &[int]);
    let option = types.enumeration(&[none, some]);
    let mut answers = vec![];
    for value in [7, 4] {
        let mut function = Function::new(int, &[option], &[int]);
        let [start, arm, other] = function.blocks();
        let test = Open::new().read(&Place::local(1)).note(&Place::local(2));
        let test = test.switch(&Place::local(2)).arm(value, arm);
        function.write(start, test.otherwise(other));
        let field = Place::local(1).downcast(1).field(0);
        function.write(arm, Open::new().used(&field).used(&Place::local(1)).ret());
        let answer = ghost_statements(&types.record(), &function.record());
        answers.push(answer.map(|statements| statements.to_string()));
    }
    assert_eq!(answers, [Ok("at 14 fold _1\n".to_string()), Err(Refusal::NoSuchValue)]);
}

#[test]
fn each_refusal_of_the_call() {
    let mut types = Types::new();
    let int = types.opaque();
    let pair = types.structure(&[int, int]);
    let [nil, cons] = [types.variant(0, &[]), types.variant(1, &[pair])];
    let list = types.enumeration(&[nil, cons]);
    let wide = types.structure(&vec![int; 509]);
    let locals = [int, pair, list, wide];
    let refused = |place: Place| one_block(&types, &locals, |block| block.used(&place));
    assert_eq!(refused(Place::local(1).field(1)), Ok("at 2 unfold _1 0\n".to_string()));
    assert_eq!(refused(Place::local(4)), Err(4));
    assert_eq!(refused(Place::local(1).deref()), Err(5));
    assert_eq!(refused(Place::local(3).field(0)), Err(9));
    let twice = |block: Open| {
        let as_list = |variant| Place::local(2).downcast(variant).field(0);
        block.used(&as_list(1)).used(&Place::local(2).downcast(0).field(0))
    };
    assert_eq!(one_block(&types, &locals, twice), Err(6));
    let types = types.record();
    assert_eq!(ghost_statements(&types[1..], &WORKED), Err(Refusal::BadTypes));
    assert_eq!(ghost_statements(&types, &WORKED[1..]), Err(Refusal::BadFunction));
}

#[test]
fn numbers_and_words() {
    for (at, refusal) in Refusal::ALL.into_iter().enumerate() {
        assert_eq!(refusal.number() as usize, at + 1);
        assert_eq!(Refusal::from_number(refusal.number()), Some(refusal));
        assert!(refusal.to_string().starts_with(&format!("{}: ", refusal.word())));
    }
    assert_eq!([0, 13].map(Refusal::from_number), [None, None]);
}

#[test]
fn lent_buffers() {
    let Left { answer, forms, whats, out, told } = lent(&WORKED, [SHARE + 1, SHARE, 22, 5]);
    assert_eq!(answer, Ok((3, 9)));
    assert_eq!(out[18..], [0, 1, 0, 0]);
    assert_eq!(told, [0, 0, 255, 0, 0]);
    assert_eq!((forms[1], forms[SHARE], &whats[..]), (2, 0, &[0; SHARE][..]));
    for room in [
        [SHARE - 1, SHARE, 20, 3],
        [SHARE, SHARE - 1, 20, 3],
        [SHARE, SHARE, 19, 3],
        [SHARE, SHARE, 20, 2],
        [SHARE, SHARE, 20, 0],
        [SHARE, SHARE, 19, 2],
        [0; 4],
    ] {
        assert_eq!(lent(&WORKED, room).answer, Err(Refusal::ShortStore), "{room:?}");
    }
    assert_eq!(lent(&WORKED, [SHARE, SHARE, 20, 3]).answer, Ok((3, 9)));
}

/// The answer, and what was lent.
struct Left {
    answer: Result<(usize, usize), Refusal>,
    forms: Vec<u16>,
    whats: Vec<u16>,
    out: Vec<u32>,
    told: Vec<u32>,
}

/// By a call over arrays of these lengths: zeros after a refusal.
fn lent(function: &[u32], room: [usize; 4]) -> Left {
    let [mut forms, mut whats] = [room[0], room[1]].map(|length| vec![7; length]);
    let [mut out, mut told] = [room[2], room[3]].map(|length| vec![7; length]);
    let answer =
        ghost_statements_into(&TYPES, function, &mut forms, &mut whats, &mut out, &mut told);
    if answer.is_err() {
        assert!(forms.iter().chain(&whats).all(|&word| word == 0));
        assert!(out.iter().chain(&told).all(|&word| word == 0));
    }
    Left { answer, forms, whats, out, told }
}

/// A short array for the numbers is found last: after whatever else is refused.
#[test]
fn short_numbers_are_found_last() {
    let mut wrong = WORKED;
    let ops_at = 4 + 2 + 8;
    wrong[ops_at + 1] = 1; // _1.* for _1.0
    assert_eq!(lent(&wrong, [SHARE, SHARE, 20, 0]).answer, Err(Refusal::WrongStep));
    assert_eq!(lent(&wrong[1..], [SHARE, SHARE, 20, 0]).answer, Err(Refusal::BadFunction));
    let quiet = [1, 0, 1, 1, 0, 0, 0, 11, 0];
    assert_eq!(lent(&quiet, [0, 0, 2, 0]).answer, Ok((0, 0)));
}

/// A hundred edges with 250 statements each: the buffer that is tried first is too short.
#[test]
fn the_buffer_grows() {
    let mut types = Types::new();
    let int = types.opaque();
    let inner = types.structure(&[int]);
    let outer = types.structure(&[inner; 250]);
    let mut function = Function::new(int, &[outer], &[]);
    let [start, open, many, end] = function.blocks();
    function.write(start, Open::new().switch_constant().arm(0, open).otherwise(many));
    let all = (0..250).map(|field| Place::local(1).field(field).field(0));
    function.write(open, all.fold(Open::new(), |block, place| block.used(&place)).goto(end));
    let arms = |switch: hirvoksne::Switch, value| switch.arm(value, end);
    function.write(many, (0..99).fold(Open::new().switch_constant(), arms).otherwise(end));
    function.write(end, Open::new().stop());
    let statements = ghost_statements(&types.record(), &function.record()).unwrap();
    assert_eq!(statements.len(), 250 + 100 * 250);
    assert!(statements.record().len() > 200_000);
    assert_eq!(read_record(statements.record()).unwrap().len(), statements.len());
    assert_eq!(statements.numbers().len(), statements.len());
    let at_edges = statements.iter().filter(|statement| statement.told == Told::Collected);
    assert_eq!(at_edges.count(), 100 * 250);
}

/// All uses of the entry are at one point, which so has as many statements as there are uses, and those of
/// the jump to a start block that is a join point.
#[test]
fn many_statements_at_the_entry() {
    let mut types = Types::new();
    let int = types.opaque();
    let pair = types.structure(&[int, int]);
    let mut function = Function::new(int, &[pair], &[]);
    let block = function.block();
    let (whole, field) = (Place::local(1), Place::local(1).field(0));
    for _ in 0..1000 {
        function.used_at_entry(&field);
        function.used_at_entry(&whole);
    }
    function.write(block, Open::new().used(&field).goto(block));
    let statements = ghost_statements(&types.record(), &function.record()).unwrap();
    assert_eq!(statements.at(Point::Entry).count(), 2001);
    assert_eq!(statements.len(), 2001);
    assert_eq!(statements.iter().last().unwrap().to_string(), "entry unfold _1 -");
}

/// On a thread of 768 KB the call has a stack of its own, or needs little.
#[test]
fn long_chains_on_a_small_stack() {
    let chain = |blocks: u32| {
        let mut types = Types::new();
        let int = types.opaque();
        let wide = types.structure(&vec![int; 509]);
        let mut function = Function::new(int, &[wide], &[]);
        let labels: Vec<Label> = (0..blocks).map(|_| function.block()).collect();
        let field = Place::local(1).field(0);
        for pair in labels.windows(2) {
            function.write(pair[0], Open::new().used(&field).goto(pair[1]));
        }
        ghost_statements(&types.record(), &function.record()).unwrap().to_string()
    };
    let small = std::thread::Builder::new().stack_size(768 << 10);
    let calls = move || [CALLERS_BLOCKS as u32, CALLERS_BLOCKS as u32 + 1, 256].map(chain);
    let answers = small.spawn(calls).unwrap().join().unwrap();
    assert_eq!(answers, ["at 2 unfold _1 0\n"; 3]);
}

#[test]
fn no_statement_record() {
    let good = [1, 3, 13, 16, 0, 2, 0, 1];
    let unknown = statement(2, Verb::Unfold, 1, &[], Told::Unknown);
    assert_eq!(read_record(&good).unwrap(), [unknown]);
    let spoilt = |at: usize, word: u32| {
        let mut words = good;
        words[at] = word;
        read_record(&words)
    };
    for (at, word) in [(0, 2), (1, 4), (1, 2), (2, 14), (2, 12), (3, 14), (4, 1), (6, 1)] {
        assert_eq!(spoilt(at, word), None, "{word} at {at}");
    }
    assert_eq!(read_record(&[]), None);
    assert_eq!(read_record(&[0, 0]), Some(vec![]));
}

/// Where an opening began: behind a step that was passed, at a downcast, and never at what is collected.
#[test]
fn where_the_opening_began() {
    let mut types = Types::new();
    let int = types.opaque();
    let pair = types.structure(&[int, int]);
    let lent = types.mut_ref(pair);
    let [nil, cons] = [types.variant(0, &[]), types.variant(1, &[lent])];
    let list = types.enumeration(&[nil, cons]);
    let head = Place::local(1).downcast(1).field(0);
    let uses = [head.clone().deref().field(0), head.clone().deref(), head.deref().field(1)];
    let mut function = Function::new(int, &[list], &[]);
    let block = function.block();
    let body = uses.iter().fold(Open::new(), |block, place| block.used(place));
    function.write(block, body.ret());
    let statements = ghost_statements(&types.record(), &function.record()).unwrap();
    let told: Vec<Told> = statements.iter().map(|statement| statement.told).collect();
    assert_eq!(told, [Told::Used(0), Told::Used(0), Told::Used(3), Told::Collected]);
    assert_eq!(statements.numbers(), [0, 0, 3, 255]);
    let text = statements.to_string();
    let lines: Vec<&str> = text.lines().collect();
    assert_eq!(lines[0], "at 5 unfold _1.as1.0.* 0");
    assert_eq!(lines[1], "at 10 fold _1.as1.0.*");
    assert_eq!(lines[2], "at 16 unfold _1.as1.0.* 3");
    assert_eq!(lines[3], "at 17 fold _1.as1.0.* -");
}

#[test]
fn a_record_and_its_numbers() {
    // at 2 unfold _1.0, at 6 fold _1
    let record = [2, 7, 13, 16, 0, 2, 13, 15, 0, 2, 0, 1, 0, 6, 0, 1];
    let told = |numbers: &[u32]| {
        let list = read_numbered(&record, numbers)?;
        Some(list.into_iter().map(|statement| statement.told).collect::<Vec<_>>())
    };
    assert_eq!(told(&[1, 0]), Some(vec![Told::Used(1), Told::Used(0)]));
    assert_eq!(told(&[255, 255, 9]), Some(vec![Told::Collected; 2]), "what is behind them");
    for numbers in [&[][..], &[0], &[2, 0], &[256, 0], &[0, 1], &[0, 254], &[u32::MAX, 0]] {
        assert_eq!(told(numbers), None, "{numbers:?}");
    }
    assert_eq!(read_numbered(&record[1..], &[0, 0]), None);
    assert_eq!(read_numbered(&[0, 0], &[]), Some(vec![]));
}
