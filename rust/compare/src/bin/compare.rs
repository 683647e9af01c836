//! The library against the transcription: the same words in, the same words out, to the last:
//! refusal, counts, both store arrays, the buffer and the numbers beside it; then the safe call, whose
//! answer, text and numbers are compared too. So with lists of statements: refusal, count and buffer, and
//! the safe call's items; with crates: refusal and position, and the text of each function; and with pairs
//! of type records: refusal and merged record. Over each merged record the library runs a function of the
//! first and a moved one of the second, and must leave what it leaves over their own records.
//!
//! ```text
//! compare [--seed S] [--count N]    the cases round each limit, then N random and damaged ones; the
//!                                   same of lists of statements, of crates and of pairs of type
//!                                   records; then texts for `ghosts`, a tenth as many
//! compare --exhaustive              all short records, pairs and lists over a few words, all small
//!                                   functions
//! ```
//!
//! The first difference ends the run with its input. The second run also fails if it accepts too few
//! function records.

use std::{fmt::Write, process::exit, time::Instant};

use compare::{left::Left, options::Options};
use hirvoksne::SHARE;
use oracle::{
    calls,
    case::{Call, Case},
    function::{RETURN, STOP, TARGET},
    generate::{
        damage::damage_words,
        draft::{push_switch, push_use, Draft, Item},
        limits::limits,
        merge::function_over,
        random,
        rng::Rng,
        Kind, Size,
    },
    ghost_statements::GhostStatements,
    merge::{self, local_types, moved},
    place::{Place, PlaceElem},
    types::Types,
    whole_crate,
};

fn main() {
    let mut options = Options::read();
    let exhaustive = options.flag("--exhaustive");
    let (seed, count) = (options.value("--seed", 1), options.value("--count", 10_000));
    options.end();
    let start = Instant::now();
    let mut tally = Tally::default();
    if exhaustive {
        all_short(&mut tally);
    } else {
        limits_and_random(&mut tally, seed, count);
        tally.part(&format!("limits, and {count} cases of seed {seed}"), "statements");
        lists(&mut tally, seed, count);
        tally.part(&format!("limits, and {count} lists of seed {seed}"), "items");
        crates(&mut tally, seed, count);
        tally.part(&format!("limits, and {count} crates of seed {seed}"), "functions");
        merges(&mut tally, seed, count);
        texts(&mut tally, seed, count / 10);
    }
    println!("{} cases, no difference, {:.1?}", tally.cases, start.elapsed());
}

/// How often each answer came up: 0 is accepted.
#[derive(Default)]
struct Tally {
    /// In the whole run.
    cases: u64,
    answers: [u64; 13],
    /// Statements, items, functions or types.
    given: u64,
}

/// The words of one call.
struct Input<'a> {
    types: &'a [u32],
    function: &'a [u32],
    /// The lengths of the two store arrays, of the buffer and of the array for the numbers.
    room: [usize; 4],
}

impl<'a> Input<'a> {
    fn of(case: &'a Case) -> Input<'a> {
        let room = [0, 1, 2, 3].map(|at| case.room.get(at).copied().unwrap_or(600));
        Input { types: &case.types, function: &case.function, room }
    }
}

const WHOLE: Kind = Kind::Call(Call::Whole);

/// Whose answers are compared.
const SIDES: [&str; 2] = ["library", "oracle"];

/// What a side leaves of a function.
type FunctionLeft = Left<Result<(usize, usize), u32>>;

fn library_left(input: &Input, byte: u8) -> FunctionLeft {
    let Input { types, function, room } = *input;
    Left::by(room, byte, |forms, whats, out, told| {
        let answer = hirvoksne::ghost_statements_into(types, function, forms, whats, out, told);
        answer.map_err(|refusal| refusal.number())
    })
}

fn function_left(input: &Input) -> [FunctionLeft; 2] {
    let Input { types, function, room } = *input;
    let library = library_left(input, 0x55);
    let oracle = Left::by(room, 0xaa, |forms, whats, out, told| {
        let answer = calls::ghost_statements(types, function, forms, whats, out, told);
        answer.map_err(|refusal| refusal.number())
    });
    [library, oracle]
}

/// And of a crate: the refusal and its position. No numbers are lent.
fn crate_left(case: &Case) -> [Left<Result<(), (u32, usize)>>; 2] {
    let Case { types, list, .. } = case;
    let room = [case.room[0], case.room[1], case.room[2], 0];
    let library = Left::by(room, 0x55, |forms, whats, out, _| {
        let answer = hirvoksne::crate_statements_into(types, list, forms, whats, out);
        answer.map_err(|refused| (refused.refusal.number(), refused.position))
    });
    let oracle = Left::by(room, 0xaa, |forms, whats, out, _| {
        let answer = whole_crate::crate_statements(types, list, forms, whats, out);
        answer.map(|_| ()).map_err(|(refusal, position)| (refusal.number(), position))
    });
    [library, oracle]
}

impl Tally {
    /// Prints how often each answer came up since the last time; how many were accepted.
    fn part(&mut self, what: &str, unit: &str) -> u64 {
        let [accepted, refused @ ..] = self.answers;
        let counts = (1..).zip(refused).filter(|&(_, count)| count > 0);
        let counts: Vec<_> = counts.map(|(number, count)| format!("{number}: {count}")).collect();
        let refused = if counts.is_empty() { "none".to_string() } else { counts.join(", ") };
        println!("{what}: accepted {accepted} ({} {unit}); refused {refused}", self.given);
        *self = Tally { cases: self.cases, ..Tally::default() };
        accepted
    }

    /// Compares what both sides leave, then the safe call with it.
    fn compare(&mut self, input: &Input) {
        let [library, oracle] = function_left(input);
        if let Some(found) = library.difference(&oracle, SIDES) {
            differ(self.cases, input, &found);
        }
        let answer = oracle.answer.map(|_| {
            let Left { out, told, .. } = &oracle;
            let statements = GhostStatements::from_record(out, told).expect("a record");
            self.given += statements.len() as u64;
            (statements.to_string(), statements.numbers())
        });
        let number = *answer.as_ref().err().unwrap_or(&0);
        // The safe call makes its own room, so of a short store it says something else.
        if number != 10 {
            let safe = hirvoksne::ghost_statements(input.types, input.function);
            let safe = safe.map(|list| (list.to_string(), list.numbers().to_vec()));
            let safe = safe.map_err(|refusal| refusal.number());
            if safe != answer {
                differ(self.cases, input, &format!("safe {safe:?}\noracle {answer:?}"));
            }
        }
        self.answers[number as usize] += 1;
        self.cases += 1;
    }
}

impl Tally {
    /// Compares the items of a list, in a buffer of so many words; then the safe call with them.
    fn compare_list(&mut self, list: &[u32], room: usize) {
        let (mut out, mut expected) = (vec![0x5555_5555; room], vec![0xaaaa_aaaa; room]);
        let library = hirvoksne::statement_items_into(list, &mut out);
        let library = library.map_err(|refusal| refusal.number());
        let oracle = oracle::statements::statement_items(list, &mut expected);
        let oracle = oracle.map_err(|refusal| refusal.number());
        if library != oracle || out != expected {
            differ_list(
                list,
                &format!("library {library:?} {out:?}\noracle {oracle:?} {expected:?}"),
            );
        }
        let number = *oracle.as_ref().err().unwrap_or(&0);
        if number != 10 {
            let safe = hirvoksne::statement_items(list).map_err(|refusal| refusal.number());
            let safe = safe.map(|items| items.as_slice().to_vec());
            let items = oracle.map(|count| {
                let (ops, args) = expected[1..1 + 2 * count].split_at(count);
                ops.iter().copied().zip(args.iter().copied()).collect::<Vec<_>>()
            });
            if safe != items {
                differ_list(list, &format!("safe {safe:?}\noracle {items:?}"));
            }
        }
        self.given += oracle.unwrap_or(0) as u64;
        self.answers[number as usize] += 1;
        self.cases += 1;
    }
}

impl Tally {
    /// Compares what both sides leave of a crate, then the safe call with it.
    fn compare_crate(&mut self, case: &Case) {
        let [library, oracle] = crate_left(case);
        if let Some(found) = library.difference(&oracle, SIDES) {
            differ_crate(case, &found);
        }
        let number = oracle.answer.map_or_else(|(number, _)| number, |()| 0);
        // The safe call makes its own room, and takes records, so that there are no words after them.
        if let Some(functions) = records(&case.list).filter(|_| number != 10) {
            let safe = hirvoksne::crate_statements(&case.types, &functions);
            let safe = safe.map_err(|refused| (refused.refusal.number(), refused.position));
            let safe = safe.map(|lists| lists.iter().map(ToString::to_string).collect::<Vec<_>>());
            let texts = oracle.answer.map(|()| texts_of(&oracle.out, functions.len()));
            if safe != texts {
                differ_crate(case, &format!("safe {safe:?}\noracle {texts:?}"));
            }
        }
        self.given += oracle.answer.map_or(0, |()| u64::from(case.list[0]));
        self.answers[number as usize] += 1;
        self.cases += 1;
    }
}

impl Tally {
    /// Compares what both sides leave of two type records in so many words, then the safe call with it.
    /// The merged record, if there is one.
    fn compare_merge(&mut self, first: &[u32], second: &[u32], room: usize) -> Option<Vec<u32>> {
        let (mut out, mut expected) = (vec![0x5555_5555; room], vec![0xaaaa_aaaa; room]);
        let library = hirvoksne::merge_types_into(first, second, &mut out);
        let library = library.map_err(|refusal| refusal.number());
        let oracle = merge::merge_types(first, second, &mut expected);
        let oracle = oracle.map_err(|refusal| refusal.number());
        if library != oracle || out != expected {
            differ_merge(
                [first, second],
                &format!("library {library:?} {out:?}\noracle {oracle:?} {expected:?}"),
            );
        }
        let number = *oracle.as_ref().err().unwrap_or(&0);
        let merged = oracle.map(|length| expected[..length].to_vec());
        if number != 10 {
            let safe = hirvoksne::merge_types(first, second).map_err(|refusal| refusal.number());
            if safe != merged {
                differ_merge([first, second], &format!("safe {safe:?}\noracle {merged:?}"));
            }
        }
        self.given += merged.as_ref().map_or(0, |merged| u64::from(merged[0]));
        self.answers[number as usize] += 1;
        self.cases += 1;
        merged.ok()
    }

    /// Compares what the library leaves of a function over a merged record with what it leaves over the one
    /// that it was written over. `over` is nothing where the function can't be moved: it must be refused
    /// with 2 then.
    fn compare_over(&mut self, alone: &Input, over: Option<(&[u32], &[u32])>) {
        let left = library_left(alone, 0x55);
        let found = match over {
            Some((types, function)) => {
                let over = library_left(&Input { types, function, room: alone.room }, 0xaa);
                over.difference(&left, ["merged", "alone"])
            }
            None => (left.answer != Err(2)).then(|| "a local type that can't be moved".to_string()),
        };
        if let Some(found) = found {
            let merged = over.map_or(&[][..], |(types, _)| types);
            differ(self.cases, alone, &format!("{found}\nmerged record {merged:?}"));
        }
        self.given += left.answer.map_or(0, |(statements, _)| statements as u64);
        self.answers[left.answer.err().unwrap_or(0) as usize] += 1;
        self.cases += 1;
    }

    /// Of a merged record a function over the second, and one over the first; now and then the generator's
    /// own, which fill their states and lack store or output, over their types behind the first.
    fn compare_functions(&mut self, rng: &mut Rng, first: &[u32], second: &[u32], merged: &[u32]) {
        let room = [24 * SHARE, 24 * SHARE, 4096, 680];
        let size = rng.weighted(&[(80, Size::Small), (20, Size::Normal)]);
        let function = function_over(rng, second, size);
        let over = moved(&function, first[0]);
        let alone = Input { types: second, function: &function, room };
        self.compare_over(&alone, over.as_ref().map(|over| (merged, &over[..])));
        // A local type past the first is none of its, and may be one of the merged record.
        let function = function_over(rng, first, size);
        if local_types(&function).iter().all(|&ty| ty < first[0]) {
            let alone = Input { types: first, function: &function, room };
            self.compare_over(&alone, Some((merged, &function)));
        }
        let own = if rng.chance(20) { random(rng, WHOLE, size, None) } else { None };
        let Some(case) = own else { return };
        if let Ok(merged) = hirvoksne::merge_types(first, &case.types) {
            let over = moved(&case.function, first[0]);
            let over = over.as_ref().map(|over| (&merged[..], &over[..]));
            self.compare_over(&Input::of(&case), over);
        }
    }
}

/// The function records of a crate, unless there is no count, one above 64, or words after the last.
fn records(words: &[u32]) -> Option<Vec<&[u32]>> {
    let (&count, words) =
        words.split_first().filter(|(&count, _)| count <= whole_crate::MAX_FUNCTIONS)?;
    let (records, spare) = whole_crate::records(count, words);
    spare.is_empty().then_some(records)
}

/// The text of each of so many statement records one after another, beside which no numbers stand.
fn texts_of(mut out: &[u32], count: usize) -> Vec<String> {
    let text = |_| {
        let (record, behind) = out.split_at(2 + 2 * out[1] as usize);
        out = behind;
        let statements = GhostStatements::from_collected(record).expect("a record");
        statements.iter().map(|(point, statement, _)| format!("{point} {statement}\n")).collect()
    };
    (0..count).map(text).collect()
}

fn differ_crate(case: &Case, found: &str) -> ! {
    eprintln!("a difference, of the crate\n{}{found}", case.input_lines());
    exit(1)
}

fn differ_merge([first, second]: [&[u32]; 2], found: &str) -> ! {
    eprintln!("a difference, of the type records {first:?} and {second:?}\n{found}");
    exit(1)
}

fn differ_list(list: &[u32], found: &str) -> ! {
    eprintln!("a difference, of the list {list:?}\n{found}");
    exit(1)
}

fn differ(number: u64, input: &Input, found: &str) -> ! {
    let mut text = format!("case {number}: a difference\n");
    for (name, words) in [("types", input.types), ("function", input.function)] {
        write!(text, "{name}").expect("a string takes all");
        words.iter().for_each(|word| write!(text, " {word}").expect("a string takes all"));
        text.push('\n');
    }
    eprintln!("{text}room {:?}\n{found}", input.room);
    exit(1)
}

fn limits_and_random(tally: &mut Tally, seed: u64, count: u64) {
    for (_, case) in limits().iter().filter(|(_, case)| case.call == Call::Whole) {
        tally.compare(&Input::of(case));
    }
    let mut rng = Rng::new(seed);
    let end = tally.cases + count;
    while tally.cases < end {
        for case in random_cases(&mut rng) {
            if tally.cases < end {
                tally.compare(&Input::of(&case));
            }
        }
    }
}

/// Lists of statements: those round each limit, and so many random and damaged ones.
fn lists(tally: &mut Tally, seed: u64, count: u64) {
    let kind = Kind::Call(Call::StatementItems);
    let limits = limits().into_iter().map(|(_, case)| case);
    for case in limits.filter(|case| case.call == Call::StatementItems) {
        tally.compare_list(&case.list, case.room[0]);
    }
    let mut rng = Rng::new(seed);
    for _ in 0..count {
        let size = rng.weighted(&[(30, Size::Small), (60, Size::Normal), (10, Size::Large)]);
        let case = random(&mut rng, kind, size, None).expect("any list will do");
        tally.compare_list(&case.list, case.room[0]);
    }
}

/// Crates: those round each limit, and so many random and damaged ones.
fn crates(tally: &mut Tally, seed: u64, count: u64) {
    let kind = Kind::Call(Call::CrateStatements);
    let limits = limits().into_iter().map(|(_, case)| case);
    for case in limits.filter(|case| case.call == Call::CrateStatements) {
        tally.compare_crate(&case);
    }
    let mut rng = Rng::new(seed);
    for _ in 0..count {
        let size = rng.weighted(&[(70, Size::Small), (30, Size::Normal)]);
        let case = random(&mut rng, kind, size, None).expect("any crate will do");
        tally.compare_crate(&case);
    }
}

/// Pairs of type records: those round each limit, and so many random and damaged ones; and functions over
/// each merged record.
fn merges(tally: &mut Tally, seed: u64, count: u64) {
    let kind = Kind::Call(Call::MergeTypes);
    let mut rng = Rng::new(seed);
    let mut over = Tally::default();
    let mut compare = |rng: &mut Rng, case: &Case| {
        let Case { types, types2, room, .. } = case;
        if let Some(merged) = tally.compare_merge(types, types2, room[0]) {
            over.compare_functions(rng, types, types2, &merged);
        }
    };
    let limits = limits().into_iter().map(|(_, case)| case);
    for case in limits.filter(|case| case.call == Call::MergeTypes) {
        compare(&mut rng, &case);
    }
    for _ in 0..count {
        let size = rng.weighted(&[(40, Size::Small), (60, Size::Normal)]);
        let case = random(&mut rng, kind, size, None).expect("any pair will do");
        compare(&mut rng, &case);
    }
    tally.part(&format!("limits, and {count} pairs of type records of seed {seed}"), "types");
    over.part("functions over the merged records", "statements");
    tally.cases += over.cases;
}

/// What is printed of texts: those round each limit, and so many random and damaged ones.
fn texts(tally: &mut Tally, seed: u64, count: u64) {
    let kind = Kind::Call(Call::Ghosts);
    let mut rng = Rng::new(seed);
    let random = (0..count).filter_map(|_| random(&mut rng, kind, Size::Small, None));
    let limits = limits().into_iter().map(|(_, case)| case);
    let mut compared = 0;
    for case in limits.filter(|case| case.call == Call::Ghosts).chain(random) {
        let (library, oracle) =
            (hirvoksne::ghosts(&case.input), oracle::ghosts::ghosts(&case.input));
        if library != oracle {
            let text = String::from_utf8_lossy(&case.input);
            eprintln!("a difference, of {text:?}\nlibrary {library:?}\noracle {oracle:?}");
            exit(1)
        }
        compared += 1;
    }
    println!("{compared} texts");
    tally.cases += compared;
}

/// A case of the generator, of the whole call or of a layout alone, and perhaps damaged copies of it.
fn random_cases(rng: &mut Rng) -> Vec<Case> {
    let size = rng.weighted(&[(30, Size::Small), (60, Size::Normal), (10, Size::Large)]);
    let kind = match rng.below(10) {
        0 => Kind::Call(Call::Types),
        1 => Kind::Call(Call::Function),
        2 => Kind::Items,
        3 => Kind::Words,
        _ => WHOLE,
    };
    let Some(case) = random(rng, kind, size, None) else { return vec![] };
    let case = with_room(rng, case);
    let damaged = if rng.chance(40) { rng.range(1, 2) } else { 0 };
    let mut cases: Vec<Case> = (0..damaged).map(|_| damaged_copy(rng, &case)).collect();
    cases.push(case);
    cases
}

/// The layouts alone come with no room, and those of types with no function.
fn with_room(rng: &mut Rng, mut case: Case) -> Case {
    if case.call == Call::Types {
        case.function = vec![1, 0, 1, 1, 0, 0, 0, 11, 0];
    }
    if case.room.is_empty() {
        let shares = rng.weighted(&[(20, 0), (60, 2), (20, 8)]);
        let (out, told) = (rng.pick(&[0, 2, 64, 1000, 1000]), rng.pick(&[0, 1, 8, 200, 200]));
        case.room = vec![shares * SHARE, shares * SHARE, out, told];
    }
    case
}

fn damaged_copy(rng: &mut Rng, case: &Case) -> Case {
    let mut case = case.clone();
    for _ in 0..rng.range(1, 2) {
        let record = if rng.chance(25) { &mut case.types } else { &mut case.function };
        if !record.is_empty() {
            damage_words(rng, record);
        }
    }
    if rng.chance(8) {
        let at = rng.below(4);
        case.room[at] = rng.below(case.room[at] + 1);
    }
    case
}

/// So many function records must be accepted, so that not only refusals are compared.
const LEAST_ACCEPTED: u64 = 100_000;
const OPAQUE: [u32; 4] = [1, 0, 0, 0];
/// An opaque type, and a struct of two.
const PAIR: [u32; 8] = [2, 2, 0, 6, 0, 2, 0, 0];
/// And a struct of that and an opaque one.
const OUTER: [u32; 12] = [3, 4, 0, 6, 6, 0, 2, 2, 0, 0, 1, 0];

/// Of each record all of up to 6 words over a few; then function records whose sizes fit their length,
/// and all small functions that are well formed. A type record that passes meets a function that returns.
fn all_short(tally: &mut Tally) {
    const RETURNS: [u32; 9] = [1, 0, 1, 1, 0, 0, 0, 11, 0];
    let room = room(0);
    let words = [0, 1, 2, 3, 4, 5, 6, 7, 8, 9, 10, u32::MAX];
    each_list(&words, 6, |types| tally.compare(&Input { types, function: &RETURNS, room }));
    tally.part("type records of up to 6 words", "statements");
    let words = [0, 1, 2, 4, 10, 11, u32::MAX];
    each_list(&words, 6, |function| tally.compare(&Input { types: &OPAQUE, function, room }));
    let accepted = tally.part("function records of up to 6 words", "statements")
        + any_layouts(tally)
        + short_blocks(tally)
        + small_functions(tally);
    println!("{accepted} function records accepted");
    if accepted < LEAST_ACCEPTED {
        eprintln!("there should be {LEAST_ACCEPTED} at least");
        exit(1)
    }
    let words = [0, 1, 2, 3, 6, 7, 8, 9, u32::MAX];
    each_list(&words, 7, |list| tally.compare_list(list, 16));
    tally.part("lists of up to 7 words", "items");
    short_merges(tally);
}

/// All pairs of type records of up to 4 words over a few; then of those of up to 6 words that pass, with
/// exactly enough output and with a word less.
fn short_merges(tally: &mut Tally) {
    let (mut short, mut good) = (vec![], vec![]);
    each_list(&[0, 1, 4, 8, u32::MAX], 4, |record| short.push(record.to_vec()));
    let words = [0, 1, 2, 3, 4, 5, 6, 7, 8, 9, 10, u32::MAX];
    each_list(&words, 6, |record| {
        if Types::read(record).is_ok() {
            good.push(record.to_vec());
        }
    });
    for (first, second) in pairs(&short) {
        tally.compare_merge(first, second, 8);
    }
    tally.part("pairs of type records of up to 4 words", "types");
    for (first, second) in pairs(&good) {
        let needed = first.len() + second.len() - 2;
        tally.compare_merge(first, second, needed);
        tally.compare_merge(first, second, needed - 1);
    }
    tally.part("pairs of type records of up to 6 words that pass", "types");
}

fn pairs(records: &[Vec<u32>]) -> impl Iterator<Item = (&[u32], &[u32])> {
    let with_all = |first| records.iter().map(move |second: &Vec<u32>| (first, &second[..]));
    records.iter().map(|first| &first[..]).flat_map(with_all)
}

/// Room for so many join points and some statements.
fn room(join_points: usize) -> [usize; 4] {
    [join_points * SHARE, join_points * SHARE, 128, 21]
}

/// Function records of one or two locals, blocks and items. Each word but the sizes goes over all that can
/// be right there and one more; the local types are both right.
fn any_layouts(tally: &mut Tally) -> u64 {
    let upto = |last: u32| (0..=last).collect::<Vec<u32>>();
    let times = |count: u32, words: Vec<u32>| vec![words; count as usize];
    for [l, b, i] in
        [[1, 1, 1], [1, 1, 2], [1, 2, 1], [1, 2, 2], [2, 1, 1], [2, 1, 2], [2, 2, 1], [2, 2, 2]]
    {
        let sizes = vec![vec![l], upto(l), vec![b], vec![i]];
        let layout = [times(l, upto(1)), times(b, upto(i)), times(b, upto(b))].concat();
        let items = [times(i, upto(13)), times(i, upto(2))].concat();
        each_choice(&[sizes, layout, items].concat(), |function| {
            tally.compare(&Input { types: &PAIR, function, room: room(b as usize) });
        });
    }
    tally.part("function records of 1 or 2 locals, blocks and items", "statements")
}

/// Well-formed functions over one struct: of one block with up to 3 uses, of two with up to 2 each, of
/// three with at most one each.
fn small_functions(tally: &mut Tally) -> u64 {
    for (blocks, most_uses) in [(1, 3), (2, 2), (3, 1)] {
        let bodies = bodies(blocks, most_uses);
        each_choice(&vec![(0..bodies.len()).collect(); blocks], |chosen| {
            let mut draft = Draft::new(vec![0, 2], 1);
            chosen.iter().for_each(|&body| draft.block(bodies[body].clone()));
            tally.compare(&Input { types: &OUTER, function: &draft.words(), room: room(blocks) });
        });
    }
    tally.part("functions of up to 3 blocks", "statements")
}

/// All blocks of such a function: uses of the struct, of a field and of a field of that; and each ender.
fn bodies(blocks: usize, most_uses: usize) -> Vec<Vec<Item>> {
    let mut ends: Vec<Vec<Item>> = vec![vec![(RETURN, 0)], vec![(STOP, 0)]];
    for first in 0..blocks {
        ends.push(vec![(TARGET, first as u32)]);
        for second in 0..blocks {
            let mut items = vec![];
            push_switch(&mut items, None, &[(0, first)], second);
            ends.push(items);
        }
    }
    let mut bodies = vec![];
    each_list(&[0, 1, 2], most_uses, |depths| {
        for end in &ends {
            let mut items = vec![];
            for &depth in depths {
                push_use(&mut items, &Place::new(1, vec![PlaceElem::Field(0); depth]));
            }
            items.extend(end);
            bodies.push(items);
        }
    });
    bodies
}

/// One block over an opaque local and a struct. All codes, and one that is none; all args 0, but a root
/// and a field with 1 too.
fn short_blocks(tally: &mut Tally) -> u64 {
    let items: Vec<(u32, u32)> = (0..=13).map(|op| (op, 0)).chain([(0, 1), (2, 1)]).collect();
    each_list(&items, 5, |items| {
        let mut function = vec![2, 1, 1, items.len() as u32, 0, 1, 0, 0];
        function.extend(items.iter().map(|(op, _)| op));
        function.extend(items.iter().map(|(_, arg)| arg));
        tally.compare(&Input { types: &PAIR, function: &function, room: room(1) });
    });
    tally.part("blocks of up to 5 items", "statements")
}

/// All lists of up to `most` of these, the shorter first.
fn each_list<W: Copy>(words: &[W], most: usize, mut call: impl FnMut(&[W])) {
    for length in 0..=most {
        each_choice(&vec![words.to_vec(); length], &mut call);
    }
}

/// All lists that have at each place one of the words that are given for it.
fn each_choice<W: Copy>(choices: &[Vec<W>], mut call: impl FnMut(&[W])) {
    let mut at = vec![0; choices.len()];
    loop {
        let list: Vec<W> = choices.iter().zip(&at).map(|(words, &at)| words[at]).collect();
        call(&list);
        let more = |place: &usize| at[*place] + 1 < choices[*place].len();
        let Some(place) = (0..at.len()).rev().find(more) else { break };
        at[place] += 1;
        at[place + 1..].fill(0);
    }
}
