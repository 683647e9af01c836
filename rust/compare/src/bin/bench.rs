//! How fast the library is, as a ratio to the transcription and to the source's way, which is the
//! transcription without refusal 9: the same inputs in one process, all built for release, medians over
//! repeats. Each side reads the records, tests them, and clears what is lent: exactly enough store, a
//! buffer of the record's own length, and a number for each statement. Before the first repeat all have
//! to give the same answer and leave the same in what is lent.
//!
//! ```text
//! bench [--only NAME] [--repeats N]
//! bench --only NAME --side library|transcription|source --calls N    for a profiler: these calls alone
//! ```
//!
//! The last columns of the first table say how many states a call copies that are laid as in document 01,
//! one as a block is entered and one for each exit, and how long as many copies of two arrays take. In its
//! last rows a record is refused for its last item, so that only the tests of the records are timed;
//! nothing is lent. The second table is of lists of statements, whose items both sides write into a buffer
//! that is just long enough; the third of crates, by the library alone: all functions in one call, beside
//! a call for each; the fourth of two type records merged, by both sides, into an output that is just long
//! enough.

use std::{array::from_fn, hint::black_box, time::Instant};

use compare::{
    inputs::{
        assigns, device_model, items, large, many_locals, many_types, match_chain, mixed,
        refused_last, restore, rounds, small, small_states, types_to_merge, waiting, Input,
    },
    options::Options,
};
use hirvoksne::{
    crate_statements, crate_statements_into, crate_words, on_this_thread, statement_list,
    Statements, SHARE,
};
use oracle::{
    calls::{self, Counts},
    fold_unfold::Copies,
    refusal::Refusal,
};

type Answer = Result<(usize, usize), u32>;

/// One side's call over what is lent.
type Side = fn(&Input, &mut Lent) -> Answer;

#[derive(Clone, PartialEq)]
struct Lent {
    forms: Vec<u16>,
    whats: Vec<u16>,
    out: Vec<u32>,
    told: Vec<u32>,
}

impl Lent {
    /// Of these lengths, and not clear, so that what isn't written shows.
    fn new(store: usize, out: usize, told: usize) -> Lent {
        let (forms, whats) = (vec![0xaaaa; store], vec![0xaaaa; store]);
        Lent { forms, whats, out: vec![0xaaaa; out], told: vec![0xaaaa; told] }
    }
}

fn library(input: &Input, lent: &mut Lent) -> Answer {
    let Input { types, function } = input;
    let Lent { forms, whats, out, told } = lent;
    let answer = hirvoksne::on_this_thread(types, function, forms, whats, out, told);
    answer.map_err(|refusal| refusal.number())
}

fn transcription(input: &Input, lent: &mut Lent) -> Answer {
    transcribed(calls::ghost_statements, input, lent)
}

fn source(input: &Input, lent: &mut Lent) -> Answer {
    transcribed(calls::ghost_statements_unlimited, input, lent)
}

type Transcribed =
    fn(&[u32], &[u32], &mut [u16], &mut [u16], &mut [u32], &mut [u32]) -> Result<Counts, Refusal>;

fn transcribed(call: Transcribed, input: &Input, lent: &mut Lent) -> Answer {
    let Input { types, function } = input;
    let Lent { forms, whats, out, told } = lent;
    call(types, function, forms, whats, out, told).map_err(|refusal| refusal.number())
}

const SIDES: [(&str, Side); 3] =
    [("library", library), ("transcription", transcription), ("source", source)];

/// The two arrays of a state.
type Arrays = [[u16; SHARE]; 2];

/// A state, and those that it is copied to by turns, so that it isn't always the same piece of the cache.
struct Copying {
    from: Arrays,
    to: [Arrays; 8],
}

impl Copying {
    fn new() -> Box<Copying> {
        Box::new(Copying { from: [[1; SHARE]; 2], to: [[[0; SHARE]; 2]; 8] })
    }

    fn copy(&mut self, states: usize) {
        for at in 0..states {
            let to = black_box(&mut self.to[at % 8]);
            for (to, from) in to.iter_mut().zip(black_box(&self.from)) {
                to.copy_from_slice(from);
            }
        }
        black_box(self);
    }
}

/// Inputs that are called one after the other, each with what is lent to it.
struct Bench {
    name: &'static str,
    what: &'static str,
    calls: Vec<(Input, Lent)>,
    refused: Option<u32>,
}

impl Bench {
    fn accepted(name: &'static str, what: &'static str, inputs: Vec<Input>) -> Bench {
        let calls = inputs.into_iter().map(|input| {
            let statements = hirvoksne::ghost_statements(&input.types, &input.function);
            let statements = statements.expect("accepted");
            let store = statements.join_points().len() * SHARE;
            let lent = Lent::new(store, statements.record().len(), statements.len());
            (input, lent)
        });
        Bench { name, what, calls: calls.collect(), refused: None }
    }

    /// Of records that refusal 2 speaks of; nothing is lent.
    fn refused(name: &'static str, what: &'static str, inputs: Vec<Input>) -> Bench {
        let calls = inputs.into_iter().map(|input| (input, Lent::new(0, 0, 0)));
        Bench { name, what, calls: calls.collect(), refused: Some(2) }
    }

    fn run(&mut self, side: Side) {
        for (input, lent) in &mut self.calls {
            assert_eq!(black_box(side(black_box(input), lent)).err(), self.refused);
        }
    }

    /// All sides give the same answer and leave the same in all that is lent.
    fn check(&self) {
        for (input, lent) in &self.calls {
            let [library, others @ ..] = SIDES.map(|(name, side)| {
                let mut lent = lent.clone();
                (name, side(input, &mut lent), lent)
            });
            for (name, answer, lent) in others {
                assert_eq!(answer, library.1, "{}: {name}", self.name);
                assert!(lent == library.2, "{}: {name} leaves other words", self.name);
            }
        }
    }

    /// How many states all calls copy; one that is refused copies none.
    fn copies(&self) -> usize {
        let copies = |(input, _): &(Input, Lent)| calls::copies(&input.types, &input.function);
        self.calls.iter().filter_map(|call| copies(call).ok()).map(Copies::all).sum()
    }

    fn print(&mut self, repeats: usize) {
        self.check();
        let (calls, copies) = (self.calls.len(), self.copies());
        let mut copying = Copying::new();
        let (times, ratios) = medians(repeats, calls, |at| match SIDES.get(at) {
            Some((_, side)) => self.run(*side),
            None => copying.copy(copies),
        });
        let [library, transcription, source, copying] = times;
        let [_, ratio, to_source, _] = ratios;
        let copies = copies / calls;
        let mean = |size: fn(&(Input, Lent)) -> usize| {
            self.calls.iter().map(size).sum::<usize>() / self.calls.len()
        };
        let (blocks, items) = (mean(|call| call.0.sizes().0), mean(|call| call.0.sizes().1));
        let joins = mean(|call| call.1.forms.len() / SHARE);
        let words = mean(|call| call.1.out.len());
        println!(
            "| {} | {} | {blocks} | {items} | {joins} | {words} | {library:.1} | {transcription:.1} | {source:.1} | {ratio:.2} | {to_source:.2} | {copies} | {copying:.1} |",
            self.name, self.what
        );
    }
}

/// The median times of a run by each side, in microseconds per call, and the median ratios of the first to
/// each. The sides take turns, so that what else the machine does falls on all.
fn medians<const N: usize>(
    repeats: usize,
    calls: usize,
    mut run: impl FnMut(usize),
) -> ([f64; N], [f64; N]) {
    let mut turn = || {
        from_fn(|side| {
            let start = Instant::now();
            run(side);
            start.elapsed().as_secs_f64() * 1e6 / calls as f64
        })
    };
    let turns: Vec<[f64; N]> = (0..repeats).map(|_| turn()).collect();
    let times = from_fn(|side| median(turns.iter().map(|turn| turn[side])));
    let ratios = from_fn(|side| median(turns.iter().map(|turn| turn[0] / turn[side])));
    (times, ratios)
}

fn median(times: impl Iterator<Item = f64>) -> f64 {
    let mut times: Vec<f64> = times.collect();
    times.sort_by(f64::total_cmp);
    times[times.len() / 2]
}

/// A list of so many statements, by all kinds in turn.
fn print_list(statements: usize, repeats: usize) {
    let list = statement_list(&assigns(statements));
    let items = hirvoksne::statement_items(&list).expect("accepted").as_slice().len();
    let mut out = vec![0; 1 + 2 * items];
    let ([library, transcription], [_, ratio]) = medians(repeats, 1, |side| {
        let list = black_box(&list);
        let given = match side {
            0 => hirvoksne::statement_items_into(list, &mut out).ok(),
            _ => oracle::statements::statement_items(list, &mut out).ok(),
        };
        assert_eq!(black_box(given), Some(items));
    });
    let words = list.len();
    println!(
        "| list-{statements} | {words} | {items} | {library:.1} | {transcription:.1} | {ratio:.2} | {:.1} |",
        library * 1e3 / words as f64
    );
}

/// A crate of so many functions over 4,096 types: one call beside a call for each.
fn print_crate(functions: usize, repeats: usize) {
    let (types, records) = device_model(functions);
    let statements = crate_statements(&types, &records).expect("accepted");
    let joins = statements.iter().map(|list| list.join_points().len()).max().unwrap_or(0);
    let (mut forms, mut whats) = (vec![0; joins * SHARE], vec![0; joins * SHARE]);
    let words = statements.iter().map(|list| list.record().len()).sum();
    let mut out = vec![0; words];
    let mut told = vec![0; statements.iter().map(Statements::len).max().unwrap_or(0)];
    let crate_words = crate_words(&records);
    let ([together, alone], [_, ratio]) = medians(repeats, 1, |side| match side {
        0 => {
            let crate_words = black_box(&crate_words);
            let answer =
                crate_statements_into(&types, crate_words, &mut forms, &mut whats, &mut out);
            black_box(answer).expect("accepted");
        }
        _ => {
            let mut used = 0;
            for record in &records {
                let room = &mut out[used..];
                let answer =
                    on_this_thread(&types, record, &mut forms, &mut whats, room, &mut told);
                used += 2 + 2 * black_box(answer).expect("accepted").1;
            }
        }
    });
    let items = records.iter().map(|record| record[3]).sum::<u32>();
    println!(
        "| crate-{functions} | {} | {items} | {words} | {together:.1} | {alone:.1} | {ratio:.2} |",
        types[0]
    );
}

/// Two type records of so many types each; of 2,048 the merged record is the largest that there is.
fn print_merge(types: usize, repeats: usize) {
    let record = types_to_merge(types);
    let merged = hirvoksne::merge_types(&record, &record).expect("accepted");
    let words = merged.len();
    let mut out = vec![0; words];
    let ([library, transcription], [_, ratio]) = medians(repeats, 1, |side| {
        let (first, second) = (black_box(&record), black_box(&record));
        let length = match side {
            0 => hirvoksne::merge_types_into(first, second, &mut out).ok(),
            _ => oracle::merge::merge_types(first, second, &mut out).ok(),
        };
        assert_eq!(black_box(length), Some(words));
    });
    println!(
        "| merge-{} | {} | {words} | {library:.1} | {transcription:.1} | {ratio:.2} | {:.1} |",
        merged[0],
        merged[1],
        library * 1e3 / words as f64
    );
}

/// What is measured: its name, what it is, and its inputs.
type Kind = (&'static str, &'static str, fn() -> Vec<Input>);

const KINDS: [Kind; 15] = [
    ("small", "200 random functions of 10 blocks, one after the other", || small(200)),
    ("large", "diamonds; states of 501 nodes", || vec![large()]),
    ("rounds", "over 5,000 visits; states of 202 nodes", || vec![rounds()]),
    ("waiting", "10,506 visits, some half of the blocks wait; 20 nodes", || vec![waiting()]),
    ("types", "4,096 types, one use", || vec![many_types()]),
    ("chain", "the deepest chain: a match in each block, 511 nodes", || vec![match_chain(256)]),
    ("items-2048", "uses in one block, in one round", || vec![items(2048)]),
    ("items-4096", "uses in one block, in one round", || vec![items(4096)]),
    ("items-8192", "uses in one block, in one round", || vec![items(8192)]),
    ("items-16384", "uses in one block, in one round", || vec![items(16383)]),
    ("restore", "a restore function: a match on eight host ages, a loop", || vec![restore()]),
    ("blocks-256", "diamonds, branches and chains; states of 20 nodes", || vec![small_states()]),
    ("locals-8", "7 of 8 locals opened, then 4,096 uses of the last", || vec![many_locals(8)]),
    ("locals-64", "63 of 64 locals opened, then 4,096 uses of the last", || vec![many_locals(64)]),
    ("locals-256", "255 of 256 locals opened, then 4,096 uses of the last", || {
        vec![many_locals(256)]
    }),
];

/// Function records that are refused for their last item: the time of the tests of the records.
const TESTS: [Kind; 3] = [
    ("test-uses", "items-16384, refused with 2 at its last item", || {
        vec![refused_last(items(16383))]
    }),
    ("test-large", "large, refused with 2 at its last item", || vec![refused_last(large())]),
    ("test-mixed", "items of all kinds, refused with 2 at the last", || {
        vec![refused_last(mixed())]
    }),
];

fn main() {
    let mut options = Options::read();
    let only: String = options.value("--only", String::new());
    let side: String = options.value("--side", String::new());
    let (repeats, calls) = (options.value("--repeats", 51), options.value("--calls", 1));
    options.end();
    let asked = |(name, _, _): &Kind| only.is_empty() || *name == only;
    let kinds = KINDS.into_iter().filter(asked);
    let kinds = kinds.map(|(name, what, inputs)| Bench::accepted(name, what, inputs()));
    let tests = TESTS.into_iter().filter(asked);
    let tests = tests.map(|(name, what, inputs)| Bench::refused(name, what, inputs()));
    let mut benches = kinds.chain(tests);
    if let Some((_, side)) = SIDES.iter().find(|(name, _)| *name == side) {
        benches.for_each(|mut bench| (0..calls).for_each(|_| bench.run(*side)));
        return;
    }
    println!(
        "| name | what | blocks | items | join points | words of record | library µs | transcription µs | source's way µs | ratio | ratio to the source's way | copies | copying µs |"
    );
    println!("|---|---|---|---|---|---|---|---|---|---|---|---|---|");
    benches.by_ref().for_each(|mut bench| bench.print(repeats));
    if only.is_empty() {
        println!(
            "\n| name | words | items given | library µs | transcription µs | ratio | ns a word |"
        );
        println!("|---|---|---|---|---|---|---|");
        [512, 1024, 2048, 4096].into_iter().for_each(|statements| print_list(statements, repeats));
        println!(
            "\n| name | types | items | words of records | one call µs | a call each µs | ratio |"
        );
        println!("|---|---|---|---|---|---|---|");
        [1, 15, 60].into_iter().for_each(|functions| print_crate(functions, repeats));
        println!("\n| name | parts | words | library µs | transcription µs | ratio | ns a word |");
        println!("|---|---|---|---|---|---|---|");
        [512, 1024, 2048].into_iter().for_each(|types| print_merge(types, repeats));
    }
}
