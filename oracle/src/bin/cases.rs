//! Prints generated cases with their answers; `case.rs` says the format.
//!
//! ```text
//! cases --seed S --count N [--kind K] [--want R] [--small | --large] [--no-answers]
//! ```
//!
//! Kinds: whole (the default), types, function, items (functions of a few items, in order or
//! nearly so), words (any words as the records of a whole function, and good ones with a word
//! changed), ghosts, statement_items, crate_statements, merge_types, states (any call on states), and
//! each call on states by its name.
//! `--want R` asks for refusal R, 0 for accepted. Two kinds aren't random and don't look at want
//! and size: limits, all of them, each with a name; and short, one block of item codes each, the
//! shorter first, from the one that the seed numbers.

use std::process::exit;

use oracle::{
    case::Case,
    generate::{limits::limits, random, rng::Rng, whole::short_case, Kind, Size},
};

struct Options {
    seed: u64,
    count: usize,
    kind: String,
    size: Size,
    want: Option<u32>,
    answers: bool,
}

fn main() {
    let options = read_options().unwrap_or_else(|message| {
        eprintln!("{message}");
        exit(2)
    });
    match options.kind.as_str() {
        "limits" => print_limits(&options),
        "short" => print_short(&options),
        _ => print_random(&options),
    }
}

fn print_limits(options: &Options) {
    for (number, (name, case)) in limits().iter().enumerate() {
        let head = format!("{number} {} {name}", case.call.name());
        print_case(&head, case, options.answers);
    }
}

fn print_short(options: &Options) {
    for number in 0..options.count as u64 {
        let case = short_case(options.seed + number);
        print_case(&format!("{number} {}", case.call.name()), &case, options.answers);
    }
}

fn print_random(options: &Options) {
    let mut rng = Rng::new(options.seed);
    let Some(kind) = Kind::from_name(&options.kind) else {
        eprintln!("unknown kind {}", options.kind);
        exit(2)
    };
    for number in 0..options.count {
        let Some(case) = random(&mut rng, kind, options.size, options.want) else {
            eprintln!("no such case was found");
            exit(1)
        };
        print_case(&format!("{number} {}", case.call.name()), &case, options.answers);
    }
}

fn print_case(head: &str, case: &Case, answers: bool) {
    print!("case {head}\n{}", case.input_lines());
    if answers {
        print!("{}", case.answer());
    }
    println!("end");
}

fn read_options() -> Result<Options, String> {
    let mut options = Options {
        seed: 0,
        count: 1,
        kind: "whole".to_string(),
        size: Size::Normal,
        want: None,
        answers: true,
    };
    let mut words = std::env::args().skip(1);
    while let Some(word) = words.next() {
        match word.as_str() {
            "--small" => options.size = Size::Small,
            "--large" => options.size = Size::Large,
            "--no-answers" => options.answers = false,
            "--seed" => options.seed = number(&word, words.next())?,
            "--count" => options.count = number(&word, words.next())? as usize,
            "--want" => options.want = Some(number(&word, words.next())? as u32),
            "--kind" => options.kind = words.next().ok_or("a kind is missing")?,
            _ => return Err(format!("unknown option {word}")),
        }
    }
    Ok(options)
}

fn number(option: &str, word: Option<String>) -> Result<u64, String> {
    let word = word.ok_or(format!("{option} wants a number"))?;
    word.parse().map_err(|_| format!("{option} wants a number, not {word}"))
}
