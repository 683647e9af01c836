//! Reads what `ghosts` reads on standard input and prints what `ghosts` prints.

use std::{
    io::{self, Read, Write},
    process::ExitCode,
};

fn main() -> ExitCode {
    let mut input = vec![];
    if let Err(error) = io::stdin().read_to_end(&mut input) {
        return fail("cannot read standard input", &error);
    }
    match io::stdout().write_all(oracle::ghosts::ghosts(&input).as_bytes()) {
        Ok(()) => ExitCode::SUCCESS,
        Err(error) => fail("cannot write standard output", &error),
    }
}

fn fail(what: &str, error: &io::Error) -> ExitCode {
    eprintln!("oracle: {what}: {error}");
    ExitCode::FAILURE
}
