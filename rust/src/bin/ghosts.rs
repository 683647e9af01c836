//! The program `ghosts` with an exit status: 1 where standard input can't be read to its end or standard
//! output can't be written, with a message on standard error. What it prints is the library's answer.

use std::{
    io::{self, Read, Write},
    process::ExitCode,
};

fn main() -> ExitCode {
    let mut text = vec![];
    if let Err(error) = io::stdin().read_to_end(&mut text) {
        return fail("cannot read standard input", &error);
    }
    let mut output = io::stdout().lock();
    let written = output.write_all(hirvoksne::ghosts(&text).as_bytes());
    match written.and_then(|()| output.flush()) {
        Ok(()) => ExitCode::SUCCESS,
        Err(error) => fail("cannot write standard output", &error),
    }
}

fn fail(what: &str, error: &io::Error) -> ExitCode {
    eprintln!("ghosts: {what}: {error}");
    ExitCode::FAILURE
}
