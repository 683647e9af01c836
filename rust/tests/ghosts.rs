//! The program `ghosts` with an exit status.

use std::{
    fs::{self, File},
    process::{Command, Output, Stdio},
};

/// What the program does with a file as standard input.
fn run(input: &str, output: Stdio) -> Output {
    let mut command = Command::new(env!("CARGO_BIN_EXE_ghosts"));
    let input = File::open(input).expect("a file to read");
    let child = command.stdin(input).stdout(output).stderr(Stdio::piped()).spawn();
    child.expect("the program").wait_with_output().expect("its output")
}

fn text(bytes: Vec<u8>) -> String {
    String::from_utf8(bytes).expect("a text")
}

const STORED: &str = concat!(env!("CARGO_MANIFEST_DIR"), "/../crates/ghosts/stdin");
const PRINTED: &str = concat!(env!("CARGO_MANIFEST_DIR"), "/../crates/ghosts/stdout");

/// The stored case of the proved program.
#[test]
fn the_stored_case() {
    let run = run(STORED, Stdio::piped());
    assert_eq!(text(run.stdout), fs::read_to_string(PRINTED).expect("the stored answer"));
    assert_eq!(text(run.stderr), "");
    assert!(run.status.success());
}

/// No text at all is an answer too: the type record is cut off.
#[test]
fn no_text() {
    let run = run("/dev/null", Stdio::piped());
    assert_eq!(text(run.stdout), "refused 1\n");
    assert!(run.status.success());
}

/// A directory can't be read: nothing on standard output, and a status that isn't 0.
#[test]
fn a_directory() {
    let run = run("/", Stdio::piped());
    assert_eq!(text(run.stdout), "");
    assert!(text(run.stderr).starts_with("ghosts: cannot read standard input: "));
    assert_eq!(run.status.code(), Some(1));
}

#[test]
fn a_full_device() {
    let full = File::options().write(true).open("/dev/full").expect("a device");
    let run = run(STORED, full.into());
    assert!(text(run.stderr).starts_with("ghosts: cannot write standard output: "));
    assert_eq!(run.status.code(), Some(1));
}
