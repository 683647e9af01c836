//! The two programs.

use std::{
    fs::File,
    io::Write,
    process::{Command, Stdio},
};

use oracle::generate::limits::EXAMPLE;

fn oracle(input: &str) -> String {
    let mut child = Command::new(env!("CARGO_BIN_EXE_oracle"))
        .stdin(Stdio::piped())
        .stdout(Stdio::piped())
        .spawn()
        .unwrap();
    child.stdin.take().unwrap().write_all(input.as_bytes()).unwrap();
    let output = child.wait_with_output().unwrap();
    assert!(output.status.success());
    String::from_utf8(output.stdout).unwrap()
}

fn cases(options: &str) -> (bool, String) {
    let output = Command::new(env!("CARGO_BIN_EXE_cases"))
        .args(options.split_whitespace())
        .output()
        .unwrap();
    (output.status.success(), String::from_utf8(output.stdout).unwrap())
}

#[test]
fn oracle_prints_what_ghosts_prints() {
    assert_eq!(oracle(EXAMPLE), "at 2 unfold _1 0\nat 8 fold _1\nat 9 unfold _1 -\n");
    assert_eq!(oracle("1 0 0 0 1 0 1 1 0 0 0 11 0"), "");
    assert_eq!(oracle(""), "refused 1\n");
    assert_eq!(oracle("x"), "refused 2\n");
}

#[test]
fn oracle_says_what_it_cannot_read_or_write() {
    let oracle = || Command::new(env!("CARGO_BIN_EXE_oracle"));
    let directory = File::open("/").unwrap();
    let read = oracle().stdin(directory).output().unwrap();
    assert_eq!((read.status.code(), &read.stdout[..]), (Some(1), &[][..]));
    assert!(read.stderr.starts_with(b"oracle: cannot read standard input: "));
    let full = File::options().write(true).open("/dev/full").unwrap();
    let write = oracle().stdin(Stdio::null()).stdout(full).output().unwrap();
    assert_eq!(write.status.code(), Some(1));
    assert!(write.stderr.starts_with(b"oracle: cannot write standard output: "));
}

#[test]
fn cases_prints_each_case_whole() {
    let kinds = ["whole", "types", "function", "items", "ghosts", "merge_types", "states", "join"];
    for kind in kinds {
        let (success, text) = cases(&format!("--seed 4 --count 30 --kind {kind} --small"));
        assert!(success);
        for start in ["case ", "answer ", "end"] {
            assert_eq!(text.lines().filter(|line| line.starts_with(start)).count(), 30, "{kind}");
        }
    }
    let (success, text) = cases("--seed 4 --count 5 --want 9 --no-answers");
    assert!(success && !text.contains("answer"));
    let (success, text) = cases("--kind limits");
    assert!(success && text.contains("nodes 513 at Join\n"));
    assert!(!cases("--kind nothing").0);
    assert!(!cases("--kind join --want 2").0, "a join never gives 2");
    assert!(!cases("--count").0);
}
