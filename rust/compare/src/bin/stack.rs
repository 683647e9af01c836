//! How much stack the call takes: the least at which chains of blocks run, found by halving, with a
//! process for each try, since a thread that has too little ends its process.

use std::{env, process::Command, process::Stdio, thread};

use compare::inputs::{goto_chain, match_chain, Input};
use compare::options::Options;
use hirvoksne::SHARE;

/// The call on this very thread.
fn call(input: &Input) {
    let (mut out, mut told) = (vec![0; 1 << 20], vec![0; 1 << 18]);
    let (mut forms, mut whats) = ([0; SHARE], [0; SHARE]);
    let Input { types, function } = input;
    let answer =
        hirvoksne::on_this_thread(types, function, &mut forms, &mut whats, &mut out, &mut told);
    assert!(answer.is_ok(), "{answer:?}");
}

fn input(kind: &str, blocks: usize) -> Input {
    if kind == "match" {
        match_chain(blocks)
    } else {
        goto_chain(blocks)
    }
}

fn main() {
    let mut options = Options::read();
    let (kind, blocks) = (options.value("--kind", String::new()), options.value("--blocks", 0));
    let bytes: usize = options.value("--bytes", 0);
    options.end();
    if bytes > 0 {
        let input = input(&kind, blocks);
        let thread = thread::Builder::new().stack_size(bytes).spawn(move || call(&input));
        return thread.expect("a thread").join().expect("accepted");
    }
    println!("{:>8} {:>8} {:>12}", "chain", "blocks", "KB of stack");
    for kind in ["goto", "match"] {
        for blocks in [1, 2, 8, 16, 24, 32, 64, 128, 256] {
            println!("{kind:>8} {blocks:>8} {:>12}", least(kind, blocks) >> 10);
        }
    }
}

/// The least stack, in steps of 4 KB.
fn least(kind: &str, blocks: usize) -> usize {
    let (mut short, mut enough) = (4, 1 << 13);
    while short + 1 < enough {
        let middle = (short + enough) / 2;
        if runs(kind, blocks, middle << 12) {
            enough = middle
        } else {
            short = middle
        }
    }
    enough << 12
}

fn runs(kind: &str, blocks: usize, bytes: usize) -> bool {
    let program = env::current_exe().expect("this program");
    let mut command = Command::new(program);
    command.args(["--kind", kind, "--blocks", &blocks.to_string(), "--bytes", &bytes.to_string()]);
    command.stderr(Stdio::null()).status().expect("a process").success()
}
