//! Options on the command line: `--name`, or `--name VALUE`.

use std::{process::exit, str::FromStr};

pub struct Options {
    words: Vec<String>,
}

impl Options {
    pub fn read() -> Options {
        Options { words: std::env::args().skip(1).collect() }
    }

    /// Whether the option is there. It is taken away.
    pub fn flag(&mut self, name: &str) -> bool {
        let at = self.words.iter().position(|word| word == name);
        at.map(|at| self.words.remove(at)).is_some()
    }

    /// The word after the option, or the default. Both are taken away.
    pub fn value<V: FromStr>(&mut self, name: &str, default: V) -> V {
        let Some(at) = self.words.iter().position(|word| word == name) else { return default };
        let word = self.words.drain(at..(at + 2).min(self.words.len())).nth(1);
        let value = word.as_ref().and_then(|word| word.parse().ok());
        value.unwrap_or_else(|| stop(&format!("{name} wants a value")))
    }

    /// Nothing may be left.
    pub fn end(self) {
        if let Some(word) = self.words.first() {
            stop(&format!("unknown option {word}"));
        }
    }
}

fn stop(message: &str) -> ! {
    eprintln!("{message}");
    exit(2)
}
