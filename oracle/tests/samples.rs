//! The sample cases for `ghosts`: all answers must be the oracle's.

use oracle::ghosts::ghosts;

struct Sample {
    name: String,
    input: String,
    output: String,
}

/// Cases as `== NUMBER`, the input, `--`, the output.
fn read_samples(text: &str) -> Vec<Sample> {
    let mut samples = vec![];
    for case in text.split("== ").skip(1) {
        let (name, rest) = case.split_once('\n').expect("a number and a line's end");
        let (input, output) = rest.split_once("--\n").expect("a line between the two");
        samples.push(Sample {
            name: name.to_string(),
            input: input.to_string(),
            output: output.to_string(),
        });
    }
    samples
}

#[test]
fn all_samples() {
    let samples = read_samples(include_str!("samples.txt"));
    assert_eq!(samples.len(), 124);
    for sample in samples {
        assert_eq!(ghosts(sample.input.as_bytes()), sample.output, "sample {}", sample.name);
    }
}
