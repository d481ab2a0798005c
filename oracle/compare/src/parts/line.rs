//! The line of `assign`: our program, run once for each line, against a reader of the oracle's own and the Rust's pairing.

use std::io::{ErrorKind, Write};
use std::process::{Command, Stdio};

use cases::line::LineCase;
use trials::Part;

pub struct LinePart;

impl Part for LinePart {
    const NAME: &'static str = "line";
    const WHAT: &'static str = "the program assign against another reader of lines";
    const COUNT: u64 = 200_000;
    const BRIEF: u64 = 5_000;

    type Case = LineCase;

    fn ours(case: &LineCase) -> Vec<u8> {
        written(&case.0)
    }
}

/// What the program writes for these bytes on its standard input. ASSIGN names the program.
fn written(line: &[u8]) -> Vec<u8> {
    let path = std::env::var_os("ASSIGN").expect("ASSIGN names the program");
    let mut child = Command::new(path)
        .stdin(Stdio::piped())
        .stdout(Stdio::piped())
        .spawn()
        .expect("the program starts");
    // Written and closed before the answer is read, which fits into a pipe. The program needn't read what changes no answer.
    let mut input = child.stdin.take().expect("its input");
    if let Err(error) = input.write_all(line) {
        assert_eq!(error.kind(), ErrorKind::BrokenPipe, "its input is read");
    }
    drop(input);
    let output = child.wait_with_output().expect("the program ends");
    assert!(output.status.success(), "the program ends well");
    output.stdout
}
