//! Our program replay, run once for each thread: calls go to its input, and its answers come back.

use std::cell::RefCell;
use std::io::{Read, Write};
use std::process::{Child, ChildStdin, ChildStdout, Command, Stdio};

use crate::Line;

struct Program {
    // Kept, so that the program runs for as long as the thread asks.
    _child: Child,
    input: ChildStdin,
    output: ChildStdout,
}

thread_local! {
    static PROGRAM: RefCell<Program> = RefCell::new(Program::start());
}

/// What the calls answer: so many lines.
pub fn answers(calls: &[Line], count: usize) -> Vec<Line> {
    PROGRAM.with(|program| program.borrow_mut().answers(calls, count))
}

impl Program {
    /// REPLAY names the program.
    fn start() -> Self {
        let path = std::env::var_os("REPLAY").expect("REPLAY names the program");
        let mut child = Command::new(path)
            .stdin(Stdio::piped())
            .stdout(Stdio::piped())
            .spawn()
            .expect("the program starts");
        let input = child.stdin.take().expect("its input");
        let output = child.stdout.take().expect("its output");
        Program {
            _child: child,
            input,
            output,
        }
    }

    fn answers(&mut self, calls: &[Line], count: usize) -> Vec<Line> {
        let text: String = calls.iter().map(Line::text).collect();
        self.input
            .write_all(text.as_bytes())
            .expect("the program reads its input");
        let mut read = vec![0; count * Line::LENGTH];
        self.output
            .read_exact(&mut read)
            .expect("the program answers each call");
        let text = String::from_utf8(read).expect("the answers are ASCII");
        text.lines()
            .map(|line| Line::read(line).expect("a line of an answer"))
            .collect()
    }
}
