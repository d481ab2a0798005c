//! Writes what a program of the gate reads, and what it must write: recorder FOLDER, for FOLDER/stdin and FOLDER/stdout of replay;
//! recorder --calls FOLDER for those of the program that replays sequences of calls on a tracker.

mod detections;
mod filters;
mod lines;
mod lives;
mod root;
mod sensors;
mod sequences;
mod settings;
mod tables;

use std::path::Path;
use std::process::ExitCode;

use replay::Line;

/// Calls, and the oracle's answers to them, in order.
#[derive(Default)]
struct Recording {
    calls: Vec<Line>,
    answers: Vec<Line>,
}

fn main() -> ExitCode {
    let words: Vec<String> = std::env::args().skip(1).collect();
    let mut recording = Recording::default();
    let folder = match words.as_slice() {
        [calls, folder] if calls == "--calls" => {
            sequences::record(&mut recording);
            folder
        }
        [folder] => {
            parts(&mut recording);
            folder
        }
        _ => {
            eprintln!("usage: oracle/record [--calls] FOLDER");
            return ExitCode::from(2);
        }
    };
    match write(&recording, Path::new(folder)) {
        Ok(()) => {
            let (calls, answers) = (recording.calls.len(), recording.answers.len());
            println!("{folder}: {calls} calls, {answers} lines of answers");
            ExitCode::SUCCESS
        }
        Err(error) => {
            eprintln!("recorder: {folder}: {error}");
            ExitCode::FAILURE
        }
    }
}

/// All that replay runs.
fn parts(recording: &mut Recording) {
    root::record(recording);
    lives::record(recording);
    sensors::record(recording);
    settings::record(recording);
    filters::record(recording);
    tables::record(recording);
    lines::record(recording);
    detections::record(recording);
}

fn write(recording: &Recording, folder: &Path) -> std::io::Result<()> {
    let text = |lines: &[Line]| lines.iter().map(Line::text).collect::<String>();
    std::fs::write(folder.join("stdin"), text(&recording.calls))?;
    std::fs::write(folder.join("stdout"), text(&recording.answers))
}
