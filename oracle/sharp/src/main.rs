//! Lays a copy of the oracle in which single rules are changed, each behind a number: sharp ROOT FOLDER. The copy is built once; run with
//! CHANGE=n it judges by the n-th change, and with no number as it was. Prints the names of the changes.

mod changes;

use std::fs;
use std::path::Path;
use std::process::ExitCode;

use changes::{Change, Edit, CHANGES};

/// What the changed copy asks which change holds; it stands beside its modules.
const CHANGED: &str = include_str!("changed.txt");

fn main() -> ExitCode {
    let words: Vec<String> = std::env::args().skip(1).collect();
    let [root, folder] = &words[..] else {
        eprintln!("usage: sharp ROOT FOLDER");
        return ExitCode::from(2);
    };
    match lay(Path::new(root), Path::new(folder)) {
        Ok(()) => {
            for change in CHANGES {
                println!("{}", change.name);
            }
            ExitCode::SUCCESS
        }
        Err(message) => {
            eprintln!("sharp: {message}");
            ExitCode::FAILURE
        }
    }
}

fn lay(root: &Path, folder: &Path) -> Result<(), String> {
    copy(&root.join("oracle"), &folder.join("oracle"))?;
    copy(
        &root.join("target/oracle/rust"),
        &folder.join("target/oracle/rust"),
    )?;
    let source = folder.join("oracle/factor-tracker-core/src");
    write(&source.join("changed.rs"), CHANGED)?;
    let lib = read(&source.join("lib.rs"))?;
    write(
        &source.join("lib.rs"),
        &format!("#![allow(unused_parens)]\n{lib}\npub mod changed;\n"),
    )?;
    let mut files: Vec<&str> = edits().map(|(_, edit)| edit.file).collect();
    files.sort_unstable();
    files.dedup();
    for file in files {
        let place = match file.strip_prefix("judge/") {
            Some(_) => source.join(file),
            None => folder.join("target/oracle/rust").join(file),
        };
        let text = changed(file, &read(&place)?)?;
        write(&place, &text)?;
    }
    Ok(())
}

/// Every edit, with the number of its change.
fn edits() -> impl Iterator<Item = (usize, &'static Edit)> {
    let numbered = (1..).zip(CHANGES);
    numbered.flat_map(|(number, change): (usize, &Change)| {
        change.edits.iter().map(move |edit| (number, edit))
    })
}

/// The text of a file with all its edits. Each must find its place, and one place alone; edits of one place stand in one another.
fn changed(file: &str, text: &str) -> Result<String, String> {
    let mut places: Vec<(usize, &str, String)> = Vec::new();
    for (number, edit) in edits().filter(|(_, edit)| edit.file == file) {
        let mut found = text.match_indices(edit.old).map(|(at, _)| at);
        let (Some(at), None) = (found.next(), found.next()) else {
            return Err(format!("{file}: not there once: {}", edit.old));
        };
        let test = format!("crate::changed::on({number})");
        let new = |old: &str| edit.new.replace("ON", &test).replace("OLD", old);
        match places.iter_mut().find(|(other, ..)| *other == at) {
            Some((_, old, over)) if *old == edit.old && edit.new.contains("OLD") => {
                *over = new(over)
            }
            Some(_) => return Err(format!("{file}: two edits overlap at {}", edit.old)),
            None => places.push((at, edit.old, new(edit.old))),
        }
    }
    places.sort_unstable();
    let (mut laid, mut end) = (String::new(), 0);
    for (at, old, new) in places {
        let before = text
            .get(end..at)
            .ok_or_else(|| format!("{file}: two edits overlap at {old}"))?;
        laid += before;
        laid += &new;
        end = at + old.len();
    }
    Ok(laid + &text[end..])
}

/// A folder with all in it. What is the same already keeps its time.
fn copy(from: &Path, to: &Path) -> Result<(), String> {
    let listed = fs::read_dir(from).map_err(|error| format!("{}: {error}", from.display()))?;
    for entry in listed {
        let entry = entry.map_err(|error| error.to_string())?;
        let (from, to) = (entry.path(), to.join(entry.file_name()));
        if from.is_dir() {
            copy(&from, &to)?;
        } else if from.extension().is_some() {
            write(&to, &read(&from)?)?;
        }
    }
    Ok(())
}

fn read(path: &Path) -> Result<String, String> {
    fs::read_to_string(path).map_err(|error| format!("{}: {error}", path.display()))
}

fn write(path: &Path, text: &str) -> Result<(), String> {
    if fs::read_to_string(path).is_ok_and(|there| there == text) {
        return Ok(());
    }
    let folder = path.parent().expect("a folder");
    fs::create_dir_all(folder)
        .and_then(|()| fs::write(path, text))
        .map_err(|error| format!("{}: {error}", path.display()))
}
