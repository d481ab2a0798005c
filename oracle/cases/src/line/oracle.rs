//! What the program `assign` must print for a line: the specification's grammar, the Rust's pairing.

use factor_tracker_core::assignment::Assignment;
use factor_tracker_core::judge::assignment::{assignment, Table};

use super::LONGEST;

const DEEPEST: usize = 4;
const LARGEST: i64 = 1_000_000;

/// A word, or brackets round forms.
enum Form<'a> {
    Word(&'a [u8]),
    List(Vec<Form<'a>>),
}

pub fn answer(line: &[u8]) -> String {
    match table(line).and_then(|table| assignment(&table)) {
        Ok(given) => printed(&given),
        Err(number) => format!("(refused {number})\n"),
    }
}

fn printed(given: &Assignment) -> String {
    let pairs: String = given
        .pairs
        .iter()
        .map(|(i, j)| format!(" ({i} {j})"))
        .collect();
    let listed = |list: &[usize]| list.iter().map(|i| format!(" {i}")).collect::<String>();
    let (rows, columns) = (
        listed(&given.unmatched_rows),
        listed(&given.unmatched_columns),
    );
    format!("(answer (pairs{pairs}) (rows{rows}) (columns{columns}))\n")
}

/// The table of a line: 13 for another shape or a number out of range, then 11, then 10 for another size than stated.
fn table(line: &[u8]) -> Result<Table, u32> {
    let (rows, columns, row_cost, table) = shape(line).ok_or(13_u32)?;
    if rows > 64 || columns > 64 {
        return Err(11);
    }
    let stated = table.len() as i64 == rows && table.iter().all(|row| row.len() as i64 == columns);
    if !stated {
        return Err(10);
    }
    Ok(Table {
        rows: rows as usize,
        columns: columns as usize,
        costs: table.concat(),
        row_cost: row_cost as f64,
        column_cost: 0.0,
    })
}

type Shape = (i64, i64, i64, Vec<Vec<f64>>);

/// `(assign ROWS COLUMNS COST TABLE)` and a newline, with all that is asked of the numbers.
fn shape(line: &[u8]) -> Option<Shape> {
    let text = line.strip_suffix(b"\n").filter(|_| line.len() <= LONGEST)?;
    let (form, rest) = form(text, DEEPEST)?;
    let Form::List(items) = form else { return None };
    let [Form::Word(b"assign"), rows, columns, row_cost, Form::List(table)] = items.as_slice()
    else {
        return None;
    };
    let (rows, columns, row_cost) = (number(rows)?, number(columns)?, number(row_cost)?);
    let table: Option<Vec<Vec<f64>>> = table.iter().map(row).collect();
    let sound = rest.is_empty() && rows >= 0 && columns >= 0;
    sound.then_some((rows, columns, row_cost, table?))
}

fn row(form: &Form) -> Option<Vec<f64>> {
    match form {
        Form::List(entries) => entries.iter().map(entry).collect(),
        Form::Word(_) => None,
    }
}

/// A cost, or infinity for the dash that forbids.
fn entry(form: &Form) -> Option<f64> {
    match form {
        Form::Word(b"-") => Some(f64::INFINITY),
        _ => number(form).map(|cost| cost as f64),
    }
}

/// A decimal of the range, as it would be printed: no leading zero, no plus, no minus zero.
fn number(form: &Form) -> Option<i64> {
    let Form::Word(word) = form else { return None };
    let text = std::str::from_utf8(word).ok()?;
    let value: i64 = text.parse().ok()?;
    (value.to_string() == text && value.abs() <= LARGEST).then_some(value)
}

/// The form that the text begins with, of at most `depth` brackets one in another, and what follows it.
fn form(text: &[u8], depth: usize) -> Option<(Form<'_>, &[u8])> {
    if let Some(inside) = text.strip_prefix(b"(") {
        return list(inside, depth.checked_sub(1)?);
    }
    let end = text
        .iter()
        .position(|byte| b" \n()".contains(byte))
        .unwrap_or(text.len());
    let (word, rest) = text.split_at(end);
    (!word.is_empty()).then_some((Form::Word(word), rest))
}

/// Forms with single blanks between them, up to the closing bracket.
fn list(mut text: &[u8], depth: usize) -> Option<(Form<'_>, &[u8])> {
    let mut items = Vec::new();
    loop {
        if let Some(rest) = text.strip_prefix(b")") {
            return Some((Form::List(items), rest));
        }
        if !items.is_empty() {
            text = text.strip_prefix(b" ")?;
        }
        let (item, rest) = form(text, depth)?;
        items.push(item);
        text = rest;
    }
}
