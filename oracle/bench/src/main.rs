//! One table: ours beside the Rust, or the machine. bench RUSTC KIT, the two versions as text.

mod measure;
mod rows;

use measure::{Measured, RUNS};

fn main() {
    let mut versions = std::env::args().skip(1);
    println!(
        "Both sides built for release, on the same inputs in the same run, alternating: nanoseconds a call,"
    );
    println!("the median of {RUNS} runs of each.");
    println!("CPU:   {}", cpu_model());
    println!("rustc: {}", versions.next().unwrap_or_default());
    println!("kit:   {}\n", versions.next().unwrap_or_default());
    let rows: Vec<_> = rows::ROWS
        .iter()
        .map(|row| (row.name, row.theirs, (row.measure)()))
        .collect();
    print_table(&rows);
    println!("\n{}", rows::NOTES);
}

fn print_table(rows: &[(&str, &str, Measured)]) {
    println!(
        "{:<28} {:<22} {:>9} {:>9} {:>14}",
        "row", "theirs is", "ours", "theirs", "ours / theirs"
    );
    for (name, theirs, measured) in rows {
        let Measured {
            ours,
            theirs: beside,
        } = measured;
        println!(
            "{name:<28} {theirs:<22} {ours:>9.2} {beside:>9.2} {:>14.2}",
            ours / beside
        );
    }
}

fn cpu_model() -> String {
    let info = std::fs::read_to_string("/proc/cpuinfo").unwrap_or_default();
    let model = info
        .lines()
        .find_map(|line| line.strip_prefix("model name"));
    match model {
        Some(text) => text.trim_start_matches(['\t', ' ', ':']).to_string(),
        None => "unknown".to_string(),
    }
}
