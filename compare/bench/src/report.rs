//! The tables, in markdown, and what they were measured on.
use crate::measure::Row;
use std::fs;
use std::process::Command;

impl Row {
    fn ratio(&self) -> f64 {
        self.ours / self.rust
    }

    fn is_met(&self) -> Option<bool> {
        self.case.bar.map(|bar| self.ratio() <= bar)
    }

    fn bar(&self) -> String {
        let word = if self.is_met() == Some(true) { "met" } else { "missed" };
        self.case.bar.map_or(String::new(), |bar| format!("{bar:.1}, {word}"))
    }
}

fn shown(ns: f64) -> String {
    let places = if ns.abs() < 100.0 { 2 } else { 0 };
    format!("{ns:.places$}")
}

pub fn print_calls(rows: &[Row]) {
    if rows.is_empty() {
        return;
    }
    println!("| case | ours, ns | Rust, ns | ratio | bar |\n|---|--:|--:|--:|---|");
    for row in rows {
        let (name, ours, rust) = (&row.case.name, shown(row.ours), shown(row.rust));
        println!("| {name} | {ours} | {rust} | {:.2} | {} |", row.ratio(), row.bar());
    }
    let bars: Vec<bool> = rows.iter().filter_map(Row::is_met).collect();
    let met = bars.iter().filter(|met| **met).count();
    println!(
        "\nTimes are of one call; in a batch of one sample, in a run of one step, in a replay of one record."
    );
    println!("Bars met: {met} of {}.\n", bars.len());
}

pub fn print_growing(groups: &[Vec<Row>]) {
    if groups.iter().all(Vec::is_empty) {
        return;
    }
    println!("| case | ours, ns | Rust, ns | ratio | ours, for one more | Rust, for one more |");
    println!("|---|--:|--:|--:|--:|--:|");
    for group in groups {
        for (place, row) in group.iter().enumerate() {
            let before = place.checked_sub(1).map(|place| &group[place]);
            let (name, ours, rust) = (&row.case.name, shown(row.ours), shown(row.rust));
            println!("| {name} | {ours} | {rust} | {:.2} | {} |", row.ratio(), more(before, row));
        }
    }
    println!("\nTimes are of one whole call; for one more of what grows, since the row above.\n");
}

/// Two cells.
fn more(before: Option<&Row>, row: &Row) -> String {
    let Some(before) = before else { return " | ".to_string() };
    let size = (row.case.size - before.case.size) as f64;
    let ours = (row.ours - before.ours) / size;
    let rust = (row.rust - before.rust) / size;
    format!("{} | {}", shown(ours), shown(rust))
}

/// As it is before the run, whose own load is not to count.
pub fn machine() -> String {
    let cpu = fs::read_to_string("/proc/cpuinfo").unwrap_or_default();
    let model =
        cpu.lines().find(|line| line.starts_with("model name")).and_then(|line| line.split(": ").nth(1));
    let load = fs::read_to_string("/proc/loadavg").unwrap_or_default();
    let load = load.split_whitespace().next().unwrap_or("unknown");
    let rustc =
        Command::new("rustc").arg("--version").output().map(|output| output.stdout).unwrap_or_default();
    format!(
        "CPU {}; {}; load {load} before the run; archive {}, sources {}",
        model.unwrap_or("unknown"),
        String::from_utf8_lossy(&rustc).trim(),
        env!("LAXOMBIIT_HASH"),
        oracle::HASH
    )
}
