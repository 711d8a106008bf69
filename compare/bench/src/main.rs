//! The proved library's time against animato's Rust's. See compare/README.md.
mod cases;
mod inputs;
mod measure;
mod report;
mod rust;
mod side;
mod stack;

#[allow(dead_code)]
#[path = "../../runs/src/ffi.rs"]
mod ffi;
#[allow(dead_code)]
#[path = "../../runs/src/meaning.rs"]
mod meaning;
#[allow(dead_code, unused_imports)]
#[path = "../../runs/src/rules/mod.rs"]
mod rules;
#[allow(dead_code)]
#[path = "../../runs/src/words.rs"]
mod words;

use cases::Case;
use measure::{Plan, QUICK, Row, STEADY};
use std::env;
use std::process::ExitCode;
use std::time::{Duration, Instant};

const USAGE: &str = "\
bench [--quick] [WORD ..]    the cases whose names have every word
bench --stack                how deep the calls go";

fn main() -> ExitCode {
    let (options, words): (Vec<_>, Vec<_>) = env::args().skip(1).partition(|word| word.starts_with("--"));
    if options == ["--stack"] && words.is_empty() {
        stack::print();
        return ExitCode::SUCCESS;
    }
    if options.iter().any(|option| option != "--quick") {
        eprintln!("{USAGE}");
        return ExitCode::from(2);
    }
    let plan = if options.is_empty() { STEADY } else { QUICK };
    match run(&plan, &words) {
        Ok(()) => ExitCode::SUCCESS,
        Err(error) => {
            eprintln!("bench: {error}");
            ExitCode::FAILURE
        }
    }
}

fn run(plan: &Plan, words: &[String]) -> Result<(), String> {
    let machine = report::machine();
    let is_chosen = |case: &Case| words.iter().all(|word| case.name.contains(word));
    let rows = |cases: Vec<Case>| -> Vec<Row> { cases.into_iter().filter(is_chosen).map(Row::new).collect() };
    let mut calls = rows(cases::calls());
    let mut growing: Vec<Vec<Row>> = cases::growing().into_iter().map(rows).collect();
    let mut all: Vec<&mut Row> = calls.iter_mut().chain(growing.iter_mut().flatten()).collect();
    if all.is_empty() {
        return Err("no case has such a name".to_string());
    }
    sweep(plan, &mut all)?;
    report::print_calls(&calls);
    report::print_growing(&growing);
    println!("{machine}");
    Ok(())
}

fn sweep(plan: &Plan, rows: &mut [&mut Row]) -> Result<(), String> {
    let (count, mut shown) = (rows.len(), Instant::now());
    for sweep in 1..=plan.sweeps {
        for (place, row) in rows.iter_mut().enumerate() {
            if shown.elapsed() > Duration::from_secs(1) {
                shown = Instant::now();
                let name = &row.case.name;
                eprintln!("sweep {sweep} of {}, case {} of {count}: {name}", plan.sweeps, place + 1);
            }
            row.measure(plan)?;
        }
    }
    Ok(())
}
