//! The proved library held against animato's Rust. See compare/README.md.
mod audit;
mod calls;
mod cores;
mod difference;
mod edges;
mod exhaustive;
mod ffi;
mod headings;
mod input;
mod list;
mod log;
mod make;
mod meaning;
mod parts;
mod power;
mod random;
mod refusals;
mod replay;
mod rules;
mod runner;
mod search;
mod shrink;
mod subjects;
mod tally;
#[cfg(test)]
mod tests;
mod words;

use std::env;
use std::ops::Range;
use std::process::ExitCode;
use std::time::{SystemTime, UNIX_EPOCH};

const USAGE: &str = "compare short [--only replays]
compare random [--seed S] [--count CASES] [--only replays]
compare exhaustive [--kind KIND]
compare power [--only PLACE]
compare list FILE
compare audit [--short] [--seed S] [--count LOGS]";

/// The cases of the short run, and of the random run where no count is given.
const SHORT: u64 = 400_000;
const RANDOM: u64 = 4_000_000;

/// Cases of records to one of replays.
const PER_REPLAY: u64 = 20;

fn main() -> ExitCode {
    let arguments: Vec<String> = env::args().skip(1).collect();
    let only = text_option(&arguments, "--only");
    let agreed = match arguments.first().map(String::as_str) {
        Some("short") => cases(SHORT, None, only).map(|cases| random_run(1, cases)),
        Some("random") => {
            let seed = seed(&arguments);
            cases(RANDOM, option(&arguments, "--count"), only).map(|cases| random_run(seed, cases))
        }
        Some("exhaustive") => Some(exhaustive::run(text_option(&arguments, "--kind"))),
        Some("power") => Some(power::run(option(&arguments, "--only"))),
        Some("list") => arguments.get(1).map(|file| list::run(file)),
        Some("audit") if arguments.iter().any(|argument| argument == "--short") => {
            Some(audit::run(1, audit::SHORT))
        }
        Some("audit") => {
            let logs = option(&arguments, "--count").unwrap_or(audit::LONG);
            Some(audit::run(seed(&arguments), logs))
        }
        _ => None,
    };
    match agreed {
        Some(true) => ExitCode::SUCCESS,
        Some(false) => ExitCode::FAILURE,
        None => {
            eprintln!("{USAGE}");
            ExitCode::from(2)
        }
    }
}

/// What is held against what, by hashes of the archive and of the sources.
fn compared() -> String {
    format!("archive {}, sources {}", env!("LAXOMBIIT_HASH"), oracle::HASH)
}

/// What a run tries: edges, random cases of records, and those of replays.
struct Cases {
    edges: Range<u64>,
    records: u64,
    replays: u64,
}

/// As usual, or as many as are asked for. Nothing where the word selects nothing.
fn cases(usual: u64, asked: Option<u64>, only: Option<&str>) -> Option<Cases> {
    let records = asked.unwrap_or(usual);
    match only {
        None => Some(Cases { edges: 0..edges::PARTS, records, replays: records / PER_REPLAY }),
        Some("replays") => {
            let replays = asked.unwrap_or(usual / PER_REPLAY);
            Some(Cases { edges: edges::REPLAYS, records: 0, replays })
        }
        Some(_) => None,
    }
}

fn random_run(seed: u64, cases: Cases) -> bool {
    println!("{}", compared());
    let Cases { edges, records, replays } = cases;
    println!("seed {seed}, {records} random cases and {replays} of replays behind the edges");
    let behind_edges = edges.end - edges.start;
    let behind_records = behind_edges + records.div_ceil(random::CASES);
    runner::run(behind_records + replays.div_ceil(random::CASES), |part, runner| match part {
        _ if part < behind_edges => edges::part(edges.start + part, runner),
        _ if part < behind_records => random::part(seed, part - behind_edges, runner),
        _ => random::replays_part(seed, part - behind_records, runner),
    })
}

fn text_option<'a>(arguments: &'a [String], name: &str) -> Option<&'a str> {
    let place = arguments.iter().position(|argument| argument == name)?;
    arguments.get(place + 1).map(String::as_str)
}

fn option(arguments: &[String], name: &str) -> Option<u64> {
    text_option(arguments, name)?.parse().ok()
}

/// Another one each time, where none is given.
fn seed(arguments: &[String]) -> u64 {
    option(arguments, "--seed").unwrap_or_else(seed_of_clock)
}

fn seed_of_clock() -> u64 {
    SystemTime::now().duration_since(UNIX_EPOCH).map_or(0, |since| since.as_secs())
}
