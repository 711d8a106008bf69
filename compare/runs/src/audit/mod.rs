//! The program `audit`, held against reports that are written here apart from it. The library is asked
//! for nothing but the bytes of the logs.
mod cases;
mod decimal;
mod program;
mod ramp;
mod report;
mod survey;

pub use ramp::settings;

use crate::parts::in_parts;
use program::{Ended, Folder, ROOT, program};
use std::fs;
use std::io;

pub const SHORT: u64 = 2_000;
pub const LONG: u64 = 20_000;

/// Logs to one ramp whose text is damaged.
const PER_RAMP: u64 = 4;

/// What the program reads.
#[derive(Default)]
pub struct Files {
    ramp: Vec<u8>,
    log: Vec<u8>,
}

/// Where the program did something else than it should.
pub struct Wrong {
    what: String,
    ours: String,
    expected: String,
    files: Files,
}

impl Files {
    fn wrong(self, what: &str, ours: &Ended, expected: &Ended) -> Wrong {
        Wrong { what: what.into(), ours: ours.to_string(), expected: expected.to_string(), files: self }
    }
}

impl From<io::Error> for Wrong {
    fn from(error: io::Error) -> Self {
        Self {
            what: error.to_string(),
            ours: String::new(),
            expected: String::new(),
            files: Files::default(),
        }
    }
}

pub fn run(seed: u64, logs: u64) -> bool {
    let ramps = logs / PER_RAMP;
    println!("{}, seed {seed}, {logs} logs and {ramps} ramps", program().display());
    let wrong =
        Folder::new().map_or_else(|error| Some(error.into()), |folder| tried(seed, logs, ramps, &folder));
    let Some(wrong) = wrong else {
        println!("audit: {logs} logs, {ramps} ramps, 0 differences");
        return true;
    };
    show(&wrong);
    println!("audit: 1 difference, and stopped there");
    false
}

fn tried(seed: u64, logs: u64, ramps: u64, folder: &Folder) -> Option<Wrong> {
    let (tally, wrong) = in_parts(1 + logs + ramps, |place, tally| match place {
        0 => cases::odd_arguments(folder),
        _ if place <= logs => cases::log(seed, place, folder, tally),
        _ => cases::ramp(seed, place, folder, tally),
    });
    println!("{tally}");
    wrong
}

/// The two outputs side by side, and the two files.
fn show(wrong: &Wrong) {
    println!("difference: {}\n  {:<100} expected", wrong.what, "ours");
    let (mut ours, mut expected) = (wrong.ours.lines(), wrong.expected.lines());
    loop {
        let pair = [ours.next(), expected.next()];
        if pair == [None, None] {
            break;
        }
        let mark = if pair[0] == pair[1] { ' ' } else { '!' };
        let [ours, expected] = pair.map(Option::unwrap_or_default);
        println!("{mark} {ours:<100} {expected}");
    }
    for (name, bytes) in [("audit-ramp.txt", &wrong.files.ramp), ("audit-log.pel", &wrong.files.log)] {
        match fs::write(format!("{ROOT}/target/{name}"), bytes) {
            Ok(()) => println!("left: target/{name}"),
            Err(error) => println!("target/{name}: {error}"),
        }
    }
}
