//! The fixed list, which the program `replay` compares with no Rust at hand: calls, and what the rules and
//! the Rust say to them. The library is not asked. crates/replay/README.md has the form.
mod answers;
mod cases;
mod form;
mod written;

use crate::tally::{Section, Tally};
use std::fs;
use written::List;

/// Writes the list, and says how many cases of each call it has. The bytes are the same each time.
pub fn run(file: &str) -> bool {
    let mut list = List::default();
    cases::all(&mut list);
    let missing = missing(&list.tally);
    let bytes = list.bytes();
    println!("{}", list.tally);
    for (call, number) in &missing {
        println!("no case of {call} is refused by {number}");
    }
    let written = fs::write(file, &bytes);
    match &written {
        Ok(()) => println!("{file}: {} cases, {} bytes", list.tally.inputs, bytes.len()),
        Err(error) => println!("{file}: {error}"),
    }
    missing.is_empty() && written.is_ok()
}

/// Each call with a number that it can be refused by, 0 where it is accepted, and that the list has not.
fn missing(tally: &Tally) -> Vec<(&'static str, u32)> {
    let wanted = form::CALLS.iter().flat_map(|(_, call, record, own)| {
        [&[0], *record, *own].concat().into_iter().map(|number| (*call, number))
    });
    wanted.filter(|(call, number)| tally.counted((Section::Call, call), *number) == 0).collect()
}
