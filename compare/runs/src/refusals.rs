//! The refusals: the number, the name and the sentence of each, as docs/refusals.txt has them.
use std::sync::LazyLock;

/// A word is no kind, mode, state or event. C's alone, and before all others.
pub const UNKNOWN: u32 = 100;

pub struct Refusal {
    pub number: u32,
    name: &'static str,
    text: &'static str,
}

/// In the order of their numbers.
pub static REFUSALS: LazyLock<Vec<Refusal>> =
    LazyLock::new(|| include_str!("../../../docs/refusals.txt").lines().map(refusal).collect());

/// Of a line `NUMBER NAME: TEXT`.
fn refusal(line: &'static str) -> Refusal {
    let (number, named) = line.split_once(' ').expect("a number, then a name");
    let (name, text) = named.split_once(": ").expect("a name, then what it means");
    Refusal { number: number.parse().expect("a whole number"), name, text }
}

/// As a program prints it: the number, the name, and why.
pub fn explained(number: u32) -> String {
    let of = REFUSALS.iter().find(|refusal| refusal.number == number).expect("a refusal's number");
    format!("{number} {}: {}", of.name, of.text)
}
