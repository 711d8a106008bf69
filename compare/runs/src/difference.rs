//! Two answers held against each other.
use crate::words::{Float, Kind, Whole, Words};

/// Where our answer is not the expected one.
pub struct Difference {
    pub what: String,
    pub ours: String,
    pub expected: String,
}

/// A word as bits and as a decimal.
pub fn shown(word: u32, kind: Kind) -> String {
    match kind {
        Whole => format!("{word}"),
        Float => format!("0x{word:08x} ({:?})", f32::from_bits(word)),
    }
}

/// Bit for bit, but that a zero of either sign counts as equal.
fn is_same(ours: u32, expected: u32, kind: Kind) -> bool {
    let is_zero = |word: u32| word << 1 == 0;
    ours == expected || kind == Float && is_zero(ours) && is_zero(expected)
}

fn differ(what: String, ours: String, expected: String) -> Result<(), Difference> {
    Err(Difference { what, ours, expected })
}

/// Every word of an accepted answer.
pub fn same<T: Words>(call: &str, ours: &T, expected: &T) -> Result<(), Difference> {
    hold(call, ours, expected, is_same)
}

/// Every word of a refused answer, to the bit.
pub fn same_bits<T: Words>(call: &str, ours: &T, expected: &T) -> Result<(), Difference> {
    hold(call, ours, expected, |ours, expected, _| ours == expected)
}

fn hold<T: Words>(
    call: &str,
    ours: &T,
    expected: &T,
    agree: fn(u32, u32, Kind) -> bool,
) -> Result<(), Difference> {
    if ours.words() == expected.words() {
        return Ok(());
    }
    let pairs = ours.words().iter().zip(expected.words());
    for ((ours, expected), (name, kind)) in pairs.zip(T::layout()) {
        if !agree(*ours, *expected, kind) {
            return differ(format!("{call}: {name}"), shown(*ours, kind), shown(*expected, kind));
        }
    }
    Ok(())
}

pub fn same_count(what: String, ours: usize, expected: usize) -> Result<(), Difference> {
    if ours == expected { Ok(()) } else { differ(what, ours.to_string(), expected.to_string()) }
}

/// A lent list afterwards: what was written up to `front`, and to the bit what lies behind it.
pub fn same_list(
    what: &str,
    kind: Kind,
    ours: &[u32],
    expected: &[u32],
    front: usize,
) -> Result<(), Difference> {
    for (place, (ours, expected)) in ours.iter().zip(expected).enumerate() {
        let agrees = if place < front { is_same(*ours, *expected, kind) } else { ours == expected };
        if !agrees {
            return differ(format!("{what}[{place}]"), shown(*ours, kind), shown(*expected, kind));
        }
    }
    Ok(())
}

/// Every place of a lent list, to the bit.
pub fn same_places<T>(what: &str, ours: &[T], expected: &[T]) -> Result<(), Difference>
where
    T: Copy + PartialEq + Into<u32>,
{
    if ours == expected {
        return Ok(());
    }
    let words = |list: &[T]| list.iter().map(|place| (*place).into()).collect::<Vec<u32>>();
    same_count(format!("{what}: length"), ours.len(), expected.len())?;
    same_list(what, Whole, &words(ours), &words(expected), 0)
}

pub fn must(what: &str, holds: bool) -> Result<(), Difference> {
    if holds { Ok(()) } else { differ(what.into(), "no".into(), "yes".into()) }
}

/// What a call answered. The number is the first word of either.
pub fn answered<T: Words>(call: &str, ours: T, expected: T) -> Result<T, Difference> {
    if expected.words()[0] == 0 {
        same(call, &ours, &expected)?
    } else {
        same_bits(call, &ours, &expected)?
    }
    Ok(ours)
}
