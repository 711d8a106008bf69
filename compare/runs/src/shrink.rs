//! From an input that shows a difference to the smallest that is found to show one in the same call.
use crate::difference::Difference;
use crate::input::Input;
use crate::words::{Float, Kind, Whole};

/// Tries shorter lists and simpler words until none shows a difference. It ends, since each that is
/// taken is shorter, or costs less.
pub fn shrink(mut input: Input, mut difference: Difference) -> (Input, Difference) {
    while let Some((smaller, shows)) = shorter(&input).or_else(|| simpler(&input)) {
        (input, difference) = (smaller, shows);
    }
    (input, difference)
}

fn shorter(input: &Input) -> Option<(Input, Difference)> {
    input.shorter().into_iter().find_map(|smaller| smaller.check().err().map(|shows| (smaller, shows)))
}

/// One pass over all words, each made as simple as it can be.
fn simpler(input: &Input) -> Option<(Input, Difference)> {
    let mut tried = input.clone();
    let mut found = None;
    for place in 0..tried.words().len() {
        let (_, kind, &mut mut word) = tried.words().swap_remove(place);
        for candidate in candidates(word, kind) {
            *tried.words().swap_remove(place).2 = candidate;
            if let Err(shows) = tried.check() {
                word = candidate;
                found = Some(shows);
                break;
            }
        }
        *tried.words().swap_remove(place).2 = word;
    }
    found.map(|shows| (tried, shows))
}

fn candidates(word: u32, kind: Kind) -> Vec<u32> {
    let mut all = match kind {
        Whole => vec![0, 1, 2, word / 2, word.saturating_sub(1)],
        Float => simpler_floats(f32::from_bits(word)),
    };
    all.retain(|candidate| cost(*candidate, kind) < cost(word, kind));
    all
}

fn simpler_floats(x: f32) -> Vec<u32> {
    let mut all =
        [0.0, 1.0, 2.0, 0.5, x.trunc(), x.abs(), (x / 2.0).trunc(), x - 1.0].map(f32::to_bits).to_vec();
    all.extend([22, 20, 18, 16, 12, 8, 4, 2, 1].map(|low| x.to_bits() >> low << low));
    all
}

/// 0 costs nothing, 1 little; a whole number costs its size, any other its digits.
fn cost(word: u32, kind: Kind) -> u64 {
    let x = f32::from_bits(word);
    match kind {
        Whole => word.into(),
        Float if word == 0 => 0,
        Float if !x.is_finite() => 1 << 40,
        Float => {
            let digits = u64::from(23 - (word | 1 << 23).trailing_zeros().min(23));
            let fraction = if x.fract() == 0.0 { x.abs().min(1e9) as u64 } else { 1 << 32 };
            fraction + digits + u64::from(word >> 31)
        }
    }
}
