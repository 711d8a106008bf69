//! When a call is refused, and by which number: the rule book's table, written apart from the library.
mod easing;
mod kinds;
mod log;
mod lost;
mod replay;
mod track;
mod tween;

pub use easing::*;
pub use kinds::*;
pub use log::*;
pub use lost::is_lost;
pub use replay::*;
pub use track::*;
pub use tween::*;

/// The limit of times, values, steps and passes made.
pub const LIMIT: f32 = 16_777_216.0;

/// The number for a word that is no kind, mode or state comes first.
const ORDER: [u32; 13] = [100, 4, 1, 2, 3, 5, 11, 10, 12, 9, 6, 7, 8];

pub type Rule<'a> = (u32, &'a dyn Fn() -> bool);

/// The first number, in the order of the table, whose rule applies; 0 where none does. A rule is asked
/// only where no earlier one applies.
pub fn first(rules: &[Rule]) -> u32 {
    let applies = |number: u32| rules.iter().any(|(own, rule)| *own == number && rule());
    ORDER.into_iter().find(|number| applies(*number)).unwrap_or(0)
}

pub fn is_between(x: f32, low: f32, high: f32) -> bool {
    low <= x && x <= high
}

pub fn is_value(x: f32) -> bool {
    is_between(x, -LIMIT, LIMIT)
}

/// NaN, negative and -0 steps count as +0. By the pattern, since a test against 0 becomes a maximum, and Arm's
/// keeps a signalling NaN.
pub fn counted(step: f32) -> f32 {
    let above_zero = 1..=f32::INFINITY.to_bits();
    if above_zero.contains(&step.to_bits()) { step } else { 0.0 }
}
