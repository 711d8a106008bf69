//! What is timed, and the ratios to reach.
mod easing;
mod log;
mod track;
mod tween;

use crate::side::Side;
use oracle::Easing;

pub struct Case {
    pub name: String,
    /// The most that the ratio of ours to the Rust's is to be.
    pub bar: Option<f64>,
    /// In a pass; the time is that of one.
    pub answers: f64,
    /// What grows from case to case, in the second table.
    pub size: usize,
    pub ours: Box<dyn Side>,
    pub rust: Box<dyn Side>,
}

pub fn calls() -> Vec<Case> {
    let mut cases = easing::cases();
    cases.extend(tween::cases());
    cases.extend(track::cases());
    cases.extend(log::cases());
    cases
}

/// Each a list along which one thing grows.
pub fn growing() -> Vec<Vec<Case>> {
    vec![track::growing_samples(), track::growing_frames(), tween::growing_folds()]
}

/// Of a CubicBezier, applied or in a tween's value.
const BEZIER_BAR: f64 = 1.5;

pub const BEZIER: Easing = Easing::CubicBezier(0.25, 0.1, 0.25, 1.0);

/// What tweens and tracks are eased by.
const EASINGS: [Easing; 6] = [
    Easing::Linear,
    Easing::EaseInOutCubic,
    BEZIER,
    Easing::EaseInCirc,
    Easing::EaseOutCirc,
    Easing::EaseInOutCirc,
];

/// These have a square root, for which the Rust has an instruction.
fn is_circ(easing: &Easing) -> bool {
    matches!(easing, Easing::EaseInCirc | Easing::EaseOutCirc | Easing::EaseInOutCirc)
}

fn name_of(easing: &Easing) -> String {
    let shown = format!("{easing:?}");
    shown.split(|c: char| !c.is_alphanumeric()).next().unwrap_or_default().to_string()
}
