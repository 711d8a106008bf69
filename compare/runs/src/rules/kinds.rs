//! The kinds of easing by their numbers, and the parameters that some of them have.
use crate::words::LaxEasing;
use std::ops::RangeInclusive;

pub const KINDS: u32 = 38;
pub const BEZIER: u32 = 31;
pub const STEPS: u32 = 32;
/// Sine, Expo and Elastic in three forms each, RoughEase, Wiggle, ExpoScale.
const TWELVE: [u32; 12] = [13, 14, 15, 16, 17, 18, 25, 26, 27, 33, 35, 37];

/// Of a float: that it is finite, or that it is at most 1,024 in size.
#[derive(Clone, Copy, PartialEq)]
pub enum Limit {
    Finite,
    Size,
}

use Limit::*;

/// The floats stand in the words a to d, from a on.
pub struct Parameters {
    kind: u32,
    pub floats: &'static [Limit],
    pub count: Option<RangeInclusive<u32>>,
}

const COUNT: Option<RangeInclusive<u32>> = Some(0..=65_536);

static PARAMETERS: [Parameters; 7] = [
    Parameters { kind: BEZIER, floats: &[Finite, Size, Finite, Size], count: None },
    Parameters { kind: STEPS, floats: &[], count: COUNT },
    Parameters { kind: 33, floats: &[Finite], count: COUNT },
    Parameters { kind: 34, floats: &[Finite, Size], count: None },
    Parameters { kind: 35, floats: &[], count: COUNT },
    Parameters { kind: 36, floats: &[Finite], count: None },
    Parameters { kind: 37, floats: &[Finite, Finite], count: None },
];

static NO_PARAMETERS: Parameters = Parameters { kind: KINDS, floats: &[], count: None };

pub fn parameters(kind: u32) -> &'static Parameters {
    PARAMETERS.iter().find(|own| own.kind == kind).unwrap_or(&NO_PARAMETERS)
}

pub fn is_one_of_twelve(e: &LaxEasing) -> bool {
    TWELVE.contains(&e.kind)
}

/// The supplied kinds that have parameters.
pub fn with_parameters() -> Vec<u32> {
    PARAMETERS.iter().map(|own| own.kind).filter(|kind| !TWELVE.contains(kind)).collect()
}
