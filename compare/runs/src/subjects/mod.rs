//! Each call: ours, and beside it what the rules and the Rust say. A log has no Rust beside it: its rules and
//! a reader say it all, and of a replay the Rust says what becomes of the tween.
mod easing;
mod lent;
mod log;
mod replay;
mod track;
mod tween;

pub use easing::*;
pub use log::*;
pub use replay::*;
pub use track::*;
pub use tween::*;

use crate::search::Search;
use crate::words::{LaxFound, LaxValue};

/// What stands in a lent output before a call: a NaN that no call writes.
pub const SENTINEL: f32 = f32::from_bits(0x7fa5_5a5a);

/// Places behind a lent output, which no call may reach.
pub const GUARD: usize = 2;

/// A value of the rules and of the Rust, with what the search behind it was.
pub fn found(expected: LaxValue, search: impl FnOnce() -> Search) -> LaxFound {
    let LaxValue { number, value } = expected;
    if number != 0 {
        return LaxFound { number, ..LaxFound::default() };
    }
    let Search { settled, xs, derivatives } = search();
    LaxFound { number, value, settled: settled.into(), xs, derivatives }
}

pub fn bits(list: &[f32]) -> Vec<u32> {
    list.iter().map(|x| x.to_bits()).collect()
}
