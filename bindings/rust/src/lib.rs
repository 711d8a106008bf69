//! Proved easings, tweens and keyframe tracks, with animato's names, and the pump's event log. Each
//! call answers a `Result`: what is refused is refused by number, exactly when the rules say, and a
//! refused call changes nothing. What is promised, and where it is proved, stands in the
//! repository's docs/CONTRACTS.md.
#![warn(missing_docs)]

mod easing;
pub mod event_log;
mod ffi;
mod found;
mod refusal;
mod track;
mod tween;

pub use easing::Easing;
pub use found::Found;
pub use refusal::{NoRefusal, Refusal};
pub use track::{Filled, Keyframe, Track};
pub use tween::{Loop, Ran, Stopped, Tween, TweenSnapshot, TweenState, Updated};

#[cfg(doctest)]
#[doc = include_str!("../README.md")]
struct Readme;

#[cfg(doctest)]
#[doc = include_str!("../../../docs/MANUAL.md")]
struct Manual;
