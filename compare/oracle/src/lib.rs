//! animato's `easing`, `math`, `loop_mode`, `tween` and `keyframe`, as they are published. `traits` is
//! ours, since its source is not among them; of `value` nothing is used. Both crates of animato are this
//! one, so it has to answer to the name of the first.
#![allow(dead_code)]
extern crate alloc;
extern crate self as animato_core;

/// Of the sources that were read.
pub const HASH: &str = env!("ANIMATO_HASH");

pub mod traits;

include!(concat!(env!("OUT_DIR"), "/modules.rs"));

pub use easing::Easing;
pub use keyframe::{Keyframe, KeyframeTrack};
pub use loop_mode::Loop;
pub use traits::{
    Animatable, AnimationIntrospection, AnimationKind, Inspectable, Interpolate, Playable, PlaybackState,
    Update,
};
pub use tween::{Tween, TweenState};
