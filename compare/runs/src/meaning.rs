//! What the words mean in the Rust, and the Rust's records as words. Only for words that are known.
use crate::rules::*;
use crate::words::*;
use oracle::{Easing, Keyframe, KeyframeTrack, Loop, Tween, TweenState};
use std::fmt::Debug;
use std::mem::discriminant;

/// Of a kind, a mode or a state, without its parameters.
pub fn name(meant: &impl Debug) -> String {
    let shown = format!("{meant:?}");
    shown.split(|c: char| !c.is_alphanumeric()).next().unwrap_or_default().to_string()
}

/// Seconds as the Rust is handed them. Its `max` drops every NaN; built for Arm it keeps a signalling one, made quiet,
/// so there it is handed the quiet one (docs/DIFFERENCES.md).
pub fn secs(x: f32) -> f32 {
    if x.is_nan() && !cfg!(target_arch = "x86_64") { f32::NAN } else { x }
}

/// A kind's number is its place among the named ones.
pub fn easing(w: &LaxEasing) -> Easing {
    let named = &Easing::all_named()[w.kind as usize];
    match named {
        Easing::CubicBezier(..) => Easing::CubicBezier(w.a, w.b, w.c, w.d),
        Easing::Steps(_) => Easing::Steps(w.count),
        Easing::RoughEase { .. } => Easing::RoughEase { strength: w.a, points: w.count },
        Easing::SlowMo { .. } => Easing::SlowMo { linear_ratio: w.a, power: w.b },
        Easing::Wiggle { .. } => Easing::Wiggle { wiggles: w.count },
        Easing::CustomBounce { .. } => Easing::CustomBounce { strength: w.a },
        Easing::ExpoScale { .. } => Easing::ExpoScale { start: w.a, end: w.b },
        bare => bare.clone(),
    }
}

pub fn easing_words(e: &Easing) -> LaxEasing {
    let place = Easing::all_named().iter().position(|named| discriminant(named) == discriminant(e));
    let bare = LaxEasing { kind: place.expect("no Custom") as u32, ..LaxEasing::default() };
    match *e {
        Easing::CubicBezier(a, b, c, d) => LaxEasing { a, b, c, d, ..bare },
        Easing::Steps(count) => LaxEasing { count, ..bare },
        Easing::RoughEase { strength, points } => LaxEasing { a: strength, count: points, ..bare },
        Easing::SlowMo { linear_ratio, power } => LaxEasing { a: linear_ratio, b: power, ..bare },
        Easing::Wiggle { wiggles } => LaxEasing { count: wiggles, ..bare },
        Easing::CustomBounce { strength } => LaxEasing { a: strength, ..bare },
        Easing::ExpoScale { start, end } => LaxEasing { a: start, b: end, ..bare },
        _ => bare,
    }
}

pub fn looping(w: &LaxLoop) -> Loop {
    match w.mode {
        ONCE => Loop::Once,
        TIMES => Loop::Times(w.passes),
        FOREVER => Loop::Forever,
        PING_PONG => Loop::PingPong,
        _ => Loop::PingPongTimes(w.passes),
    }
}

pub fn loop_words(looping: &Loop) -> LaxLoop {
    let (mode, passes) = match *looping {
        Loop::Once => (ONCE, 0),
        Loop::Times(n) => (TIMES, n),
        Loop::Forever => (FOREVER, 0),
        Loop::PingPong => (PING_PONG, 0),
        Loop::PingPongTimes(n) => (PING_PONG_TIMES, n),
    };
    LaxLoop { mode, passes }
}

fn state(word: u32) -> TweenState {
    match word {
        IDLE => TweenState::Idle,
        RUNNING => TweenState::Running,
        PAUSED => TweenState::Paused,
        _ => TweenState::Completed,
    }
}

pub fn state_word(state: &TweenState) -> u32 {
    match state {
        TweenState::Idle => IDLE,
        TweenState::Running => RUNNING,
        TweenState::Paused => PAUSED,
        TweenState::Completed => COMPLETED,
    }
}

pub fn tween(w: &LaxTween) -> Tween<f32> {
    Tween::of_fields(
        w.start,
        w.end,
        w.duration,
        easing(&w.easing),
        w.delay,
        w.time_scale,
        looping(&w.looping),
        w.elapsed,
        w.delay_elapsed,
        state(w.state),
        w.loop_count,
        w.ping_pong_reverse != 0,
    )
}

pub fn tween_words(t: &Tween<f32>) -> LaxTween {
    LaxTween {
        start: t.start,
        end: t.end,
        duration: t.duration,
        easing: easing_words(&t.easing),
        delay: t.delay,
        time_scale: t.time_scale,
        looping: loop_words(&t.looping),
        elapsed: t.elapsed(),
        delay_elapsed: t.delay_elapsed(),
        state: state_word(t.state()),
        loop_count: t.loop_count(),
        ping_pong_reverse: t.is_ping_pong_reversed().into(),
    }
}

/// The tween that came, with what a call may change as another has it. The other words stay as they came.
pub fn tween_onto(came: &LaxTween, t: &LaxTween) -> LaxTween {
    LaxTween {
        start: t.start,
        end: t.end,
        elapsed: t.elapsed,
        delay_elapsed: t.delay_elapsed,
        state: t.state,
        loop_count: t.loop_count,
        ping_pong_reverse: t.ping_pong_reverse,
        ..*came
    }
}

/// A frame with the words of one that means the same, where there is one.
pub fn frame_onto<'a>(came: impl Iterator<Item = &'a LaxKeyframe>, frame: &LaxKeyframe) -> LaxKeyframe {
    let meant = |e: &LaxEasing| easing_words(&easing(e)).words() == frame.easing.words();
    let same = |k: &&LaxKeyframe| k.time == frame.time && meant(&k.easing);
    let easing = { came }.find(same).map_or(frame.easing, |k| k.easing);
    LaxKeyframe { easing, ..*frame }
}

pub fn track(w: &LaxTrack) -> KeyframeTrack<f32> {
    let frame = |frame: &LaxKeyframe| Keyframe {
        time: frame.time,
        value: frame.value,
        easing: easing(&frame.easing),
    };
    let frames = frames(w).iter().map(frame).collect();
    KeyframeTrack::of_fields(frames, w.elapsed, looping(&w.looping), w.loop_count, w.complete != 0)
}

/// The places behind the frames are those that came.
pub fn track_words(t: &KeyframeTrack<f32>, came: &LaxTrack) -> LaxTrack {
    let mut words = LaxTrack {
        frames: came.frames,
        count: t.frames().len() as u32,
        elapsed: t.elapsed(),
        looping: loop_words(&t.looping),
        loop_count: t.passes_made(),
        complete: t.marked_complete().into(),
    };
    for (place, frame) in words.frames.iter_mut().zip(t.frames()) {
        *place = LaxKeyframe::new(frame.time, frame.value, easing_words(&frame.easing));
    }
    words
}
