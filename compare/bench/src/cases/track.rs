use super::{Case, EASINGS, is_circ, name_of};
use crate::ffi::{lax_track_push, lax_track_update, lax_track_value_at, track_values_at};
use crate::inputs::MANY;
use crate::rules::{FOREVER, last_time};
use crate::side::{Stepped, Valued};
use crate::words::{CountedPlace, FoundPlace, LaxLoop, LaxTrack, PLACES};
use crate::{inputs, meaning, rust, side};
use oracle::{Easing, KeyframeTrack};
use std::hint::black_box;

/// In a batch, but where their number grows.
const SAMPLES: usize = 1_000;

pub fn cases() -> Vec<Case> {
    let (mut single, mut batches) = (Vec::new(), Vec::new());
    for frames in [2, 8, 64] {
        for easing in EASINGS {
            single.push(value_at(&easing, frames));
            batches.push(sampled(&easing, frames));
        }
    }
    single.extend([2, 64].map(update));
    single.push(push());
    batches.push(sampled(&Easing::EaseInQuad, 64));
    batches.extend([Easing::Linear, Easing::EaseInOutCubic].map(|easing| in_order(&easing, 64)));
    single.extend(batches);
    single
}

/// Of one value, the record being checked in each call.
fn single_bar(easing: &Easing, frames: usize) -> Option<f64> {
    match (easing, frames) {
        (easing, _) if is_circ(easing) => None,
        (_, 64) => Some(7.5),
        _ => Some(2.5),
    }
}

/// The Rust looks at no frame.
fn update_bar(frames: usize) -> Option<f64> {
    match frames {
        2 => Some(4.5),
        _ => Some(25.0),
    }
}

const PUSH_BAR: f64 = 3.0;

fn batch_bar(easing: &Easing, frames: usize) -> Option<f64> {
    match (easing, frames) {
        (Easing::EaseInOutCubic, _) => Some(0.8),
        (Easing::CubicBezier(..), _) => Some(1.1),
        (Easing::EaseInCirc, _) => Some(2.0),
        (Easing::Linear, 2) => Some(0.8),
        (Easing::Linear | Easing::EaseInQuad, 64) => Some(1.0),
        _ => None,
    }
}

fn value_at(easing: &Easing, frames: usize) -> Case {
    let words = inputs::track(easing, frames);
    let (track, times) = (meaning::track(&words), inputs::below(last_time(&words), MANY));
    let same = times.clone();
    Case {
        name: format!("value_at, {frames} frames, {}", name_of(easing)),
        bar: single_bar(easing, frames),
        answers: MANY as f64,
        size: 1,
        ours: side::filling(MANY, move |answers| {
            let (track, mut out) = (black_box(&words), FoundPlace::default());
            for (answer, time) in answers.iter_mut().zip(&times) {
                let number = lax_track_value_at(track, *time, &mut out);
                *answer = Valued { number, value: out.value };
            }
        }),
        rust: side::filling(MANY, move |answers| {
            let track = black_box(&track);
            for (answer, time) in answers.iter_mut().zip(&same) {
                *answer = rust::value_at(track, *time);
            }
        }),
    }
}

/// In a pass.
const STEPS: usize = 1_000;

/// In Forever, one update behind the other.
fn update(frames: usize) -> Case {
    let words = inputs::track(&Easing::Linear, frames);
    let first = LaxTrack { looping: LaxLoop { mode: FOREVER, passes: 0 }, ..words };
    let (begun, steps) = (meaning::track(&first), inputs::below(1.0, STEPS));
    let same = steps.clone();
    Case {
        name: format!("track update, {frames} frames"),
        bar: update_bar(frames),
        answers: STEPS as f64,
        size: 1,
        ours: side::filling(STEPS, move |answers| {
            let (mut track, mut running) = (first, 0);
            for (answer, step) in answers.iter_mut().zip(&steps) {
                let number = lax_track_update(black_box(&mut track), *step, &mut running);
                *answer = Stepped { number, running, elapsed: track.elapsed };
            }
        }),
        rust: side::filling(STEPS, move |answers| {
            let mut track = begun.clone();
            for (answer, step) in answers.iter_mut().zip(&same) {
                let running = rust::track_update(black_box(&mut track), *step);
                *answer = Stepped { number: 0, running: running.into(), elapsed: track.elapsed() };
            }
        }),
    }
}

/// Frames at random times, from none to 64; of one push.
fn push() -> Case {
    let times = inputs::below(60.0, PLACES);
    let same = times.clone();
    Case {
        name: format!("push, from 0 to {PLACES} frames"),
        bar: Some(PUSH_BAR),
        answers: PLACES as f64,
        size: 1,
        ours: side::filling(PLACES, move |answers| {
            let mut track = LaxTrack::default();
            for time in &times {
                assert_eq!(lax_track_push(black_box(&mut track), *time, -*time), 0);
            }
            answers.iter_mut().zip(&track.frames).for_each(|(answer, frame)| *answer = frame.value);
        }),
        rust: side::filling(PLACES, move |answers| {
            let mut track = KeyframeTrack::new();
            for time in &same {
                rust::push(black_box(&mut track), *time, -*time);
            }
            answers.iter_mut().zip(track.frames()).for_each(|(answer, frame)| *answer = frame.value);
        }),
    }
}

/// A batch whose time is that of one sample.
fn sampled(easing: &Easing, frames: usize) -> Case {
    let track = inputs::track(easing, frames);
    let times = inputs::below(last_time(&track), MANY);
    Case {
        name: format!("batch of {SAMPLES}, {frames} frames, {}", name_of(easing)),
        bar: batch_bar(easing, frames),
        answers: MANY as f64,
        ..batch(track, times, SAMPLES)
    }
}

/// The same with ascending times in each batch.
fn in_order(easing: &Easing, frames: usize) -> Case {
    let track = inputs::track(easing, frames);
    let mut times = inputs::below(last_time(&track), MANY);
    times.chunks_mut(SAMPLES).for_each(|batch| batch.sort_by(f32::total_cmp));
    Case {
        name: format!("batch of {SAMPLES} in order, {frames} frames, {}", name_of(easing)),
        answers: MANY as f64,
        ..batch(track, times, SAMPLES)
    }
}

/// Batches of so many samples; the time is that of one.
fn batch(words: LaxTrack, times: Vec<f32>, samples: usize) -> Case {
    let (track, same, count) = (meaning::track(&words), times.clone(), times.len());
    Case {
        name: format!("batch of {samples}, {} frames", words.count),
        bar: None,
        answers: (count / samples) as f64,
        size: samples,
        ours: side::filling(count, move |answers| {
            for (out, times) in answers.chunks_mut(samples).zip(times.chunks(samples)) {
                let mut filled = CountedPlace { count: 0, unsettled: 0 };
                assert_eq!(track_values_at(black_box(&words), times, out, &mut filled), 0);
            }
        }),
        rust: side::filling(count, move |answers| {
            for (out, times) in answers.chunks_mut(samples).zip(same.chunks(samples)) {
                rust::values_at(black_box(&track), times, out);
            }
        }),
    }
}

fn linear(frames: usize, samples: usize) -> Case {
    let track = inputs::track(&Easing::Linear, frames);
    let times = inputs::below(last_time(&track), MANY.next_multiple_of(samples));
    batch(track, times, samples)
}

pub fn growing_samples() -> Vec<Case> {
    [1, 10, 100, 1_000, 10_000].map(|samples| linear(64, samples)).into()
}

pub fn growing_frames() -> Vec<Case> {
    [2, 4, 8, 16, 32, 64].map(|frames| Case { size: frames, ..linear(frames, SAMPLES) }).into()
}
