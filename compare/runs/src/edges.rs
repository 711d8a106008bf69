//! The edges, one by one: each word of some plain records at each edge, in every call; each argument at
//! each edge. The same in every run.
mod log;
pub mod lost;
mod replay;

use crate::input::Input;
use crate::make::{EDGES, FRAME_COUNTS};
use crate::meaning;
use crate::rules::*;
use crate::runner::{Runner, Tried};
use crate::subjects::*;
use crate::words::*;
use oracle::Easing;
use std::ops::Range;

/// What the rules say of counts, kinds, modes and states, and one beside each.
const COUNTS: [u32; 24] = [
    0, 1, 2, 3, 4, 5, 6, 12, 13, 31, 37, 38, 63, 64, 65, 4_096, 65_535, 65_536, 65_537, 16_777_215,
    16_777_216, 16_777_217, !1, !0,
];

const TWEENS: u64 = 5 * 4;
const TRACKS: u64 = 5 * FRAME_COUNTS.len() as u64;
const RECORDS: u64 = 1 + TWEENS + TRACKS;
const LOST: u64 = RECORDS;
const LOGS: u64 = LOST + 1 + log::PARTS;
pub const PARTS: u64 = LOGS + replay::PARTS;

/// The parts that are replays.
pub const REPLAYS: Range<u64> = LOGS..PARTS;

pub fn part(part: u64, runner: &mut Runner) -> Tried<()> {
    match part {
        0 => easings(runner),
        1..=TWEENS => tweens(&plain_tween((part as u32 - 1) / 4, (part as u32 - 1) % 4), runner),
        LOST => lost::steps(runner),
        RECORDS..LOGS => log::part(part - LOST - 1, runner),
        LOGS.. => replay::part(part - LOGS, runner),
        _ => {
            let place = (part - 1 - TWEENS) as u32;
            tracks(&plain_track(place / 5, FRAME_COUNTS[place as usize % 5]), runner)
        }
    }
}

/// The record with each word that is looked at, in turn, at each edge of its kind.
fn each_word<T: Words>(
    t: &T,
    looked_at: &dyn Fn(usize) -> bool,
    each: &mut dyn FnMut(T) -> Tried<()>,
) -> Tried<()> {
    let edges: Vec<u32> = EDGES.iter().map(|x| x.to_bits()).collect();
    for (place, (_, kind)) in T::layout().iter().enumerate().filter(|(place, _)| looked_at(*place)) {
        for word in if *kind == Float { &edges[..] } else { &COUNTS } {
            let mut changed = *t;
            changed.words_mut()[place] = *word;
            each(changed)?;
        }
    }
    Ok(())
}

fn easings(runner: &mut Runner) -> Tried<()> {
    let made = "easing, edges";
    let named: Vec<LaxEasing> = Easing::all_named().iter().map(meaning::easing_words).collect();
    for place in COUNTS {
        runner.check(made, Input::Easing(EasingCall::Named(place)))?;
    }
    for (place, easing) in named.iter().enumerate() {
        runner.check(made, Input::Easing(EasingCall::Named(place as u32)))?;
        let zeros = LaxEasing { kind: easing.kind, ..LaxEasing::default() };
        let negative = LaxEasing { a: -0.0, b: -0.0, c: -0.0, d: -0.0, ..zeros };
        runner.check(made, Input::Easing(EasingCall::Eq(zeros, negative)))?;
        for t in EDGES.iter() {
            runner.check(made, Input::Easing(EasingCall::Apply(*easing, *t)))?;
        }
        for other in &named {
            runner.check(made, Input::Easing(EasingCall::Eq(*easing, *other)))?;
        }
        each_word(easing, &|_| true, &mut |changed| {
            for t in [0.0, 0.3, 0.5, 0.9, 1.0, f32::NAN] {
                runner.check(made, Input::Easing(EasingCall::Apply(changed, t)))?;
            }
            runner.check(made, Input::Easing(EasingCall::Eq(changed, *easing)))?;
            runner.check(made, Input::Easing(EasingCall::Eq(*easing, changed)))?;
            runner.check(made, Input::Easing(EasingCall::IsSupplied(changed))).map(drop)
        })?;
    }
    Ok(())
}

/// 10 to 20 in 2 s, at its middle, in its second pass of three.
pub fn plain_tween(mode: u32, state: u32) -> LaxTween {
    LaxTween {
        start: 10.0,
        end: 20.0,
        duration: 2.0,
        easing: LaxEasing { kind: 6, ..LaxEasing::default() },
        delay: 4.0,
        time_scale: 1.0,
        looping: LaxLoop { mode, passes: 3 },
        elapsed: 1.0,
        delay_elapsed: if state == IDLE { 1.0 } else { 4.0 },
        state,
        loop_count: 1,
        ping_pong_reverse: 0,
    }
}

pub fn tween_calls() -> Vec<TweenCall> {
    let mut calls = TWEEN_READS.to_vec();
    calls.extend([TweenCall::Reset, TweenCall::Reverse, TweenCall::Pause, TweenCall::Resume]);
    calls.extend([0.25, f32::NAN].map(TweenCall::Seek));
    calls.extend([0.0, 0.5, 3.0, 9.5, f32::INFINITY].map(TweenCall::Update));
    for (values, folds) in [(3, 3), (2, 3), (3, 2), (5, 5)] {
        calls.push(TweenCall::Run { steps: vec![3.0, 0.5, 4.0], values, folds });
    }
    calls.push(TweenCall::Run { steps: vec![], values: 0, folds: 0 });
    calls
}

fn tweens(plain: &LaxTween, runner: &mut Runner) -> Tried<()> {
    let made = "tween, edges";
    let calls = tween_calls();
    for x in EDGES.iter() {
        runner.check(made, Input::Tween(*plain, TweenCall::Seek(*x)))?;
        runner.check(made, Input::Tween(*plain, TweenCall::Update(*x)))?;
    }
    each_word(plain, &|_| true, &mut |changed| {
        calls.iter().try_for_each(|call| runner.check(made, Input::Tween(changed, call.clone())).map(drop))
    })
}

/// Frames at 1 s, 1.5 s, 2 s and so on.
pub fn plain_track(mode: u32, count: u32) -> LaxTrack {
    let mut t = LaxTrack {
        count,
        elapsed: 1.25,
        looping: LaxLoop { mode, passes: 3 },
        loop_count: 1,
        ..LaxTrack::default()
    };
    for (place, frame) in t.frames.iter_mut().take(count as usize).enumerate() {
        let easing = LaxEasing { kind: 5, ..LaxEasing::default() };
        *frame = LaxKeyframe::new(1.0 + place as f32 / 2.0, (place * 10 % 70) as f32, easing);
    }
    t
}

pub fn track_calls() -> Vec<TrackCall> {
    let mut calls = TRACK_READS.to_vec();
    let eased = |kind| LaxEasing { kind, a: 0.5, count: 4, ..LaxEasing::default() };
    calls.extend([TrackCall::Push(1.5, 5.0), TrackCall::Push(0.25, 5.0), TrackCall::Push(-1.0, 5.0)]);
    calls.extend([1, 13, 34, 38].map(|kind| TrackCall::PushEased(1.75, 5.0, eased(kind))));
    calls.extend([TIMES, FOREVER, 5].map(|mode| TrackCall::Looping(LaxLoop { mode, passes: 2 })));
    calls.push(TrackCall::Looping(LaxLoop { mode: PING_PONG_TIMES, passes: 65_536 }));
    calls.push(TrackCall::ValueAt(1.2));
    for out in [1, 2, 4] {
        calls.push(TrackCall::ValuesAt { times: vec![1.2, 40.0], out });
    }
    calls.push(TrackCall::ValuesAt { times: vec![], out: 1 });
    calls.extend([0.0, 0.5, 200.0, f32::INFINITY].map(TrackCall::Update));
    calls.push(TrackCall::Reset);
    calls.extend([0.75, 1.0, f32::NAN].map(TrackCall::SeekTo));
    calls
}

/// The words of the first two frames, of the last and of the one behind it, and those behind all places.
fn tracks(plain: &LaxTrack, runner: &mut Runner) -> Tried<()> {
    let made = "track, edges";
    let calls = track_calls();
    let boxed = Box::new(*plain);
    for x in EDGES.iter() {
        for call in [TrackCall::ValueAt(*x), TrackCall::Update(*x), TrackCall::SeekTo(*x)] {
            runner.check(made, Input::Track(boxed.clone(), call))?;
        }
        for call in [TrackCall::Push(*x, 1.0), TrackCall::Push(1.0, *x), TrackCall::Push(1.75, *x)] {
            runner.check(made, Input::Track(boxed.clone(), call))?;
        }
    }
    let count = plain.count as usize;
    let looked_at =
        |place: usize| [0, 1, count.wrapping_sub(1), count].contains(&(place / 8)) || place >= 8 * PLACES;
    each_word(plain, &looked_at, &mut |changed| {
        let changed = Box::new(changed);
        calls
            .iter()
            .try_for_each(|call| runner.check(made, Input::Track(changed.clone(), call.clone())).map(drop))
    })
}
