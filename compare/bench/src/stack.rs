//! How deep a call goes: the bytes of the stack below its caller's that it wrote, of a stretch that was painted.
use crate::cases::BEZIER;
use crate::ffi::*;
use crate::inputs;
use crate::rules::FOREVER;
use crate::words::*;
use oracle::Easing;
use std::hint::black_box;

const ROOM: usize = 65_536;
const PAINT: u8 = 0xa5;

type Call = (&'static str, Box<dyn FnMut() -> u32>);

/// A table of the calls, each made once; what an empty one takes is taken off.
pub fn print() {
    let empty = depth(&mut || 0);
    println!("| call | stack, bytes |\n|---|--:|");
    for (name, mut call) in tweens().into_iter().chain(lists()).chain(tracks()) {
        println!("| {name} | {} |", depth(&mut *call) - empty);
    }
}

#[inline(never)]
fn paint() -> usize {
    let mut room = [PAINT; ROOM];
    black_box(&mut room).as_ptr() as usize
}

#[inline(never)]
fn depth(call: &mut dyn FnMut() -> u32) -> usize {
    let low = paint();
    black_box(call());
    let here = &raw const low as usize;
    // SAFETY: these bytes are of this thread's stack, below this frame, and were written by `paint`.
    let is_painted = |at: &usize| unsafe { (*at as *const u8).read_volatile() } == PAINT;
    here - (low..here).find(|at| !is_painted(at)).unwrap_or(here)
}

fn tweens() -> Vec<Call> {
    let running = inputs::tween(&Easing::Linear, 1.0, 0.5);
    let broken = LaxTween { elapsed: 2.0, ..running };
    let update = |mut tween: LaxTween, step: f32| -> Box<dyn FnMut() -> u32> {
        let mut out = UpdatedPlace::default();
        Box::new(move || lax_tween_update(black_box(&mut tween), step, &mut out))
    };
    let value = |tween: LaxTween| -> Box<dyn FnMut() -> u32> {
        let mut out = FoundPlace::default();
        Box::new(move || lax_tween_value(black_box(&tween), &mut out))
    };
    let (easing, mut named, mut snapshot) = (running.easing, LaxEasing::default(), SnapshotPlace::default());
    let mut found = FoundPlace::default();
    vec![
        ("easing apply, Linear", Box::new(move || lax_easing_apply(black_box(&easing), 0.25, &mut found))),
        ("easing named", Box::new(move || lax_easing_named(black_box(37), &mut named))),
        ("tween snapshot", Box::new(move || lax_tween_snapshot(black_box(&running), &mut snapshot))),
        ("tween update, no fold", update(running, 0.25)),
        ("tween update, 100 folds", update(running, 100.25)),
        ("tween update, refused", update(broken, 0.25)),
        ("tween value, Linear", value(running)),
        ("tween value, CubicBezier", value(inputs::tween(&BEZIER, 1.0, 0.5))),
        ("tween value, refused", value(broken)),
    ]
}

fn lists() -> Vec<Call> {
    let (mut tween, steps) = inputs::stepping(FOREVER, 1, 1_000);
    let (mut values, mut folds) = (vec![0.0; 1_000], vec![0; 1_000]);
    let mut out = CountedPlace { count: 0, unsettled: 0 };
    let (mut pump, log) = (inputs::tween(&Easing::Linear, 1.0, 0.0), inputs::log(1_000));
    let (mut gaps, mut reached) = (vec![0; 1_000], ReplayPlace { missing: 0, folds: 0, last: 0, done: 0 });
    vec![
        (
            "run of 1000 steps",
            Box::new(move || tween_run(&mut tween, &steps, &mut values, &mut folds, &mut out)),
        ),
        (
            "log replay of 1000 records",
            Box::new(move || log_replay(&mut pump, &log, &mut gaps, &mut reached)),
        ),
    ]
}

fn tracks() -> Vec<Call> {
    let track = inputs::track(&Easing::Linear, 63);
    let broken = LaxTrack { elapsed: -1.0, ..track };
    let value_at = |track: LaxTrack| -> Box<dyn FnMut() -> u32> {
        let mut out = FoundPlace::default();
        Box::new(move || lax_track_value_at(black_box(&track), 3.25, &mut out))
    };
    let update = |mut track: LaxTrack| -> Box<dyn FnMut() -> u32> {
        let mut running = 0;
        Box::new(move || lax_track_update(black_box(&mut track), 0.25, &mut running))
    };
    let push = |mut track: LaxTrack| -> Box<dyn FnMut() -> u32> {
        Box::new(move || lax_track_push(black_box(&mut track), 3.25, 1.0))
    };
    let (mut sought, mut looped, mode) = (track, track, LaxLoop { mode: FOREVER, passes: 0 });
    let mut found = FoundPlace::default();
    let (times, mut values) = (inputs::below(60.0, 1_000), vec![0.0; 1_000]);
    let mut filled = CountedPlace { count: 0, unsettled: 0 };
    vec![
        ("value_at, 63 frames, Linear", value_at(track)),
        ("value_at, 63 frames, CubicBezier", value_at(inputs::track(&BEZIER, 63))),
        ("value_at, refused", value_at(broken)),
        ("track update, 63 frames", update(track)),
        ("track update, refused", update(broken)),
        ("push into 63 frames", push(track)),
        ("push, refused", push(broken)),
        ("track seek_to", Box::new(move || lax_track_seek_to(black_box(&mut sought), 0.5))),
        ("track looping", Box::new(move || lax_track_looping(black_box(&mut looped), &mode))),
        ("track value", Box::new(move || lax_track_value(black_box(&track), &mut found))),
        (
            "batch of 1000, 63 frames",
            Box::new(move || track_values_at(&track, &times, &mut values, &mut filled)),
        ),
    ]
}
