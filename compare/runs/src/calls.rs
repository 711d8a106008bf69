//! The library's calls as one answer each: the number, what went into the lent place, the record afterwards.
//! Where a call is refused its place counts as 0 if it was left alone, and as paint if it was written.
use crate::ffi::{self, *};
use crate::words::*;

/// What stands in a place before a call.
const PAINT: u32 = 0x7fa5_5a5a;
const PAINT_64: u64 = 0x7fa5_5a5a_7fa5_5a5a;

fn lent<P: Words + Default>(call: impl FnOnce(&mut P) -> u32) -> (u32, P) {
    let mut place = P::default();
    place.words_mut().fill(PAINT);
    let number = call(&mut place);
    let kept = place.words().iter().all(|word| *word == PAINT);
    match number {
        0 => (number, place),
        _ if kept => (number, P::default()),
        _ => {
            place.words_mut().fill(PAINT);
            (number, place)
        }
    }
}

fn value(call: impl FnOnce(&mut f32) -> u32) -> LaxValue {
    LaxValue::of(lent(|place: &mut ValuePlace| call(&mut place.value)))
}

fn flag(call: impl FnOnce(&mut u32) -> u32) -> LaxFlag {
    LaxFlag::of(lent(|place: &mut FlagPlace| call(&mut place.flag)))
}

fn found(call: impl FnOnce(&mut FoundPlace) -> u32) -> LaxFound {
    LaxFound::of(lent(call))
}

/// A place of two numbers, which a call that is refused before it has done anything leaves alone.
fn counted(call: impl FnOnce(&mut CountedPlace) -> u32) -> (u32, usize, usize) {
    let mut place = CountedPlace { count: PAINT_64, unsettled: PAINT_64 };
    let number = call(&mut place);
    let CountedPlace { count, unsettled } = place;
    let kept = (count, unsettled) == (PAINT_64, PAINT_64);
    match number {
        0 => (number, count as usize, unsettled as usize),
        _ if kept => (number, 0, 0),
        _ if count == 0 => (number, PAINT as usize, PAINT as usize),
        _ => (number, count as usize, unsettled as usize),
    }
}

pub fn easing_apply(e: &LaxEasing, t: f32) -> LaxFound {
    found(|out| lax_easing_apply(e, t, out))
}

pub fn easing_eq(x: &LaxEasing, y: &LaxEasing) -> LaxFlag {
    flag(|out| lax_easing_eq(x, y, out))
}

pub fn easing_is_supplied(e: &LaxEasing) -> LaxFlag {
    flag(|out| lax_easing_is_supplied(e, out))
}

pub fn easing_named(place: u32) -> LaxEasingAnswer {
    let (number, easing) = lent(|out| lax_easing_named(place, out));
    LaxEasingAnswer { number, easing }
}

pub fn tween_new(start: f32, end: f32) -> LaxTween {
    lent(|t| lax_tween_new(t, start, end)).1
}

pub fn tween_value(t: &LaxTween) -> LaxFound {
    found(|out| lax_tween_value(t, out))
}

pub fn tween_eased_progress(t: &LaxTween) -> LaxFound {
    found(|out| lax_tween_eased_progress(t, out))
}

pub fn tween_progress(t: &LaxTween) -> LaxValue {
    value(|out| lax_tween_progress(t, out))
}

pub fn tween_playback_duration(t: &LaxTween) -> LaxValue {
    value(|out| lax_tween_playback_duration(t, out))
}

pub fn tween_snapshot(t: &LaxTween) -> LaxSnapshot {
    LaxSnapshot::of(lent(|out| lax_tween_snapshot(t, out)))
}

/// A call that changes a tween and answers nothing else.
pub fn tween_changed(t: &LaxTween, call: impl FnOnce(&mut LaxTween) -> u32) -> LaxChanged {
    let mut tween = *t;
    let number = call(&mut tween);
    LaxChanged { number, tween }
}

pub fn tween_update(t: &LaxTween, step: f32) -> LaxUpdated {
    let mut tween = *t;
    let (number, place) = lent(|out: &mut UpdatedPlace| lax_tween_update(&mut tween, step, out));
    LaxUpdated { number, folds: place.folds, running: place.running, tween }
}

pub fn tween_run(t: &LaxTween, steps: &[f32], values: &mut [f32], folds: &mut [u32]) -> LaxRun {
    let mut tween = *t;
    let (number, done, unsettled) = counted(|out| ffi::tween_run(&mut tween, steps, values, folds, out));
    LaxRun { done, unsettled, number, tween }
}

pub fn track_new() -> LaxTrack {
    lent(|t| lax_track_new(t)).1
}

/// A call that changes a track and answers nothing else.
pub fn track_changed(t: &LaxTrack, call: impl FnOnce(&mut LaxTrack) -> u32) -> LaxTrackChanged {
    let mut track = *t;
    let number = call(&mut track);
    LaxTrackChanged { number, track }
}

pub fn track_update(t: &LaxTrack, step: f32) -> LaxTrackUpdated {
    let mut track = *t;
    let (number, place) = lent(|out: &mut FlagPlace| lax_track_update(&mut track, step, &mut out.flag));
    LaxTrackUpdated { number, running: place.flag, track }
}

pub fn track_value_at(t: &LaxTrack, secs: f32) -> LaxFound {
    found(|out| lax_track_value_at(t, secs, out))
}

pub fn track_value(t: &LaxTrack) -> LaxFound {
    found(|out| lax_track_value(t, out))
}

pub fn track_active_time(t: &LaxTrack) -> LaxValue {
    value(|out| lax_track_active_time(t, out))
}

pub fn track_duration(t: &LaxTrack) -> LaxValue {
    value(|out| lax_track_duration(t, out))
}

pub fn track_playback_duration(t: &LaxTrack) -> LaxValue {
    value(|out| lax_track_playback_duration(t, out))
}

pub fn track_progress(t: &LaxTrack) -> LaxValue {
    value(|out| lax_track_progress(t, out))
}

pub fn track_is_complete(t: &LaxTrack) -> LaxFlag {
    flag(|out| lax_track_is_complete(t, out))
}

pub fn track_values_at(t: &LaxTrack, times: &[f32], out: &mut [f32]) -> LaxFilled {
    let (number, filled, unsettled) = counted(|place| ffi::track_values_at(t, times, out, place));
    LaxFilled { filled, unsettled, number }
}

pub fn log_head(buffer: &mut [u8]) -> LaxLogged {
    let mut written = PAINT_64;
    let number = ffi::log_head(buffer, &mut written);
    let written = if number != 0 && written == PAINT_64 { 0 } else { written as usize };
    LaxLogged { written, number }
}

pub fn log_record(buffer: &mut [u8], written: usize, event: &LaxEvent) -> LaxLogged {
    let mut length = written as u64;
    let number = ffi::log_record(buffer, &mut length, event);
    LaxLogged { written: length as usize, number }
}

/// A call that reads no record and is refused is to leave the place alone: then it reached what it began with.
fn replayed(number: u32, kept: bool, begun: &LaxReplay, place: &ReplayPlace, tween: LaxTween) -> LaxReplayed {
    if number != 0 && kept {
        return LaxReplayed { done: 0, number, reached: LaxReplay { tween, ..*begun } };
    }
    let done = if number != 0 && place.done == 0 { PAINT_64 } else { place.done } as usize;
    let last = u32::try_from(place.last).unwrap_or(PAINT);
    let reached = LaxReplay { missing: place.missing, folds: place.folds, last, tween };
    LaxReplayed { done, number, reached }
}

/// What stands in the place before the call is not looked at.
pub fn log_replay(begun: &LaxReplay, log: &[u8], gaps: &mut [u16]) -> LaxReplayed {
    let painted = ReplayPlace { missing: PAINT_64, folds: PAINT_64, last: PAINT_64, done: PAINT_64 };
    let (mut tween, mut place) = (begun.tween, painted);
    let number = ffi::log_replay(&mut tween, log, gaps, &mut place);
    replayed(number, place == painted, begun, &place, tween)
}

pub fn log_replay_on(begun: &LaxReplay, records: &[u8], gaps: &mut [u16]) -> LaxReplayed {
    let LaxReplay { missing, folds, last, mut tween } = *begun;
    let painted = ReplayPlace { missing, folds, last: last.into(), done: PAINT_64 };
    let mut place = painted;
    let number = ffi::log_replay_on(&mut tween, records, gaps, &mut place);
    replayed(number, place == painted, begun, &place, tween)
}
