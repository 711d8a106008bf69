use super::*;
use crate::words::{LaxKeyframe, LaxLoop, LaxTrack, PLACES};

/// The frames of a track; of one with too large a count, all places.
pub fn frames(t: &LaxTrack) -> &[LaxKeyframe] {
    &t.frames[..(t.count as usize).min(PLACES)]
}

fn track_unknown(t: &LaxTrack) -> bool {
    frames(t).iter().any(|frame| easing_unknown(&frame.easing)) || loop_unknown(&t.looping)
}

/// -0 is no time of a frame.
fn is_frame_time(time: f32) -> bool {
    is_between(time, 0.0, LIMIT) && time.is_sign_positive()
}

fn frame_breaks(frame: &LaxKeyframe) -> bool {
    !is_frame_time(frame.time) || !is_value(frame.value) || !easing_fits(&frame.easing)
}

pub fn last_time(t: &LaxTrack) -> f32 {
    frames(t).last().map_or(0.0, |frame| frame.time)
}

/// The last time times the passes, rounded once: the product is exact in 64 bits.
fn breaks_total(last: f32, looping: &LaxLoop) -> bool {
    passes(looping).is_some_and(|n| (f64::from(last) * f64::from(n)) as f32 > LIMIT)
}

pub fn track_breaks(t: &LaxTrack) -> bool {
    t.count as usize > PLACES
        || frames(t).iter().any(frame_breaks)
        || !frames(t).windows(2).all(|pair| pair[0].time < pair[1].time)
        || !is_between(t.elapsed, 0.0, LIMIT)
        || breaks_passes(&t.looping)
        || breaks_total(last_time(t), &t.looping)
}

/// By which every call on a track can be refused.
pub const TRACK_REFUSALS: [u32; 2] = [100, 4];

/// Of a call on a track: the record's rules, and its own.
fn of_track(t: &LaxTrack, own: &[Rule]) -> u32 {
    let record: [Rule; 2] = [(100, &|| track_unknown(t)), (4, &|| track_breaks(t))];
    first(&[&record, own].concat())
}

pub fn track_refused(t: &LaxTrack) -> u32 {
    of_track(t, &[])
}

/// A pushed -0 is no reason to refuse.
pub fn push_refused(t: &LaxTrack, pushed: &LaxKeyframe) -> u32 {
    let LaxKeyframe { time, value, easing } = *pushed;
    let last = || if time > last_time(t) { time } else { last_time(t) };
    of_track(
        t,
        &[
            (100, &|| easing_unknown(&easing)),
            (2, &|| is_one_of_twelve(&easing)),
            (3, &|| breaks_parameter(&easing)),
            (11, &|| !is_between(time, 0.0, LIMIT) || !is_value(value) || breaks_total(last(), &t.looping)),
            (9, &|| t.count as usize == PLACES && frames(t).iter().all(|frame| frame.time != time)),
        ],
    )
}

pub fn looping_refused(t: &LaxTrack, mode: &LaxLoop) -> u32 {
    of_track(
        t,
        &[(100, &|| loop_unknown(mode)), (11, &|| breaks_passes(mode) || breaks_total(last_time(t), mode))],
    )
}

pub fn sample_refused(t: &LaxTrack) -> u32 {
    of_track(t, &[(10, &|| t.count == 0)])
}

pub fn samples_refused(t: &LaxTrack, times: usize, out: usize) -> u32 {
    of_track(t, &[(10, &|| t.count == 0), (12, &|| out < times)])
}

pub fn seek_to_refused(t: &LaxTrack, progress: f32) -> u32 {
    of_track(t, &[(1, &|| progress.is_nan())])
}

pub fn track_update_refused(t: &LaxTrack, step: f32) -> u32 {
    let sum = t.elapsed + counted(step);
    let moves = t.complete == 0 && t.count >= 2;
    let endless = passes(&t.looping).is_none();
    of_track(
        t,
        &[
            (5, &|| step > LIMIT),
            (6, &|| moves && counted(step) > 0.0 && is_lost(t.elapsed, counted(step))),
            (8, &|| moves && endless && sum > LIMIT),
        ],
    )
}
