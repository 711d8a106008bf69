use super::{LIMIT, Rule, counted, easing_fits, easing_unknown, first, is_between, is_lost, is_value};
use crate::words::{LaxLoop, LaxTween};

const MODES: u32 = 5;
pub const ONCE: u32 = 0;
pub const TIMES: u32 = 1;
pub const FOREVER: u32 = 2;
pub const PING_PONG: u32 = 3;
pub const PING_PONG_TIMES: u32 = 4;

const STATES: u32 = 4;
pub const IDLE: u32 = 0;
pub const RUNNING: u32 = 1;
pub const PAUSED: u32 = 2;
pub const COMPLETED: u32 = 3;

pub const MOST_FOLDS: u32 = 4_096;

pub fn loop_unknown(looping: &LaxLoop) -> bool {
    looping.mode >= MODES
}

/// The passes after which playback ends.
pub fn passes(looping: &LaxLoop) -> Option<u32> {
    match looping.mode {
        ONCE => Some(1),
        TIMES | PING_PONG_TIMES => Some(looping.passes.max(1)),
        _ => None,
    }
}

pub fn breaks_passes(looping: &LaxLoop) -> bool {
    passes(looping).is_some_and(|n| n > 65_535)
}

pub fn tween_unknown(t: &LaxTween) -> bool {
    easing_unknown(&t.easing) || loop_unknown(&t.looping) || t.state >= STATES
}

pub fn tween_breaks(t: &LaxTween) -> bool {
    let settings = is_value(t.start)
        && is_value(t.end)
        && is_between(t.duration, 0.0, LIMIT)
        && is_between(t.delay, 0.0, LIMIT)
        && is_between(t.time_scale, 0.0, 1024.0)
        && easing_fits(&t.easing)
        && !breaks_passes(&t.looping);
    let clock = is_between(t.elapsed, 0.0, t.duration)
        && is_between(t.delay_elapsed, 0.0, 33_554_432.0)
        && (t.state != IDLE || t.delay_elapsed < t.delay);
    !settings || !clock || t.loop_count > LIMIT as u32
}

/// A step above 0 is lost in the sum that it adds to: within the delay as it is, behind it scaled.
fn step_lost(t: &LaxTween, step: f32) -> bool {
    let step = counted(step);
    step > 0.0
        && match t.state {
            IDLE => is_lost(t.delay_elapsed, step),
            RUNNING => {
                t.time_scale > 0.0 && t.elapsed < t.duration && is_lost(t.elapsed, step * t.time_scale)
            }
            _ => false,
        }
}

/// Elapsed with the step added, where the update comes to fold.
fn elapsed_before_folds(t: &LaxTween, step: f32) -> Option<f32> {
    let step = counted(step);
    match t.state {
        IDLE if t.delay_elapsed + step < t.delay => None,
        IDLE => Some(t.elapsed + (t.delay_elapsed + step - t.delay) * t.time_scale),
        RUNNING => Some(t.elapsed + step * t.time_scale),
        _ => None,
    }
}

/// How many folds an update makes, the completing one too; nothing where 4,096 do not suffice.
pub fn folds(t: &LaxTween, step: f32) -> Option<u32> {
    let Some(mut elapsed) = elapsed_before_folds(t, step) else { return Some(0) };
    if t.duration == 0.0 {
        return Some(0);
    }
    let completing = passes(&t.looping).map(|n| n.saturating_sub(t.loop_count).max(1));
    for made in 0..MOST_FOLDS {
        if elapsed < t.duration {
            return Some(made);
        }
        if completing == Some(made + 1) {
            return completing;
        }
        elapsed -= t.duration;
    }
    (elapsed < t.duration).then_some(MOST_FOLDS)
}

/// By which every call on a tween can be refused.
pub const TWEEN_REFUSALS: [u32; 2] = [100, 4];

/// Of a call on a tween: the record's rules, and its own.
fn of_tween(t: &LaxTween, own: &[Rule]) -> u32 {
    let record: [Rule; 2] = [(100, &|| tween_unknown(t)), (4, &|| tween_breaks(t))];
    first(&[&record, own].concat())
}

pub fn tween_refused(t: &LaxTween) -> u32 {
    of_tween(t, &[])
}

pub fn seek_refused(t: &LaxTween, progress: f32) -> u32 {
    of_tween(t, &[(1, &|| progress.is_nan())])
}

pub fn update_refused(t: &LaxTween, step: f32) -> u32 {
    of_tween(t, &[(5, &|| step > LIMIT), (6, &|| step_lost(t, step)), (7, &|| folds(t, step).is_none())])
}

/// Of a run of steps as a whole; the steps are then refused one by one.
pub fn run_refused(t: &LaxTween, steps: usize, values: usize, folds: usize) -> u32 {
    of_tween(t, &[(12, &|| values < steps || folds < steps)])
}
