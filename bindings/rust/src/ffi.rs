//! What this crate calls of the C interface, as include/laxombiit.h has it.

#[repr(C)]
#[derive(Clone, Copy, Default)]
pub struct LaxEasing {
    pub kind: u32,
    pub a: f32,
    pub b: f32,
    pub c: f32,
    pub d: f32,
    pub count: u32,
}

#[repr(C)]
#[derive(Clone, Copy, Default)]
pub struct LaxLoop {
    pub mode: u32,
    pub passes: u32,
}

#[repr(C)]
#[derive(Clone, Copy, Default)]
pub struct LaxTween {
    pub start: f32,
    pub end: f32,
    pub duration: f32,
    pub easing: LaxEasing,
    pub delay: f32,
    pub time_scale: f32,
    pub looping: LaxLoop,
    pub elapsed: f32,
    pub delay_elapsed: f32,
    pub state: u32,
    pub loop_count: u32,
    pub ping_pong_reverse: u32,
}

/// What a call writes into a place that it is lent, here and below.
#[repr(C)]
#[derive(Default)]
pub struct LaxFound {
    pub value: f32,
    pub settled: u32,
    pub xs: u32,
    pub derivatives: u32,
}

#[repr(C)]
#[derive(Default)]
pub struct LaxSnapshot {
    pub elapsed: f32,
    pub delay_elapsed: f32,
    pub state: u32,
    pub loop_count: u32,
    pub ping_pong_reverse: u32,
}

#[repr(C)]
#[derive(Default)]
pub struct LaxUpdated {
    pub folds: u32,
    pub running: u32,
}

#[repr(C)]
#[derive(Default)]
pub struct LaxRun {
    pub done: u64,
    pub unsettled: u64,
}

pub const FRAMES: usize = 64;

#[repr(C)]
#[derive(Clone, Copy, Default)]
pub struct LaxKeyframe {
    pub time: f32,
    pub value: f32,
    pub easing: LaxEasing,
}

#[repr(C)]
#[derive(Clone, Copy)]
pub struct LaxTrack {
    pub frames: [LaxKeyframe; FRAMES],
    pub count: u32,
    pub elapsed: f32,
    pub looping: LaxLoop,
    pub loop_count: u32,
    pub complete: u32,
}

#[repr(C)]
#[derive(Default)]
pub struct LaxFilled {
    pub filled: u64,
    pub unsettled: u64,
}

#[repr(C)]
pub struct LaxEvent {
    pub kind: u32,
    pub step: f32,
}

#[repr(C)]
pub struct LaxReplay {
    pub missing: u64,
    pub folds: u64,
    pub last: u64,
    pub done: u64,
}

const _: () = {
    use std::mem::{offset_of, size_of};
    assert!(size_of::<LaxEasing>() == 24);
    assert!(offset_of!(LaxEasing, count) == 20);
    assert!(size_of::<LaxLoop>() == 8);
    assert!(size_of::<LaxTween>() == 72);
    assert!(offset_of!(LaxTween, easing) == 12);
    assert!(offset_of!(LaxTween, delay) == 36);
    assert!(offset_of!(LaxTween, looping) == 44);
    assert!(offset_of!(LaxTween, elapsed) == 52);
    assert!(offset_of!(LaxTween, ping_pong_reverse) == 68);
    assert!(size_of::<LaxFound>() == 16);
    assert!(size_of::<LaxSnapshot>() == 20);
    assert!(size_of::<LaxUpdated>() == 8);
    assert!(size_of::<LaxRun>() == 16);
    assert!(size_of::<LaxKeyframe>() == 32);
    assert!(offset_of!(LaxKeyframe, easing) == 8);
    assert!(size_of::<LaxTrack>() == 2072);
    assert!(offset_of!(LaxTrack, count) == 2048);
    assert!(offset_of!(LaxTrack, looping) == 2056);
    assert!(offset_of!(LaxTrack, complete) == 2068);
    assert!(size_of::<LaxFilled>() == 16);
    assert!(size_of::<LaxEvent>() == 8);
    assert!(size_of::<LaxReplay>() == 32);
};

// SAFETY: the header declares each of these so, and a reference is what it asks of a pointer: not null,
// aligned, to a whole record, and where it is written, the only one. A `safe fn` takes references and numbers
// alone, and every pattern of bits is legal in what they lend.
unsafe extern "C" {
    pub safe fn lax_easing_apply(e: &LaxEasing, t: f32, out: &mut LaxFound) -> u32;
    pub safe fn lax_easing_eq(x: &LaxEasing, y: &LaxEasing, out: &mut u32) -> u32;
    pub safe fn lax_easing_is_supplied(e: &LaxEasing, out: &mut u32) -> u32;
    pub safe fn lax_easing_named(place: u32, out: &mut LaxEasing) -> u32;

    pub safe fn lax_tween_new(t: &mut LaxTween, start: f32, end: f32) -> u32;
    pub safe fn lax_tween_value(t: &LaxTween, out: &mut LaxFound) -> u32;
    pub safe fn lax_tween_progress(t: &LaxTween, out: &mut f32) -> u32;
    pub safe fn lax_tween_eased_progress(t: &LaxTween, out: &mut LaxFound) -> u32;
    pub safe fn lax_tween_snapshot(t: &LaxTween, out: &mut LaxSnapshot) -> u32;
    pub safe fn lax_tween_playback_duration(t: &LaxTween, out: &mut f32) -> u32;
    pub safe fn lax_tween_reset(t: &mut LaxTween) -> u32;
    pub safe fn lax_tween_seek(t: &mut LaxTween, progress: f32) -> u32;
    pub safe fn lax_tween_reverse(t: &mut LaxTween) -> u32;
    pub safe fn lax_tween_pause(t: &mut LaxTween) -> u32;
    pub safe fn lax_tween_resume(t: &mut LaxTween) -> u32;
    pub safe fn lax_tween_update(t: &mut LaxTween, step: f32, out: &mut LaxUpdated) -> u32;
    pub fn lax_tween_run(
        t: &mut LaxTween,
        steps: *const f32,
        steps_len: u64,
        values: *mut f32,
        values_len: u64,
        folds: *mut u32,
        folds_len: u64,
        out: &mut LaxRun,
    ) -> u32;

    pub safe fn lax_track_new(t: &mut LaxTrack) -> u32;
    pub safe fn lax_track_push_frame(t: &mut LaxTrack, frame: &LaxKeyframe) -> u32;
    pub safe fn lax_track_looping(t: &mut LaxTrack, mode: &LaxLoop) -> u32;
    pub safe fn lax_track_value_at(t: &LaxTrack, secs: f32, out: &mut LaxFound) -> u32;
    pub safe fn lax_track_value(t: &LaxTrack, out: &mut LaxFound) -> u32;
    pub fn lax_track_values_at(
        t: &LaxTrack,
        times: *const f32,
        times_len: u64,
        out: *mut f32,
        out_len: u64,
        filled: &mut LaxFilled,
    ) -> u32;
    pub safe fn lax_track_active_time(t: &LaxTrack, out: &mut f32) -> u32;
    pub safe fn lax_track_duration(t: &LaxTrack, out: &mut f32) -> u32;
    pub safe fn lax_track_playback_duration(t: &LaxTrack, out: &mut f32) -> u32;
    pub safe fn lax_track_progress(t: &LaxTrack, out: &mut f32) -> u32;
    pub safe fn lax_track_is_complete(t: &LaxTrack, out: &mut u32) -> u32;
    pub safe fn lax_track_reset(t: &mut LaxTrack) -> u32;
    pub safe fn lax_track_seek_to(t: &mut LaxTrack, progress: f32) -> u32;
    pub safe fn lax_track_update(t: &mut LaxTrack, step: f32, running: &mut u32) -> u32;

    pub fn lax_log_head(buffer: *mut u8, buffer_len: u64, written: &mut u64) -> u32;
    pub fn lax_log_record(buffer: *mut u8, buffer_len: u64, written: &mut u64, event: &LaxEvent) -> u32;
    pub fn lax_log_replay(
        t: &mut LaxTween,
        log: *const u8,
        log_len: u64,
        gaps: *mut u16,
        gaps_len: u64,
        reached: &mut LaxReplay,
    ) -> u32;
    pub fn lax_log_replay_on(
        t: &mut LaxTween,
        records: *const u8,
        records_len: u64,
        gaps: *mut u16,
        gaps_len: u64,
        reached: &mut LaxReplay,
    ) -> u32;
}
