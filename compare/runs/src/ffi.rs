//! The proved library's calls, as include/laxombiit.h declares them. They are declared here again,
//! since bindings/rust hides the words, and the runs have to see and to hand in every one.
use crate::words::*;

unsafe extern "C" {
    pub safe fn lax_easing_apply(e: &LaxEasing, t: f32, out: &mut FoundPlace) -> u32;
    pub safe fn lax_easing_eq(x: &LaxEasing, y: &LaxEasing, out: &mut u32) -> u32;
    pub safe fn lax_easing_is_supplied(e: &LaxEasing, out: &mut u32) -> u32;
    pub safe fn lax_easing_named(place: u32, out: &mut LaxEasing) -> u32;

    pub safe fn lax_tween_new(t: &mut LaxTween, start: f32, end: f32) -> u32;
    pub safe fn lax_tween_value(t: &LaxTween, out: &mut FoundPlace) -> u32;
    pub safe fn lax_tween_progress(t: &LaxTween, out: &mut f32) -> u32;
    pub safe fn lax_tween_eased_progress(t: &LaxTween, out: &mut FoundPlace) -> u32;
    pub safe fn lax_tween_snapshot(t: &LaxTween, out: &mut SnapshotPlace) -> u32;
    pub safe fn lax_tween_playback_duration(t: &LaxTween, out: &mut f32) -> u32;
    pub safe fn lax_tween_reset(t: &mut LaxTween) -> u32;
    pub safe fn lax_tween_seek(t: &mut LaxTween, progress: f32) -> u32;
    pub safe fn lax_tween_reverse(t: &mut LaxTween) -> u32;
    pub safe fn lax_tween_pause(t: &mut LaxTween) -> u32;
    pub safe fn lax_tween_resume(t: &mut LaxTween) -> u32;
    pub safe fn lax_tween_update(t: &mut LaxTween, step: f32, out: &mut UpdatedPlace) -> u32;
    fn lax_tween_run(
        t: &mut LaxTween,
        steps: *const f32,
        steps_len: u64,
        values: *mut f32,
        values_len: u64,
        folds: *mut u32,
        folds_len: u64,
        out: &mut CountedPlace,
    ) -> u32;

    pub safe fn lax_track_new(t: &mut LaxTrack) -> u32;
    pub safe fn lax_track_push(t: &mut LaxTrack, time: f32, value: f32) -> u32;
    pub safe fn lax_track_push_eased(t: &mut LaxTrack, time: f32, value: f32, e: &LaxEasing) -> u32;
    pub safe fn lax_track_push_frame(t: &mut LaxTrack, frame: &LaxKeyframe) -> u32;
    pub safe fn lax_track_looping(t: &mut LaxTrack, mode: &LaxLoop) -> u32;
    pub safe fn lax_track_value_at(t: &LaxTrack, secs: f32, out: &mut FoundPlace) -> u32;
    pub safe fn lax_track_value(t: &LaxTrack, out: &mut FoundPlace) -> u32;
    fn lax_track_values_at(
        t: &LaxTrack,
        times: *const f32,
        times_len: u64,
        out: *mut f32,
        out_len: u64,
        filled: &mut CountedPlace,
    ) -> u32;
    pub safe fn lax_track_update(t: &mut LaxTrack, step: f32, running: &mut u32) -> u32;
    pub safe fn lax_track_active_time(t: &LaxTrack, out: &mut f32) -> u32;
    pub safe fn lax_track_duration(t: &LaxTrack, out: &mut f32) -> u32;
    pub safe fn lax_track_playback_duration(t: &LaxTrack, out: &mut f32) -> u32;
    pub safe fn lax_track_progress(t: &LaxTrack, out: &mut f32) -> u32;
    pub safe fn lax_track_is_complete(t: &LaxTrack, out: &mut u32) -> u32;
    pub safe fn lax_track_reset(t: &mut LaxTrack) -> u32;
    pub safe fn lax_track_seek_to(t: &mut LaxTrack, progress: f32) -> u32;

    fn lax_log_head(buffer: *mut u8, buffer_len: u64, written: &mut u64) -> u32;
    fn lax_log_record(buffer: *mut u8, buffer_len: u64, written: &mut u64, event: &LaxEvent) -> u32;
    fn lax_log_replay(
        t: &mut LaxTween,
        log: *const u8,
        log_len: u64,
        gaps: *mut u16,
        gaps_len: u64,
        reached: &mut ReplayPlace,
    ) -> u32;
    fn lax_log_replay_on(
        t: &mut LaxTween,
        records: *const u8,
        records_len: u64,
        gaps: *mut u16,
        gaps_len: u64,
        reached: &mut ReplayPlace,
    ) -> u32;
}

pub fn tween_run(
    t: &mut LaxTween,
    steps: &[f32],
    values: &mut [f32],
    folds: &mut [u32],
    out: &mut CountedPlace,
) -> u32 {
    unsafe {
        lax_tween_run(
            t,
            steps.as_ptr(),
            steps.len() as u64,
            values.as_mut_ptr(),
            values.len() as u64,
            folds.as_mut_ptr(),
            folds.len() as u64,
            out,
        )
    }
}

pub fn track_values_at(t: &LaxTrack, times: &[f32], out: &mut [f32], filled: &mut CountedPlace) -> u32 {
    let (places, room) = (out.as_mut_ptr(), out.len() as u64);
    unsafe { lax_track_values_at(t, times.as_ptr(), times.len() as u64, places, room, filled) }
}

pub fn log_head(buffer: &mut [u8], written: &mut u64) -> u32 {
    unsafe { lax_log_head(buffer.as_mut_ptr(), buffer.len() as u64, written) }
}

pub fn log_record(buffer: &mut [u8], written: &mut u64, event: &LaxEvent) -> u32 {
    unsafe { lax_log_record(buffer.as_mut_ptr(), buffer.len() as u64, written, event) }
}

pub fn log_replay(t: &mut LaxTween, log: &[u8], gaps: &mut [u16], reached: &mut ReplayPlace) -> u32 {
    let (list, room) = (gaps.as_mut_ptr(), gaps.len() as u64);
    unsafe { lax_log_replay(t, log.as_ptr(), log.len() as u64, list, room, reached) }
}

pub fn log_replay_on(t: &mut LaxTween, records: &[u8], gaps: &mut [u16], reached: &mut ReplayPlace) -> u32 {
    let (list, room) = (gaps.as_mut_ptr(), gaps.len() as u64);
    unsafe { lax_log_replay_on(t, records.as_ptr(), records.len() as u64, list, room, reached) }
}
