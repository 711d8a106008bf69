//! animato's calls, and a log's, which it has not. None is inlined where it is called, so that a call stays a call, as it does from C.
use crate::words::LaxEvent;
use oracle::{Easing, KeyframeTrack, Tween, Update};
use std::mem;

#[inline(never)]
pub fn apply(easing: &Easing, t: f32) -> f32 {
    easing.apply(t)
}

#[inline(never)]
pub fn value(tween: &Tween<f32>) -> f32 {
    tween.value()
}

#[inline(never)]
pub fn update(tween: &mut Tween<f32>, step: f32) -> bool {
    tween.update(step)
}

#[inline(never)]
pub fn value_at(track: &KeyframeTrack<f32>, secs: f32) -> Option<f32> {
    track.value_at(secs)
}

#[inline(never)]
pub fn track_update(track: &mut KeyframeTrack<f32>, step: f32) -> bool {
    track.update(step)
}

/// animato's push takes the track and hands it back.
#[inline(never)]
pub fn push(track: &mut KeyframeTrack<f32>, time: f32, value: f32) {
    *track = mem::take(track).push(time, value);
}

/// animato has no call for a run of steps.
pub fn run(tween: &mut Tween<f32>, steps: &[f32], values: &mut [f32]) {
    for (place, step) in values.iter_mut().zip(steps) {
        update(tween, *step);
        *place = value(tween);
    }
}

/// Nor has it one for many times.
pub fn values_at(track: &KeyframeTrack<f32>, times: &[f32], out: &mut [f32]) {
    for (place, time) in out.iter_mut().zip(times) {
        *place = value_at(track, *time).expect("the track has frames");
    }
}

#[inline(never)]
pub fn log_head(buffer: &mut [u8]) -> Option<usize> {
    buffer.get_mut(..5)?.copy_from_slice(b"PEL\x01\0");
    Some(5)
}

/// The same checks, as one would write them in Rust.
#[inline(never)]
pub fn log_record(buffer: &mut [u8], written: usize, event: LaxEvent) -> Option<usize> {
    let step = if event.kind == 1 { event.step } else { 0.0 };
    let log = buffer.get(..written)?;
    let number = match log.strip_prefix(b"PEL\x01\0")?.last_chunk::<8>() {
        Some(last) => u16::from_le_bytes([last[0], last[1]]).wrapping_add(1),
        None => 0,
    };
    if !(0.0..=16_777_216.0).contains(&step) || written % 8 != 5 {
        return None;
    }
    let record = buffer.get_mut(written..written + 8)?;
    record[..2].copy_from_slice(&number.to_le_bytes());
    record[2..4].copy_from_slice(&[event.kind as u8, 0]);
    record[4..].copy_from_slice(&(step + 0.0).to_le_bytes());
    Some(written + 8)
}

/// The same checks again; what is missing in all, or nothing where the log is refused.
#[inline(never)]
pub fn log_replay(tween: &mut Tween<f32>, log: &[u8], gaps: &mut [u16]) -> Option<u64> {
    let records = log.strip_prefix(b"PEL\x01\0")?;
    if records.len() % 8 != 0 || gaps.len() < records.len() / 8 {
        return None;
    }
    let (mut missing, mut last) = (0u64, None);
    for (record, place) in records.chunks_exact(8).zip(gaps) {
        let (number, kind, step) = log_entry(record)?;
        let gap = last.map_or(0, |last| number.wrapping_sub(last).wrapping_sub(1));
        *place = gap;
        if gap == u16::MAX {
            continue;
        }
        (missing, last) = (missing.saturating_add(gap.into()), Some(number));
        match kind {
            1 => {
                update(tween, step);
            }
            2 => tween.pause(),
            3 => tween.resume(),
            _ => tween.reset(),
        }
    }
    Some(missing)
}

fn log_entry(record: &[u8]) -> Option<(u16, u8, f32)> {
    let [low, high, kind, zero, bits @ ..] = *record.first_chunk::<8>()?;
    let step = f32::from_le_bytes(bits);
    let fits = match kind {
        1 => step.is_finite() && step.is_sign_positive(),
        2..=4 => step.to_bits() == 0,
        _ => false,
    };
    (fits && zero == 0).then_some((u16::from_le_bytes([low, high]), kind, step))
}
