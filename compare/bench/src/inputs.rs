//! The inputs, from a fixed seed: the same for both sides, and in every run.
use crate::ffi::{lax_tween_update, log_head, log_record};
use crate::meaning::easing_words;
use crate::rules::{FOREVER, RUNNING};
use crate::words::{LaxEvent, LaxKeyframe, LaxLoop, LaxTrack, LaxTween, UpdatedPlace};
use oracle::Easing;

/// So many different ones that no branch is learnt by heart; 8,000 times are, by some processors.
pub const MANY: usize = 100_000;

struct Chance(u64);

impl Chance {
    fn new() -> Self {
        Self(1)
    }

    /// Evenly from 0 to below 1, by splitmix64.
    fn part(&mut self) -> f32 {
        self.0 = self.0.wrapping_add(0x9e37_79b9_7f4a_7c15);
        let mut z = self.0;
        z = (z ^ (z >> 30)).wrapping_mul(0xbf58_476d_1ce4_e5b9);
        z = (z ^ (z >> 27)).wrapping_mul(0x94d0_49bb_1331_11eb);
        ((z ^ (z >> 31)) >> 40) as f32 / 16_777_216.0
    }
}

/// Numbers from 0 to below max.
pub fn below(max: f32, count: usize) -> Vec<f32> {
    let mut chance = Chance::new();
    (0..count).map(|_| chance.part() * max).collect()
}

/// A running tween in Forever, at scale 1 and without a delay.
pub fn tween(easing: &Easing, duration: f32, elapsed: f32) -> LaxTween {
    LaxTween {
        start: -20.0,
        end: 100.0,
        duration,
        easing: easing_words(easing),
        time_scale: 1.0,
        looping: LaxLoop { mode: FOREVER, passes: 0 },
        elapsed,
        state: RUNNING,
        ..LaxTween::default()
    }
}

/// A linear tween in a mode, and steps each of which folds it so many times. The first leaves it at 0.
pub fn stepping(mode: u32, folds: u32, count: usize) -> (LaxTween, Vec<f32>) {
    let duration = if folds == 0 { count as f32 } else { 1.0 };
    let looping = LaxLoop { mode, passes: 60_000 };
    let first = LaxTween { looping, ..tween(&Easing::Linear, duration, 0.0) };
    let (mut chance, mut moving) = (Chance::new(), first);
    let steps = (0..count).map(|_| {
        let step = match folds {
            0 => 0.25 + chance.part() / 2.0,
            _ => folds as f32 + 0.1 + 0.8 * chance.part() - moving.elapsed,
        };
        let mut out = UpdatedPlace::default();
        let number = lax_tween_update(&mut moving, step, &mut out);
        assert_eq!((number, out.folds), (0, folds), "step {step}");
        step
    });
    let steps = steps.collect();
    (first, steps)
}

/// A log of so many steps, below half a second each.
pub fn log(records: usize) -> Vec<u8> {
    let mut log = vec![0; 5 + 8 * records];
    let mut written = 0;
    log_head(&mut log, &mut written);
    for step in below(0.5, records) {
        log_record(&mut log, &mut written, &LaxEvent { kind: 1, step });
    }
    log
}

/// So many frames, about a second apart, the first at 0.
pub fn track(easing: &Easing, count: usize) -> LaxTrack {
    let mut chance = Chance::new();
    let mut track = LaxTrack { count: count as u32, ..LaxTrack::default() };
    for (place, frame) in track.frames[..count].iter_mut().enumerate() {
        let time = if place == 0 { 0.0 } else { place as f32 + chance.part() / 2.0 };
        *frame = LaxKeyframe::new(time, 200.0 * chance.part() - 100.0, easing_words(easing));
    }
    track
}
