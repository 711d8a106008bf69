//! Every call of a track: ordinary, edge and refused input.
mod common;

use common::plain;
use laxombiit::{Easing, Keyframe, Loop, Refusal, Track};

const LIMIT: f32 = 16_777_216.0;
/// The next f32.
const BEYOND: f32 = 16_777_218.0;

fn linear(time: f32, value: f32) -> Keyframe {
    Keyframe::new(time, value, Easing::Linear)
}

/// (0, 0) and (2, 8), with this on the clock.
fn pair(looping: Loop, elapsed: f32) -> Track {
    Track::from_parts(&[linear(0.0, 0.0), linear(2.0, 8.0)], elapsed, looping, 0, false).unwrap()
}

/// A frame each second from 0 on, each 10 above the one before.
fn ladder(count: u32) -> Vec<Keyframe> {
    (0..count).map(|k| linear(k as f32, 10.0 * k as f32)).collect()
}

fn clock(t: &Track) -> (f32, u32, bool) {
    (t.elapsed(), t.loop_count(), t.complete())
}

#[test]
fn new() {
    let t = Track::new();
    assert_eq!((t.frames().len(), t.loop_mode(), clock(&t)), (0, Loop::Once, (0.0, 0, false)));
    assert_eq!(t, Track::default());
    assert_eq!(t, Track::from_parts(&[], 0.0, Loop::Once, 0, false).unwrap());
}

#[test]
fn push() {
    let mut t = Track::new();
    t.push(2.0, 8.0).unwrap().push(-0.0, 0.0).unwrap();
    assert_eq!(t, pair(Loop::Once, 0.0));
    assert!(t.frames().next().unwrap().time.is_sign_positive());
    assert_eq!(t.value_at(1.0), plain(4.0));
    t.push(2.0, 6.0).unwrap();
    assert_eq!(t.frames().collect::<Vec<_>>(), [linear(0.0, 0.0), linear(2.0, 6.0)]);
    t.push_eased(0.0, 0.0, Easing::EaseInQuad).unwrap();
    assert_eq!(t.value_at(1.0), plain(1.5));
    t.push_eased(0.0, 0.0, Easing::Steps(4)).unwrap();
    assert_eq!(t.value_at(0.25), plain(1.5));
    assert_eq!(t.frames().map(|k| k.easing).collect::<Vec<_>>(), [Easing::Steps(4), Easing::Linear]);
}

/// A frame is pushed as its parts are, and refused as they are.
#[test]
fn push_frame() {
    let full = Track::from_parts(&ladder(64), 0.0, Loop::Once, 0, false).unwrap();
    let cases = [
        (pair(Loop::Once, 0.0), Keyframe::new(1.0, 5.0, Easing::Steps(4)), None),
        (pair(Loop::Once, 0.0), Keyframe::new(2.0, 5.0, Easing::CubicBezier(0.25, 0.1, 0.25, 1.0)), None),
        (pair(Loop::Once, 0.0), linear(-0.0, 5.0), None),
        (full.clone(), linear(63.0, -1.0), None),
        (pair(Loop::Once, -1.0), Keyframe::new(f32::NAN, 5.0, Easing::EaseInSine), Some(Refusal::RecordBreaksLimit)),
        (pair(Loop::Once, 0.0), Keyframe::new(f32::NAN, 5.0, Easing::EaseInSine), Some(Refusal::EasingNotSupplied)),
        (pair(Loop::Once, 0.0), Keyframe::new(f32::NAN, 5.0, Easing::Steps(65_537)), Some(Refusal::EasingParameter)),
        (pair(Loop::Once, 0.0), linear(f32::NAN, 5.0), Some(Refusal::TrackLimit)),
        (pair(Loop::Times(65_535), 0.0), linear(257.0, 5.0), Some(Refusal::TrackLimit)),
        (full, linear(31.5, 0.0), Some(Refusal::TrackFull)),
    ];
    for (before, k, refusal) in cases {
        let (mut whole, mut parts) = (before.clone(), before.clone());
        assert_eq!(whole.push_frame(k).err(), refusal, "{k:?}");
        assert_eq!(parts.push_eased(k.time, k.value, k.easing).err(), refusal, "{k:?}");
        assert_eq!((&whole, refusal.is_some()), (&parts, whole == before), "{k:?}");
        assert!(refusal.is_some() || whole.frames().any(|f| f == k), "{k:?}");
        assert!(whole.frames().all(|f| f.time.is_sign_positive()), "{k:?}");
    }
}

#[test]
fn push_and_looping_clear_completion_alone() {
    let frames = [linear(0.0, 0.0), linear(2.0, 8.0)];
    let done = Track::from_parts(&frames, 1.5, Loop::Once, 7, true).unwrap();
    let mut t = done.clone();
    t.push(1.0, 1.0).unwrap();
    assert_eq!(clock(&t), (1.5, 7, false));
    let mut t = done.clone();
    t.looping(Loop::Times(3)).unwrap();
    assert_eq!((t.loop_mode(), clock(&t)), (Loop::Times(3), (1.5, 7, false)));
}

#[test]
fn push_until_full() {
    let mut t = Track::new();
    for k in (0..64).map(|k| 37 * k % 64) {
        t.push(k as f32, 10.0 * k as f32).unwrap();
    }
    assert_eq!(t, Track::from_parts(&ladder(64), 0.0, Loop::Once, 0, false).unwrap());
    for k in 0..126 {
        assert_eq!(t.value_at(0.5 * k as f32), plain(5.0 * k as f32));
    }
    let before = t.clone();
    assert_eq!(t.push(31.5, 0.0).err(), Some(Refusal::TrackFull));
    assert_eq!(t.push_eased(64.0, 0.0, Easing::EaseInQuad).err(), Some(Refusal::TrackFull));
    assert_eq!(t, before);
    t.push(63.0, -1.0).unwrap();
    assert_eq!((t.frames().len(), t.frames().last()), (64, Some(linear(63.0, -1.0))));
    t.looping(Loop::Times(1000)).unwrap();
    assert_eq!(t.push(20_000.0, 0.0).err(), Some(Refusal::TrackLimit));
    assert_eq!(t.push(100.0, 0.0).err(), Some(Refusal::TrackFull));
}

#[test]
fn push_refuses_and_leaves_the_track() {
    let mut t = pair(Loop::Once, 0.0);
    for time in [f32::NAN, f32::INFINITY, f32::NEG_INFINITY, -1.0, BEYOND] {
        assert_eq!(t.push(time, 1.0).err(), Some(Refusal::TrackLimit));
        assert_eq!(t.push_eased(time, 1.0, Easing::EaseInQuad).err(), Some(Refusal::TrackLimit));
    }
    for value in [f32::NAN, f32::INFINITY, f32::NEG_INFINITY, BEYOND, -BEYOND] {
        assert_eq!(t.push(1.0, value).err(), Some(Refusal::TrackLimit));
        assert_eq!(t.push_eased(1.0, value, Easing::EaseInQuad).err(), Some(Refusal::TrackLimit));
    }
    assert_eq!(t.push_eased(f32::NAN, 1.0, Easing::EaseInSine).err(), Some(Refusal::EasingNotSupplied));
    assert_eq!(t.push_eased(f32::NAN, 1.0, Easing::Steps(65_537)).err(), Some(Refusal::EasingParameter));
    assert_eq!(t, pair(Loop::Once, 0.0));
    assert!(t.push(LIMIT, -LIMIT).is_ok());
}

#[test]
fn looping_refuses_and_leaves_the_track() {
    let mut t = pair(Loop::Forever, 0.0);
    t.push(257.0, 0.0).unwrap();
    let before = t.clone();
    assert_eq!(t.looping(Loop::Times(65_536)).err(), Some(Refusal::TrackLimit));
    assert_eq!(t.looping(Loop::PingPongTimes(65_282)).err(), Some(Refusal::TrackLimit));
    assert_eq!(t, before);
    // 16,777,217, which rounds to the limit
    assert!(t.looping(Loop::PingPongTimes(65_281)).is_ok());
    assert_eq!(t.push(258.0, 0.0).err(), Some(Refusal::TrackLimit));
}

#[test]
fn value_at() {
    let t = pair(Loop::Once, 1.0);
    for (secs, value) in [(1.0, 4.0), (2.0, 8.0), (f32::INFINITY, 8.0), (f32::NAN, 0.0), (-0.0, 0.0), (-1.0, 0.0)] {
        assert_eq!(t.value_at(secs), plain(value));
    }
    assert_eq!(t.value(), plain(4.0));
    // a frame's own time is the start of its interval: 1e7 + (0.1 - 1e7) would be 0
    let steep = [linear(0.0, 1e7), linear(1.0, 0.1), linear(2.0, 8.0)];
    assert_eq!(Track::from_parts(&steep, 0.0, Loop::Once, 0, false).unwrap().value_at(1.0), plain(0.1));
    let one = Track::from_parts(&[linear(5.0, 3.0)], 0.0, Loop::Once, 0, false).unwrap();
    assert_eq!((one.value_at(0.0), one.value_at(9.0), one.value()), (plain(3.0), plain(3.0), plain(3.0)));
    assert_eq!(Track::new().value_at(0.0), Err(Refusal::NoFrames));
    assert_eq!(Track::new().value(), Err(Refusal::NoFrames));
}

#[test]
fn values_at() {
    let t = pair(Loop::Once, 0.0);
    let times = [1.0, f32::NAN, f32::INFINITY];
    let mut out = [-1.0; 5];
    assert_eq!(t.values_at(&times, &mut out[..2]), Err(Refusal::OutputTooShort));
    assert_eq!(Track::new().values_at(&times, &mut out[..2]), Err(Refusal::NoFrames));
    assert_eq!(Track::new().values_at(&[], &mut []), Err(Refusal::NoFrames));
    assert_eq!(pair(Loop::Once, -1.0).values_at(&times, &mut out), Err(Refusal::RecordBreaksLimit));
    assert_eq!(t.values_at(&[], &mut out).unwrap().values, []);
    assert_eq!(out, [-1.0; 5]);
    assert_eq!(t.values_at(&times, &mut out).unwrap().values, [4.0, 0.0, 8.0]);
    assert_eq!(out, [4.0, 0.0, 8.0, -1.0, -1.0]);
    assert_eq!(t.values_at(&times, &mut out[..3]).unwrap().values.len(), 3);
}

#[test]
fn reads() {
    let t = pair(Loop::Times(3), 5.0);
    assert_eq!((t.duration(), t.playback_duration()), (Ok(2.0), Ok(6.0)));
    assert_eq!((t.active_time(), t.progress(), t.value()), (Ok(1.0), Ok(5.0 / 6.0), plain(4.0)));
    assert_eq!(t.is_complete(), Ok(false));
    let t = pair(Loop::PingPong, 3.5);
    assert_eq!((t.active_time(), t.progress()), (Ok(0.5), Ok(0.25)));
    assert_eq!(t.playback_duration(), Ok(f32::INFINITY));
    assert_eq!(pair(Loop::PingPongTimes(2), 3.5).active_time(), Ok(0.5));
    assert_eq!(pair(Loop::Forever, 3.5).active_time(), Ok(1.5));
    let t = pair(Loop::Once, 3.5);
    assert_eq!((t.active_time(), t.progress()), (Ok(2.0), Ok(1.0)));
}

#[test]
fn reads_without_frames() {
    for looping in [Loop::Once, Loop::Forever] {
        let mut t = Track::new();
        t.looping(looping).unwrap();
        assert_eq!((t.duration(), t.playback_duration(), t.active_time()), (Ok(0.0), Ok(0.0), Ok(0.0)));
        assert_eq!((t.progress(), t.is_complete()), (Ok(1.0), Ok(true)));
    }
}

#[test]
fn update() {
    let mut t = pair(Loop::Times(3), 0.0);
    assert_eq!((t.update(5.0), clock(&t)), (Ok(true), (5.0, 2, false)));
    assert_eq!((t.update(LIMIT), clock(&t)), (Ok(false), (6.0, 3, true)));
    assert_eq!((t.active_time(), t.is_complete()), (Ok(2.0), Ok(true)));
    assert_eq!((t.update(1.0), clock(&t)), (Ok(false), (6.0, 3, true)));
    let mut t = pair(Loop::PingPongTimes(0), 0.0);
    assert_eq!((t.update(2.0), clock(&t)), (Ok(false), (2.0, 1, true)));
    let mut t = pair(Loop::PingPongTimes(2), 0.0);
    assert_eq!((t.update(4.0), clock(&t), t.value()), (Ok(false), (4.0, 2, true), plain(0.0)));
    for step in [f32::NAN, -1.0, -0.0] {
        let mut t = pair(Loop::Once, 0.0);
        assert_eq!((t.update(step), clock(&t)), (Ok(true), (0.0, 0, false)));
    }
    let mut few = Track::new();
    few.push(1.0, 3.0).unwrap();
    assert_eq!((few.update(1.0), clock(&few)), (Ok(false), (0.0, 0, false)));
}

#[test]
fn update_counts_before_the_cut() {
    let mut t = Track::new();
    t.push(0.0, 0.0).unwrap().push(1.0, 1.0).unwrap();
    assert_eq!((t.update(3.5), clock(&t)), (Ok(false), (1.0, 3, true)));
}

#[test]
fn update_refuses_and_leaves_the_track() {
    let refused = |elapsed, looping, step, refusal| {
        let mut t = pair(looping, elapsed);
        assert_eq!(t.update(step), Err(refusal));
        assert_eq!(t, pair(looping, elapsed));
    };
    refused(524_288.0, Loop::Forever, 0.02, Refusal::StepLost);
    refused(65_536.0, Loop::Forever, 0.02, Refusal::StepLost);
    refused(LIMIT, Loop::Forever, 1.0, Refusal::StepLost);
    // it would count as 5, and pass the limit: 6 comes before 8
    refused(LIMIT - 1.0, Loop::Forever, 4.0, Refusal::StepLost);
    refused(LIMIT, Loop::Forever, 2.0, Refusal::ElapsedTooLong);
    refused(LIMIT, Loop::PingPong, 2.0, Refusal::ElapsedTooLong);
    refused(0.0, Loop::Once, BEYOND, Refusal::StepTooLong);
    assert_eq!(Track::new().update(f32::INFINITY), Err(Refusal::StepTooLong));
}

/// Too slow, as 0.015625, and too fast, as 0.03125; in every mode, at the total and beyond it too.
#[test]
fn update_refuses_what_is_off_by_more_than_an_eighth() {
    for looping in [Loop::Once, Loop::Times(3), Loop::Forever, Loop::PingPong, Loop::PingPongTimes(3)] {
        for elapsed in [131_072.0, 262_144.0] {
            let mut t = pair(looping, elapsed);
            assert_eq!((t.update(0.02), t), (Err(Refusal::StepLost), pair(looping, elapsed)));
        }
    }
    let mut done = pair(Loop::Once, 2.0);
    assert_eq!(done.update(1e-9), Err(Refusal::StepLost));
    assert_eq!((done.update(0.0), done.update(1e-9), done.complete()), (Ok(false), Ok(false), true));
    let mut few = Track::from_parts(&[linear(1.0, 3.0)], 262_144.0, Loop::Forever, 0, false).unwrap();
    assert_eq!(few.update(0.02), Ok(false));
}

#[test]
fn update_takes_what_is_off_by_an_eighth() {
    let grown = |elapsed: f32, step: f32| {
        let mut t = pair(Loop::Forever, elapsed);
        t.update(step).map(|_| t.elapsed() - elapsed)
    };
    // 8 as 9, up to where the distance doubles
    assert_eq!(grown(65_536.0 - 1.0 / 256.0, 8.0 / 256.0), Ok(9.0 / 256.0));
    // 4 and a half as 4 and as 5, which is off by a ninth; 3 and a half would be off by a seventh
    let (even, odd) = (8_388_608.0, 8_388_609.0);
    assert_eq!((grown(even, 4.5), grown(odd, 4.5)), (Ok(4.0), Ok(5.0)));
    assert_eq!((grown(even, 3.5), grown(odd, 3.5)), (Err(Refusal::StepLost), Err(Refusal::StepLost)));
    // an eighth of 5 of the least number is 1 of them, rounded
    assert_eq!(grown(f32::from_bits(0x0100_0001), f32::from_bits(5)), Ok(f32::from_bits(6)));
}

#[test]
fn whole_steps_are_never_lost() {
    for (elapsed, step) in
        [(16_777_215, 1), (8_388_609, 8_388_607), (1, 16_777_215), (4_194_303, 1), (LIMIT as u32, 0)]
    {
        let mut t = pair(Loop::Forever, elapsed as f32);
        assert_eq!((t.update(step as f32), t.elapsed()), (Ok(true), (elapsed + step) as f32));
    }
}

#[test]
fn reset_and_seek_to() {
    let mut t = pair(Loop::Times(3), 5.0);
    t.update(1.0).unwrap();
    t.reset().unwrap();
    assert_eq!(clock(&t), (0.0, 0, false));
    for (progress, elapsed, loop_count) in [(0.5, 3.0, 1), (1.0, 6.0, 3), (7.0, 6.0, 3), (-1.0, 0.0, 0)] {
        t.seek_to(progress).unwrap();
        assert_eq!(clock(&t), (elapsed, loop_count, progress >= 1.0));
    }
    assert_eq!(t.seek_to(f32::NAN), Err(Refusal::ProgressIsNan));
    let mut t = pair(Loop::PingPong, 0.0);
    t.seek_to(1.0).unwrap();
    assert_eq!(clock(&t), (2.0, 1, false));
    let mut none = Track::new();
    none.seek_to(0.5).unwrap();
    assert_eq!(clock(&none), (0.0, 0, true));
}

/// Each breaks one limit.
fn broken() -> [Track; 12] {
    let records: [([Keyframe; 2], f32, Loop); 12] = [
        ([linear(0.0, 0.0), linear(0.0, 1.0)], 0.0, Loop::Once),
        ([linear(2.0, 0.0), linear(1.0, 1.0)], 0.0, Loop::Once),
        ([linear(-0.0, 0.0), linear(1.0, 1.0)], 0.0, Loop::Once),
        ([linear(0.0, 0.0), linear(f32::NAN, 1.0)], 0.0, Loop::Once),
        ([linear(0.0, 0.0), linear(BEYOND, 1.0)], 0.0, Loop::Forever),
        ([linear(0.0, 0.0), linear(LIMIT, 1.0)], 0.0, Loop::Times(2)),
        ([linear(0.0, f32::NAN), linear(1.0, 1.0)], 0.0, Loop::Once),
        ([linear(0.0, 0.0), linear(1.0, -BEYOND)], 0.0, Loop::Once),
        ([linear(0.0, 0.0), Keyframe::new(1.0, 1.0, Easing::EaseInSine)], 0.0, Loop::Once),
        ([linear(0.0, 0.0), Keyframe::new(1.0, 1.0, Easing::Steps(65_537))], 0.0, Loop::Once),
        ([linear(0.0, 0.0), linear(1.0, 1.0)], -1.0, Loop::Once),
        ([linear(0.0, 0.0), linear(1.0, 1.0)], 0.0, Loop::PingPongTimes(65_536)),
    ];
    records.map(|(frames, elapsed, mode)| Track::from_parts(&frames, elapsed, mode, 0, false).unwrap())
}

#[test]
fn a_record_beyond_its_limits_is_refused_by_every_call() {
    let four = Refusal::RecordBreaksLimit;
    for mut t in broken() {
        let before = format!("{t:?}");
        assert_eq!(t.push(f32::NAN, 0.0).err(), Some(four));
        assert_eq!(t.push_eased(0.0, 0.0, Easing::EaseInSine).err(), Some(four));
        assert_eq!(t.push_frame(linear(f32::NAN, 0.0)).err(), Some(four));
        assert_eq!(t.looping(Loop::Times(65_536)).err(), Some(four));
        assert_eq!((t.value_at(1.0), t.value()), (Err(four), Err(four)));
        assert_eq!(t.values_at(&[1.0], &mut []), Err(four));
        assert_eq!((t.active_time(), t.duration()), (Err(four), Err(four)));
        assert_eq!((t.playback_duration(), t.progress()), (Err(four), Err(four)));
        assert_eq!(t.is_complete(), Err(four));
        assert_eq!((t.reset(), t.seek_to(f32::NAN)), (Err(four), Err(four)));
        assert_eq!(t.update(f32::INFINITY), Err(four));
        assert_eq!(format!("{t:?}"), before);
    }
}

#[test]
fn from_parts_has_room_for_64() {
    let t = Track::from_parts(&ladder(64), 0.0, Loop::Once, u32::MAX, true).unwrap();
    assert_eq!((t.frames().len(), Track::FRAMES, clock(&t)), (64, 64, (0.0, u32::MAX, true)));
    assert_eq!(t.frames().collect::<Vec<_>>(), ladder(64));
    let long = Track::from_parts(&ladder(65), 0.0, Loop::Once, 0, false);
    assert_eq!(long.err(), Some(Refusal::RecordBreaksLimit));
}

#[test]
fn equality_is_of_the_parts() {
    let t = pair(Loop::Once, 0.0);
    let frames: Vec<_> = t.frames().collect();
    let with = |elapsed, looping, loop_count, complete| {
        Track::from_parts(&frames, elapsed, looping, loop_count, complete).unwrap()
    };
    assert_eq!(t, with(0.0, Loop::Once, 0, false));
    assert_ne!(t, with(1.0, Loop::Once, 0, false));
    assert_ne!(t, with(0.0, Loop::Times(1), 0, false));
    assert_ne!(t, with(0.0, Loop::Once, 1, false));
    assert_ne!(t, with(0.0, Loop::Once, 0, true));
    assert_ne!(t, Track::from_parts(&frames[..1], 0.0, Loop::Once, 0, false).unwrap());
}
