//! What is right beside the wrong answers of docs/CONTRACTS.md, "Two wrong answers for each call", in its order.
mod common;

use common::plain;
use laxombiit::event_log::{replay, replay_on, write_head, write_record, Event};
use laxombiit::{Easing, Keyframe, Loop, Refusal, Stopped, Track, Tween, TweenState};

fn tween() -> Tween {
    Tween { duration: 2.0, ..Tween::new(10.0, 20.0) }
}

fn idle() -> Tween {
    Tween { delay: 2.0, state: TweenState::Idle, delay_elapsed: 1.0, ..tween() }
}

fn completed() -> Tween {
    Tween { elapsed: 2.0, state: TweenState::Completed, ..tween() }
}

/// The state that a call leaves.
fn left(mut t: Tween, call: impl Fn(&mut Tween) -> Result<(), Refusal>) -> TweenState {
    call(&mut t).unwrap();
    t.state
}

fn track(frames: &[(f32, f32)], looping: Loop, elapsed: f32) -> Track {
    let linear = |&(time, value): &(f32, f32)| Keyframe::new(time, value, Easing::Linear);
    let frames: Vec<Keyframe> = frames.iter().map(linear).collect();
    Track::from_parts(&frames, elapsed, looping, 3, false).unwrap()
}

fn ramp(looping: Loop, elapsed: f32) -> Track {
    track(&[(0.0, 0.0), (2.0, 8.0)], looping, elapsed)
}

fn refused<T>(answer: Result<T, Refusal>) -> Option<u32> {
    answer.err().map(Refusal::number)
}

#[test]
fn easings() {
    assert_eq!(Easing::EaseInQuad.apply(2.0), plain(1.0));
    assert_eq!(Easing::SlowMo { linear_ratio: 0.5, power: 1024.0 }.apply(0.5), plain(0.5));
    assert_eq!(refused(Easing::Linear.equals(&Easing::Wiggle { wiggles: 5 })), Some(2));
    assert_eq!(Easing::Steps(0).equals(&Easing::Steps(1)), Ok(false));
    assert!(!Easing::EaseInSine.is_supplied() && Easing::EaseOutCirc.is_supplied());
    let named = Easing::all_named();
    assert_eq!((named[20], named[32]), (Easing::EaseOutCirc, Easing::Steps(1)));
    assert_eq!((named[19], named[0]), (Easing::EaseInCirc, Easing::Linear));
    assert_eq!((Refusal::EasingNotSupplied.number(), Refusal::ProgressIsNan.number()), (2, 1));
}

#[test]
fn tweens_that_are_read() {
    let new = Tween::new(10.0, 20.0);
    assert_eq!((new.duration, new.state), (1.0, TweenState::Running));
    assert_eq!(Tween { elapsed: 2.0, ping_pong_reverse: true, ..tween() }.value(), plain(10.0));
    let instant = Tween { duration: 0.0, ..tween() };
    assert_eq!((instant.value(), instant.progress()), (plain(20.0), Ok(1.0)));
    let half = Tween { easing: Easing::EaseInQuad, elapsed: 1.0, ..tween() };
    assert_eq!((half.progress(), half.eased_progress()), (Ok(0.5), plain(0.25)));
    assert_eq!(Tween { ping_pong_reverse: true, ..half }.eased_progress(), plain(0.25));
    assert_eq!(idle().snapshot().unwrap().delay_elapsed, 1.0);
    assert_eq!(refused(Tween { duration: 1.0, elapsed: 2.0, ..tween() }.snapshot()), Some(4));
    assert_eq!(Tween { delay: 1.0, looping: Loop::Times(3), ..tween() }.playback_duration(), Ok(7.0));
    assert_eq!(Tween { looping: Loop::Forever, ..tween() }.playback_duration(), Ok(f32::INFINITY));
}

#[test]
fn tweens_that_change() {
    let mut counted = Tween { looping: Loop::Times(4), loop_count: 2, ..tween() };
    counted.reset().unwrap();
    assert_eq!(counted.loop_count, 0);
    assert_eq!(left(idle(), Tween::reset), TweenState::Idle);
    assert_eq!(left(completed(), |t| t.seek(0.5)), TweenState::Running);
    assert_eq!(refused(tween().seek(f32::NAN)), Some(1));
    let mut turned = Tween { elapsed: 0.5, ..tween() };
    turned.reverse().unwrap();
    assert_eq!(turned.elapsed, 1.5);
    assert_eq!(left(completed(), Tween::reverse), TweenState::Running);
    assert_eq!(left(idle(), Tween::pause), TweenState::Idle);
    assert_eq!(left(completed(), Tween::pause), TweenState::Completed);
    assert_eq!(left(idle(), Tween::resume), TweenState::Idle);
    assert_eq!(left(completed(), Tween::resume), TweenState::Completed);
    let mut endless = Tween { duration: 1.0, looping: Loop::Forever, ..tween() };
    assert_eq!(endless.update(0.5).unwrap().folds, 0);
    assert_eq!((endless.update(1.0).unwrap().folds, endless.loop_count), (1, 0));
    let mut doubled = Tween { duration: 16.0, time_scale: 2.0, elapsed: 1.0, ..tween() };
    assert_eq!((doubled.update(1.0).unwrap().folds, doubled.elapsed), (0, 3.0));
}

#[test]
fn runs_of_steps() {
    let (mut values, mut folds) = ([7.0; 2], [7; 3]);
    let stopped = tween().run(&[1.0, f32::INFINITY], &mut values, &mut folds);
    assert_eq!(stopped, Err(Stopped { place: 1, unsettled: 0, refusal: Refusal::StepTooLong }));
    let (mut values, mut folds) = ([7.0; 2], [7; 3]);
    let short = tween().run(&[1.0; 3], &mut values, &mut folds);
    assert_eq!(short.unwrap_err().refusal.number(), 12);
    assert_eq!((values, folds), ([7.0; 2], [7; 3]));
}

#[test]
fn pushes() {
    let new = Track::new();
    assert_eq!((new.loop_mode(), new.complete()), (Loop::Once, false));
    let mut t = ramp(Loop::Once, 0.0);
    t.push(2.0, 6.0).unwrap();
    assert_eq!(t.frames().len(), 2);
    let mut t = Track::new();
    assert!(t.push(-0.0, 1.0).unwrap().frames().next().unwrap().time.is_sign_positive());
    let times: Vec<(f32, f32)> = (37..101).map(|time| (time as f32, 0.0)).collect();
    assert_eq!(refused(track(&times, Loop::Times(1000), 0.0).push(20_000.0, 0.0)), Some(11));
    assert_eq!(refused(Track::new().push_eased(1.0, 0.0, Easing::Wiggle { wiggles: 5 })), Some(2));
    let mut far = track(&[(20_000.0, 0.0)], Loop::Once, 0.0);
    assert_eq!(refused(far.looping(Loop::Times(1000))), Some(11));
    let mut done = ramp(Loop::Once, 0.0);
    done.update(2.0).unwrap();
    assert!(done.complete() && !done.looping(Loop::Forever).unwrap().complete());
}

#[test]
fn samples() {
    let steep = track(&[(0.0, 16_777_216.0), (1.0, 0.1), (2.0, 0.0)], Loop::Once, 0.0);
    assert_eq!((steep.value_at(1.0), ramp(Loop::Once, 0.0).value_at(f32::NAN)), (plain(0.1), plain(0.0)));
    assert_eq!(ramp(Loop::Forever, 3.0).value(), plain(4.0));
    assert_eq!(refused(Track::new().value()), Some(10));
    let mut out = [7.0, 7.0];
    assert_eq!(ramp(Loop::Once, 0.0).values_at(&[1.0], &mut out).unwrap().values, [4.0]);
    assert_eq!(out, [4.0, 7.0]);
    assert_eq!(refused(Track::new().values_at(&[1.0], &mut out)), Some(10));
}

#[test]
fn clocks_of_tracks() {
    let mut short = track(&[(0.0, 0.0), (1.0, 8.0)], Loop::Once, 0.0);
    short.update(3.5).unwrap();
    assert_eq!(short.loop_count(), 3);
    let mut late = track(&[(0.0, 0.0), (1.0, 8.0)], Loop::Once, 2.0);
    assert_eq!(late.update(16_777_216.0), Ok(false));
    let mut fast = track(&[(0.0, 0.0), (1.0, 8.0)], Loop::Forever, 262_144.0);
    assert_eq!((refused(fast.update(0.02)), fast.elapsed()), (Some(6), 262_144.0));
    assert_eq!(ramp(Loop::PingPong, 3.5).active_time(), Ok(0.5));
    assert_eq!(ramp(Loop::Forever, 3.0).active_time(), Ok(1.0));
    assert_eq!(ramp(Loop::Times(3), 0.0).duration(), Ok(2.0));
    assert_eq!(Track::new().duration(), Ok(0.0));
    assert_eq!(ramp(Loop::Times(3), 0.0).playback_duration(), Ok(6.0));
    assert_eq!(track(&[(0.0, 1.0)], Loop::Forever, 0.0).playback_duration(), Ok(0.0));
    assert_eq!(ramp(Loop::Times(2), 3.0).progress(), Ok(0.75));
    assert_eq!(Track::new().progress(), Ok(1.0));
    assert_eq!(track(&[(1.0, 1.0)], Loop::Once, 0.0).is_complete(), Ok(true));
    assert_eq!(ramp(Loop::Once, 2.0).is_complete(), Ok(false));
    short.reset().unwrap();
    assert_eq!((short.loop_count(), short.complete()), (0, false));
    let mut endless = ramp(Loop::Forever, 0.0);
    endless.seek_to(1.0).unwrap();
    assert!(!endless.complete());
    let mut twice = ramp(Loop::Times(2), 0.0);
    twice.seek_to(0.5).unwrap();
    assert_eq!(twice.elapsed(), 2.0);
}

#[test]
fn logs() {
    let mut buffer = [7; 13];
    assert_eq!((write_head(&mut buffer[..4]), buffer), (Err(Refusal::NoRoom), [7; 13]));
    assert_eq!((write_head(&mut buffer), &buffer[..5]), (Ok(5), b"PEL\x01\0".as_slice()));
    assert_eq!(write_record(&mut buffer, 0, Event::Pause), Err(Refusal::WrongMark));
    let mut last = *b"PEL\x01\0\xff\xff\x02\0\0\0\0\0........";
    assert_eq!(write_record(&mut last, 13, Event::Pause), Ok(21));
    assert_eq!(last[13..], [0, 0, 2, 0, 0, 0, 0, 0]);
}

#[test]
fn replays() {
    let endless = Tween { duration: 1.0, looping: Loop::Forever, ..tween() };
    let mut log = *b"PEL\x01\0\0\0\x01\0\0\0\x80\x3f\x01\x02\x01\0\0\0\x80\x3f";
    let mut gaps = [7; 2];
    let reached = replay(endless, &log, &mut gaps).unwrap();
    assert_eq!((gaps, reached.missing, reached.folds), ([0, 512], 512, 2));
    let begun = replay(endless, &log[..13], &mut gaps).unwrap();
    assert_eq!((replay_on(begun, &log[13..], &mut gaps), gaps), (Ok(reached), [512, 512]));
    let cut = replay_on(begun, &log[13..20], &mut gaps).unwrap_err();
    assert_eq!((cut.refusal, cut.reached), (Refusal::WrongLength, begun));
    log[13..15].fill(0);
    let reached = replay(endless, &log, &mut gaps).unwrap();
    assert_eq!((gaps, reached.missing, reached.folds), ([0, 65_535], 0, 1));
}
