//! Every call of a tween: ordinary, edge and refused input.
mod common;

use common::plain;
use laxombiit::{Easing, Loop, Ran, Refusal, Stopped, Tween, TweenState, Updated};

fn ramp(duration: f32, looping: Loop) -> Tween {
    Tween { duration, looping, ..Tween::new(10.0, 20.0) }
}

/// Breaks a limit: its duration is below 0.
fn broken() -> Tween {
    ramp(-1.0, Loop::Once)
}

#[test]
fn new() {
    let t = Tween::new(1.0, 3.0);
    assert_eq!((t.start, t.end, t.duration, t.delay, t.time_scale), (1.0, 3.0, 1.0, 0.0, 1.0));
    assert_eq!((t.easing, t.looping, t.state), (Easing::Linear, Loop::Once, TweenState::Running));
    assert_eq!(Tween::new(f32::NAN, 0.0).value(), Err(Refusal::RecordBreaksLimit));
}

#[test]
fn reads() {
    let mut t = ramp(4.0, Loop::Times(3));
    t.easing = Easing::EaseInQuad;
    t.elapsed = 2.0;
    assert_eq!(t.progress(), Ok(0.5));
    assert_eq!(t.eased_progress(), plain(0.25));
    assert_eq!(t.value(), plain(12.5));
    t.ping_pong_reverse = true;
    assert_eq!(t.value(), plain(17.5));
    assert_eq!(t.playback_duration(), Ok(12.0));
    assert_eq!(ramp(4.0, Loop::PingPong).playback_duration(), Ok(f32::INFINITY));
    let now = t.snapshot().unwrap();
    assert_eq!((now.elapsed, now.ping_pong_reverse, now.state), (2.0, true, TweenState::Running));
}

#[test]
fn reads_at_duration_0() {
    let t = ramp(0.0, Loop::Once);
    assert_eq!((t.value(), t.progress(), t.eased_progress()), (plain(20.0), Ok(1.0), plain(1.0)));
}

#[test]
fn reads_refuse() {
    let t = broken();
    assert_eq!(t.value(), Err(Refusal::RecordBreaksLimit));
    assert_eq!(t.progress(), Err(Refusal::RecordBreaksLimit));
    assert_eq!(t.eased_progress(), Err(Refusal::RecordBreaksLimit));
    assert_eq!(t.playback_duration(), Err(Refusal::RecordBreaksLimit));
    assert_eq!(t.snapshot(), Err(Refusal::RecordBreaksLimit));
}

#[test]
fn changes() {
    let mut t = ramp(4.0, Loop::Times(3));
    t.delay = 1.0;
    t.reset().unwrap();
    assert_eq!(t.state, TweenState::Idle);
    t.pause().unwrap();
    assert_eq!(t.state, TweenState::Idle);
    t.update(2.0).unwrap();
    assert_eq!((t.state, t.elapsed), (TweenState::Running, 1.0));
    t.pause().unwrap();
    assert_eq!(t.state, TweenState::Paused);
    assert_eq!(t.update(1.0), Ok(Updated { folds: 0, running: true }));
    t.resume().unwrap();
    assert_eq!((t.state, t.elapsed), (TweenState::Running, 1.0));
    t.reverse().unwrap();
    assert_eq!((t.start, t.end, t.elapsed), (20.0, 10.0, 3.0));
    t.seek(0.25).unwrap();
    assert_eq!(t.elapsed, 1.0);
    t.seek(7.0).unwrap();
    assert_eq!(t.elapsed, 4.0);
}

#[test]
fn changes_refuse_and_leave_the_tween() {
    let mut t = broken();
    assert_eq!(t.reset(), Err(Refusal::RecordBreaksLimit));
    assert_eq!(t.seek(f32::NAN), Err(Refusal::RecordBreaksLimit));
    assert_eq!(t.reverse(), Err(Refusal::RecordBreaksLimit));
    assert_eq!(t.pause(), Err(Refusal::RecordBreaksLimit));
    assert_eq!(t.resume(), Err(Refusal::RecordBreaksLimit));
    assert_eq!(t.update(f32::INFINITY), Err(Refusal::RecordBreaksLimit));
    assert_eq!(t, broken());
    let mut u = ramp(4.0, Loop::Once);
    assert_eq!(u.seek(f32::NAN), Err(Refusal::ProgressIsNan));
    u.easing = Easing::EaseInSine;
    assert_eq!(u.reset(), Err(Refusal::RecordBreaksLimit));
}

#[test]
fn update() {
    let mut t = Tween { duration: 3.0, delay: 2.0, looping: Loop::Times(4), ..Tween::new(0.0, 1.0) };
    t.reset().unwrap();
    let mut seen = Vec::new();
    for step in [3.0, 5.0, 100.0] {
        seen.push((t.update(step).unwrap().folds, t.elapsed));
    }
    assert_eq!(seen, [(0, 1.0), (2, 0.0), (2, 3.0)]);
    assert_eq!((t.state, t.loop_count), (TweenState::Completed, 4));
    assert_eq!(t.update(1.0), Ok(Updated { folds: 0, running: false }));
    for step in [f32::NAN, -1.0, -0.0] {
        let mut t = ramp(4.0, Loop::Once);
        assert_eq!(t.update(step), Ok(Updated { folds: 0, running: true }));
        assert_eq!(t, ramp(4.0, Loop::Once));
    }
    let mut t = ramp(0.0, Loop::Forever);
    assert_eq!(t.update(1.0), Ok(Updated { folds: 0, running: false }));
    assert_eq!(t.elapsed.to_bits(), 0);
}

#[test]
fn update_refuses() {
    let mut t = ramp(1.0, Loop::Forever);
    assert_eq!(t.update(f32::INFINITY), Err(Refusal::StepTooLong));
    assert_eq!(t.update(4097.0), Err(Refusal::TooManyFolds));
    assert_eq!(t.update(4096.0).map(|u| u.folds), Ok(4096));
    let mut t = ramp(16_777_216.0, Loop::Once);
    t.elapsed = 8_388_608.0;
    assert_eq!(t.update(0.25), Err(Refusal::StepLost));
    assert_eq!(t.elapsed, 8_388_608.0);
}

/// The elapsed that a step leaves to a Running tween of this duration and scale.
fn runs(duration: f32, time_scale: f32, elapsed: f32, step: f32) -> Result<f32, Refusal> {
    let mut t = Tween { time_scale, elapsed, ..ramp(duration, Loop::Once) };
    t.update(step).map(|_| t.elapsed)
}

#[test]
fn update_refuses_what_is_off_by_more_than_an_eighth() {
    let long = 16_777_216.0;
    // too slow, and too fast
    assert_eq!(runs(long, 1.0, 131_072.0, 0.02), Err(Refusal::StepLost));
    assert_eq!(runs(long, 1.0, 262_144.0, 0.02), Err(Refusal::StepLost));
    // what is added is the step times the scale: 0.04 and 0.125
    assert_eq!(runs(long, 2.0, 262_144.0, 0.02), Err(Refusal::StepLost));
    assert_eq!(runs(long, 6.25, 262_144.0, 0.02), Ok(262_144.125));
    assert_eq!(runs(long, 0.5, 65_536.0, 0.03125), Ok(65_536.015625));
    // a product that vanishes
    assert_eq!(runs(1.0, 0.5, 0.0, f32::from_bits(1)), Err(Refusal::StepLost));
    assert_eq!(runs(1.0, 1.0, 0.0, f32::from_bits(1)), Ok(f32::from_bits(1)));
    // no step, no scale, and an elapsed at its end
    assert_eq!(runs(long, 1.0, 262_144.0, 0.0), Ok(262_144.0));
    assert_eq!(runs(long, 0.0, 262_144.0, 0.02), Ok(262_144.0));
    assert_eq!(runs(262_144.0, 1.0, 262_144.0, 0.02), Ok(262_144.0));
    for (elapsed, step) in [(16_777_215, 1), (8_388_609, 8_388_607), (4_194_303, 1)] {
        assert_eq!(runs(long, 1.0, elapsed as f32, step as f32), Ok((elapsed + step) as f32));
    }
}

/// The delay is not scaled, and the step that ends it is judged by it alone.
#[test]
fn update_judges_an_idle_tween_by_its_delay() {
    let waits = |delay_elapsed: f32, time_scale: f32, step: f32| {
        let state = TweenState::Idle;
        let mut t = Tween { delay: 262_145.0, delay_elapsed, state, time_scale, ..ramp(4.0, Loop::Once) };
        t.update(step).map(|_| (t.delay_elapsed, t.elapsed, t.state))
    };
    for scale in [0.0, 1.0, 6.25] {
        assert_eq!(waits(131_072.0, scale, 0.02), Err(Refusal::StepLost));
        assert_eq!(waits(262_144.0, scale, 0.02), Err(Refusal::StepLost));
        assert_eq!(waits(262_144.0, scale, 0.0), Ok((262_144.0, 0.0, TweenState::Idle)));
        assert_eq!(waits(262_144.0, scale, 0.125), Ok((262_144.125, 0.0, TweenState::Idle)));
    }
    assert_eq!(waits(262_144.0, 0.5, 2.0), Ok((262_146.0, 0.5, TweenState::Running)));
    let mut t = Tween { delay: 1.0, elapsed: 50.0, state: TweenState::Idle, ..ramp(100.0, Loop::Once) };
    t.update(1.0 + f32::EPSILON).unwrap();
    assert_eq!((t.delay_elapsed, t.elapsed, t.state), (1.0 + f32::EPSILON, 50.0, TweenState::Running));
}

#[test]
fn run() {
    let mut t = ramp(4.0, Loop::Forever);
    let (mut values, mut folds) = ([-1.0; 5], [9; 5]);
    t.run(&[1.0, 2.0, 9.0], &mut values, &mut folds).unwrap();
    assert_eq!((values, folds), ([12.5, 17.5, 10.0, -1.0, -1.0], [0, 0, 3, 9, 9]));
    let mut u = ramp(4.0, Loop::Forever);
    for step in [1.0, 2.0, 9.0] {
        u.update(step).unwrap();
    }
    assert_eq!(t, u);
    assert_eq!(t.run(&[], &mut [], &mut []), Ok(Ran { unsettled: 0 }));
    assert_eq!(t, u);
}

#[test]
fn run_stops() {
    let mut t = ramp(4.0, Loop::Forever);
    let (mut values, mut folds) = ([-1.0; 3], [9; 3]);
    let stopped = t.run(&[1.0, f32::INFINITY, 1.0], &mut values, &mut folds);
    assert_eq!(stopped, Err(Stopped { place: 1, unsettled: 0, refusal: Refusal::StepTooLong }));
    assert_eq!((t.elapsed, values, folds), (1.0, [12.5, -1.0, -1.0], [0, 9, 9]));
    let mut u = ramp(4.0, Loop::Forever);
    let short = Err(Stopped { place: 0, unsettled: 0, refusal: Refusal::OutputTooShort });
    assert_eq!(u.run(&[1.0, 1.0], &mut [0.0], &mut [0, 0]), short);
    assert_eq!(u.run(&[1.0, 1.0], &mut [0.0, 0.0], &mut [0]), short);
    assert_eq!(u, ramp(4.0, Loop::Forever));
    let refused = Err(Stopped { place: 0, unsettled: 0, refusal: Refusal::RecordBreaksLimit });
    assert_eq!(broken().run(&[1.0, 1.0], &mut [0.0], &mut [0, 0]), refused);
}
