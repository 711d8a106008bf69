//! Whether the Bezier curve's search settled, what it evaluated, and who hands that on.
mod common;

use common::plain;
use laxombiit::{Easing, Filled, Found, Keyframe, Loop, Ran, Refusal, Stopped, Track, Tween};

/// Upright in its middle.
const STEEP: Easing = Easing::CubicBezier(1.0, 0.0, 0.0, 1.0);
/// Its place in time where ten bisections do not suffice.
const LOST: f32 = 0.45;

fn searched(value: f32, settled: bool, xs: u32, derivatives: u32) -> Result<Found, Refusal> {
    Ok(Found { value, settled, xs, derivatives })
}

/// 0 to 100 in a second.
fn ramp(elapsed: f32) -> Tween {
    Tween { easing: STEEP, looping: Loop::Forever, elapsed, ..Tween::new(0.0, 100.0) }
}

/// 0 to 100 in a second, then on to 200 along another curve.
fn track(elapsed: f32) -> Track {
    let frames = [
        Keyframe::new(0.0, 0.0, STEEP),
        Keyframe::new(1.0, 100.0, Easing::EaseInQuad),
        Keyframe::new(2.0, 200.0, STEEP),
    ];
    Track::from_parts(&frames, elapsed, Loop::Once, 0, false).unwrap()
}

#[test]
fn searches() {
    let ease = Easing::CubicBezier(0.25, 0.1, 0.25, 1.0);
    assert_eq!(ease.apply(0.5), searched(f32::from_bits(0x3f4d_6a4f), true, 5, 4));
    assert_eq!(LOST.to_bits(), 0x3ee6_6666);
    assert_eq!(STEEP.apply(LOST), searched(f32::from_bits(0x3e34_c5b3), false, 16, 6));
    assert_eq!(Easing::CubicBezier(0.0, 0.0, 1.0, 1.0).apply(0.5), searched(0.5, true, 1, 0));
}

#[test]
fn without_a_search() {
    for easing in Easing::all_named().iter().filter(|e| e.is_supplied()).chain([&STEEP]) {
        assert_eq!((easing.apply(0.0), easing.apply(1.0)), (plain(0.0), plain(1.0)), "{easing:?}");
        assert_eq!((easing.apply(-0.0), easing.apply(7.0)), (plain(0.0), plain(1.0)), "{easing:?}");
        let Found { settled, xs, derivatives, .. } = easing.apply(LOST).unwrap();
        let searches = matches!(easing, Easing::CubicBezier(..));
        assert!(searches || (settled, xs, derivatives) == (true, 0, 0), "{easing:?}");
    }
    assert_eq!(Easing::EaseInQuad.apply(0.5), plain(0.25));
}

/// The steep curve's y where its x is t, by a bisection in f64.
fn exact(t: f32) -> f64 {
    let (mut low, mut high) = (0.0, 1.0);
    for _ in 0..60 {
        let u: f64 = (low + high) / 2.0;
        let x = ((4.0 * u - 6.0) * u + 3.0) * u;
        (low, high) = if x < f64::from(t) { (u, high) } else { (low, u) };
    }
    (3.0 - 2.0 * low) * low * low
}

#[test]
fn settled_is_no_bound_on_the_value() {
    let t = 0.5000134;
    let found = STEEP.apply(t).unwrap();
    let off = (f64::from(found.value) - exact(t)).abs();
    assert!(found.settled && (4.5e-4..4.7e-4).contains(&off), "{found:?} is off by {off}");
}

#[test]
fn tweens() {
    assert_eq!(ramp(LOST).eased_progress(), STEEP.apply(LOST));
    assert_eq!(ramp(LOST).value(), searched(17.653542, false, 16, 6));
    assert_eq!(Tween { ping_pong_reverse: true, ..ramp(LOST) }.value(), searched(82.34646, false, 16, 6));
    assert_eq!((ramp(0.0).value(), ramp(1.0).value()), (plain(0.0), plain(100.0)));
    let instant = Tween { duration: 0.0, ..ramp(0.0) };
    assert_eq!((instant.value(), instant.eased_progress()), (plain(100.0), plain(1.0)));
}

#[test]
fn runs() {
    let (mut values, mut folds) = ([0.0; 4], [0; 4]);
    let steps = [LOST, 0.55, LOST, 0.05];
    let mut one = ramp(0.0);
    let settled = steps.map(|step| one.update(step).and_then(|_| one.value()).unwrap().settled);
    assert_eq!(settled, [false, true, false, true]);
    assert_eq!(ramp(0.0).run(&steps, &mut values, &mut folds), Ok(Ran { unsettled: 2 }));
    assert_eq!(ramp(LOST).run(&steps[1..2], &mut values, &mut folds), Ok(Ran { unsettled: 0 }));
    let stopped = ramp(0.0).run(&[LOST, f32::INFINITY, LOST], &mut values, &mut folds);
    assert_eq!(stopped, Err(Stopped { place: 1, unsettled: 1, refusal: Refusal::StepTooLong }));
    let short = ramp(0.0).run(&[LOST], &mut [], &mut folds);
    assert_eq!(short, Err(Stopped { place: 0, unsettled: 0, refusal: Refusal::OutputTooShort }));
}

#[test]
fn tracks() {
    assert_eq!(track(0.0).value_at(LOST), searched(17.653542, false, 16, 6));
    assert_eq!(track(LOST).value(), track(0.0).value_at(LOST));
    for (secs, value) in [(0.0, 0.0), (f32::NAN, 0.0), (1.0, 100.0), (1.5, 125.0), (2.0, 200.0), (9.0, 200.0)]
    {
        assert_eq!(track(0.0).value_at(secs), plain(value));
    }
    let one = Track::from_parts(&[Keyframe::new(1.0, 3.0, STEEP)], 0.0, Loop::Once, 0, false);
    assert_eq!(one.unwrap().value_at(LOST), plain(3.0));
}

#[test]
fn batches() {
    let mut out = [-1.0; 6];
    let times = [LOST, 1.5, 0.0, LOST, 9.0];
    let one_by_one = times.iter().filter(|secs| !track(0.0).value_at(**secs).unwrap().settled).count();
    assert_eq!(one_by_one, 2);
    let expected = &mut [17.653542, 125.0, 0.0, 17.653542, 200.0];
    assert_eq!(track(0.0).values_at(&times, &mut out), Ok(Filled { values: expected, unsettled: 2 }));
    assert_eq!(track(0.0).values_at(&times[1..3], &mut out).unwrap().unsettled, 0);
    assert_eq!(track(0.0).values_at(&[], &mut out).unwrap().unsettled, 0);
    assert_eq!(track(0.0).values_at(&times, &mut out[..4]), Err(Refusal::OutputTooShort));
}
