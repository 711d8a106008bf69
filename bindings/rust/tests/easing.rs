//! Every call of an easing: ordinary, edge and refused input.
mod common;

use common::plain;
use laxombiit::{Easing, Refusal};

#[test]
fn apply() {
    assert_eq!(Easing::Linear.apply(0.25), plain(0.25));
    assert_eq!(Easing::EaseInOutCubic.apply(0.25), plain(0.0625));
    assert_eq!(Easing::Steps(4).apply(0.1), plain(0.25));
    assert_eq!(Easing::Steps(0).apply(0.5), plain(1.0));
    assert_eq!(Easing::CubicBezier(0.0, 0.0, 1.0, 1.0).apply(0.5).unwrap().value, 0.5);
    assert_eq!(Easing::SlowMo { linear_ratio: 0.5, power: 2.0 }.apply(0.125), plain(0.1875));
    assert_eq!(Easing::EaseOutBounce.apply(0.25), plain(0.47265625));
}

#[test]
fn apply_clamps() {
    for (t, end) in [(-3.0, 0.0), (f32::NEG_INFINITY, 0.0), (3.0, 1.0), (f32::INFINITY, 1.0)] {
        assert_eq!(Easing::EaseInQuad.apply(t), plain(end));
    }
    assert!(Easing::Linear.apply(-0.0).unwrap().value.is_sign_negative());
}

#[test]
fn apply_refuses() {
    assert_eq!(Easing::Linear.apply(f32::NAN), Err(Refusal::ProgressIsNan));
    assert_eq!(Easing::EaseInSine.apply(f32::NAN), Err(Refusal::ProgressIsNan));
    assert_eq!(Easing::EaseInSine.apply(0.5), Err(Refusal::EasingNotSupplied));
    assert_eq!(Easing::Wiggle { wiggles: 5 }.apply(0.5), Err(Refusal::EasingNotSupplied));
    assert!(Easing::Steps(65_536).apply(0.5).is_ok());
    assert_eq!(Easing::Steps(65_537).apply(0.5), Err(Refusal::EasingParameter));
    assert_eq!(Easing::CubicBezier(0.0, 1024.5, 1.0, 1.0).apply(0.5), Err(Refusal::EasingParameter));
    assert_eq!(Easing::CustomBounce { strength: f32::NAN }.apply(0.5), Err(Refusal::EasingParameter));
}

#[test]
fn names() {
    let named = Easing::all_named();
    assert_eq!(named.iter().filter(|e| e.is_supplied()).count(), 26);
    assert_eq!(named[0], Easing::Linear);
    assert_eq!(named[31], Easing::CubicBezier(0.25, 0.1, 0.25, 1.0));
    assert_eq!(named[37], Easing::ExpoScale { start: 0.5, end: 2.0 });
    for e in named {
        let ends = (e.apply(0.0), e.apply(1.0));
        if e.is_supplied() {
            assert_eq!(ends, (plain(0.0), plain(1.0)), "{e:?}");
        } else {
            assert_eq!(ends, (Err(Refusal::EasingNotSupplied), Err(Refusal::EasingNotSupplied)), "{e:?}");
        }
    }
}

#[test]
fn equals() {
    assert_eq!(Easing::Steps(4).equals(&Easing::Steps(4)), Ok(true));
    assert_eq!(Easing::Steps(0).equals(&Easing::Steps(1)), Ok(false));
    let (x, y) = (Easing::CubicBezier(-0.0, 0.0, 1.0, 1.0), Easing::CubicBezier(0.0, 0.0, 1.0, 1.0));
    assert_eq!(x.equals(&y), Ok(true));
    assert_eq!(Easing::Linear.equals(&Easing::EaseInQuad), Ok(false));
    assert_eq!(Easing::Linear.equals(&Easing::EaseInExpo), Err(Refusal::EasingNotSupplied));
    assert_eq!(Easing::Steps(70_000).equals(&Easing::Linear), Err(Refusal::EasingParameter));
    assert_eq!(Easing::Steps(70_000).equals(&Easing::EaseInExpo), Err(Refusal::EasingNotSupplied));
}
