//! The rule of a lost step: what the request says of single steps, and its sentence a second time, in f32 alone.
use crate::edges::lost::{BELOW_LIMIT, SMALL, idle, moving, running};
use crate::make::Maker;
use crate::rules::*;

const PAIRS: u32 = 50_000_000;

fn forever(clock: f32, step: f32) -> u32 {
    track_update_refused(&moving(clock, FOREVER), step)
}

#[test]
fn lost_steps_of_the_request() {
    assert_eq!(forever(524_288.0, 0.02), 6);
    assert_eq!(forever(300_000.0, 0.02), 6);
    assert_eq!(forever(65_536.0, 0.02), 6);
    assert_eq!(forever(BELOW_LIMIT, 4.0), 6);
    assert_eq!(forever(16_777_216.0, 4.0), 8);
}

#[test]
fn products_that_vanish_stay_lost() {
    let smallest = f32::from_bits(1);
    assert_eq!(update_refused(&running(0.0, 0.5), smallest), 6);
    assert_eq!(update_refused(&running(0.0, 1.0), smallest), 0);
    assert_eq!(update_refused(&running(0.0, 0.0), smallest), 0);
}

#[test]
fn eighths_are_rounded() {
    for (units, number) in [(5, 0), (3, 6)] {
        let step = f32::from_bits(units);
        assert_eq!(forever(SMALL, step), number);
        assert_eq!(update_refused(&idle(SMALL), step), number);
        assert_eq!(update_refused(&running(SMALL, 1.0), step), number);
    }
}

#[test]
fn steps_of_zero_are_not_lost() {
    for step in [0.0, -0.0, -1.0, f32::NAN] {
        assert_eq!(forever(BELOW_LIMIT, step), 0);
        assert_eq!(update_refused(&idle(BELOW_LIMIT), step), 0);
        assert_eq!(update_refused(&running(BELOW_LIMIT, 1.0), step), 0);
    }
}

fn is_lost_in_f32(old: f32, add: f32) -> bool {
    let sum = old + add;
    sum == old || (sum - old - add).abs() > add / 8.0
}

#[test]
fn lost_in_64_bits_as_in_f32() {
    let mut maker = Maker::new(5, 0);
    for _ in 0..PAIRS {
        let old = maker.clock(33_554_432.0);
        let add = if maker.once_in(4) { maker.up_to(LIMIT) } else { maker.nearly_lost(old) };
        assert_eq!(is_lost(old, add), is_lost_in_f32(old, add), "{old:e} and {add:e}");
    }
}
