//! Steps at which a sum begins or ceases to show what is added: within a delay, behind it, and on a track.
use super::{plain_track, plain_tween};
use crate::input::Input;
use crate::make::{TURNS, spacing};
use crate::rules::*;
use crate::runner::{Runner, Tried};
use crate::subjects::{TrackCall, TweenCall};
use crate::words::{LaxTrack, LaxTween};

const MADE: &str = "lost steps, edges";

/// Even, odd, and up to three floats below a power of two. At the last three an eighth of a step is rounded.
const CLOCKS: [f32; 13] = [
    1.0,
    300_000.0,
    ODD,
    f32::from_bits(0x48ff_fffd),
    f32::from_bits(0x48ff_fffe),
    BELOW_POWER,
    16_777_214.0,
    BELOW_LIMIT,
    f32::from_bits(0x3f7f_ffff),
    f32::from_bits(0x4800_0003),
    f32::from_bits(0x0100_0000),
    SMALL,
    f32::from_bits(0x017f_ffff),
];

pub const ODD: f32 = f32::from_bits(0x4880_0001);
pub const BELOW_POWER: f32 = f32::from_bits(0x48ff_ffff);
pub const BELOW_LIMIT: f32 = 16_777_215.0;
pub const SMALL: f32 = f32::from_bits(0x0100_0001);

/// From the late clocks some of the usual steps are lost.
pub const LATE: [f32; 4] = [65_536.0, 131_072.0, 262_144.0, 524_288.0];
pub const USUAL: [f32; 4] = [0.01, 1.0 / 60.0, 0.02, 0.1];

pub fn steps(runner: &mut Runner) -> Tried<()> {
    for clock in CLOCKS {
        each_place(clock, 0.0, runner)?;
        for (add, near) in turns(clock).flat_map(|add| (-2..=2).map(move |near| (add, near))) {
            each_place(clock, f32::from_bits(add.to_bits().saturating_add_signed(near)), runner)?;
        }
    }
    for (clock, add) in LATE.into_iter().flat_map(|clock| USUAL.map(|add| (clock, add))) {
        each_place(clock, add, runner)?;
    }
    for units in 1..20 {
        each_place(SMALL, f32::from_bits(units), runner)?;
        each_place(0.0, f32::from_bits(units), runner)?;
    }
    Ok(())
}

pub fn turns(clock: f32) -> impl Iterator<Item = f32> {
    TURNS.iter().map(move |turn| turn * spacing(clock))
}

/// At scale 0.5 also as it is, so that a product may vanish.
fn each_place(clock: f32, add: f32, runner: &mut Runner) -> Tried<()> {
    runner.check(MADE, Input::Tween(idle(clock), TweenCall::Update(add)))?;
    for (scale, step) in [(1.0, add), (0.5, add), (0.5, add / 0.5), (3.0, add / 3.0)] {
        runner.check(MADE, Input::Tween(running(clock, scale), TweenCall::Update(step)))?;
    }
    for mode in 0..5 {
        runner.check(MADE, Input::Track(Box::new(moving(clock, mode)), TrackCall::Update(add)))?;
    }
    Ok(())
}

pub fn idle(clock: f32) -> LaxTween {
    LaxTween { delay: LIMIT, delay_elapsed: clock, ..plain_tween(ONCE, IDLE) }
}

pub fn running(clock: f32, time_scale: f32) -> LaxTween {
    LaxTween { duration: LIMIT, elapsed: clock, time_scale, ..plain_tween(ONCE, RUNNING) }
}

pub fn moving(clock: f32, mode: u32) -> LaxTrack {
    LaxTrack { elapsed: clock, ..plain_track(mode, 2) }
}
