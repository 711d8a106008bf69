//! Random cases: a call of an easing, or a history of calls on one record; behind every fourth, calls of a log, and
//! behind every fourth, steps that are lost or nearly so. The replays are cases of their own.
use crate::input::{After, Input};
use crate::log::HEAD;
use crate::make::{Maker, WRITTEN, written};
use crate::rules::LIMIT;
use crate::runner::{Runner, Tried};
use crate::subjects::*;
use crate::words::{LaxTrack, LaxTween, Words};

/// How many cases make a part of a run.
pub const CASES: u64 = 500;

pub fn part(seed: u64, part: u64, runner: &mut Runner) -> Tried<()> {
    for case in part * CASES..(part + 1) * CASES {
        let mut maker = Maker::new(seed, case);
        match maker.below(10) {
            0..3 => easings(&mut maker, runner)?,
            3..7 => tweens(&mut maker, runner)?,
            _ => tracks(&mut maker, runner)?,
        }
        if maker.once_in(4) {
            logs(&mut maker, runner)?;
        }
        if maker.once_in(4) {
            lost_steps(&mut maker, runner)?;
        }
    }
    Ok(())
}

/// Another seed than that of the other cases, so that the tweens are others.
pub fn replays_part(seed: u64, part: u64, runner: &mut Runner) -> Tried<()> {
    for case in part * CASES..(part + 1) * CASES {
        replays(&mut Maker::new(!seed, case), runner)?;
    }
    Ok(())
}

fn easings(maker: &mut Maker, runner: &mut Runner) -> Tried<()> {
    let odd = maker.once_in(4);
    let (made, easing) = if odd {
        ("easing, odd words", maker.odd_easing())
    } else {
        ("easing, within limits", maker.easing())
    };
    for _ in 0..12 {
        runner.check(made, Input::Easing(EasingCall::Apply(easing, maker.progress())))?;
    }
    let mut other = if maker.once_in(2) { maker.easing() } else { maker.odd_easing() };
    if maker.once_in(2) {
        other.kind = easing.kind;
    }
    runner.check(made, Input::Easing(EasingCall::Eq(easing, other)))?;
    other = easing;
    other.words_mut()[maker.below(6) as usize] ^= maker.pick(&[1, 1 << 31]);
    runner.check(made, Input::Easing(EasingCall::Eq(easing, other)))?;
    runner.check(made, Input::Easing(EasingCall::Eq(easing, easing)))?;
    runner.check(made, Input::Easing(EasingCall::IsSupplied(easing)))?;
    Ok(())
}

fn tweens(maker: &mut Maker, runner: &mut Runner) -> Tried<()> {
    let (made, mut tween) = match maker.below(10) {
        0 => ("tween, new", new_tween(maker, runner)?),
        1..3 => ("tween, whole numbers", maker.whole_tween()),
        3..5 => ("tween, one or two odd words", maker.odd_tween()),
        5 => ("tween, any words", maker.any_tween()),
        _ => ("tween, within limits", maker.tween()),
    };
    for _ in 0..1 + maker.below(16) {
        for read in TWEEN_READS {
            runner.check(made, Input::Tween(tween, read))?;
        }
        let call = maker.tween_change(&tween);
        if let After::Tween(after) = runner.check(made, Input::Tween(tween, call))? {
            tween = after;
        }
    }
    Ok(())
}

fn new_tween(maker: &mut Maker, runner: &mut Runner) -> Tried<LaxTween> {
    let [start, end] = [(); 2].map(|_| if maker.once_in(4) { maker.odd() } else { maker.value() });
    match runner.check("tween, new", Input::NewTween(start, end))? {
        After::Tween(tween) => Ok(tween),
        _ => unreachable!("a new tween is a tween"),
    }
}

fn tracks(maker: &mut Maker, runner: &mut Runner) -> Tried<()> {
    let (made, mut track) = match maker.below(6) {
        0 => ("track, pushed from new", pushed_track(maker, runner)?),
        1 => ("track, one or two odd words", maker.odd_track()),
        _ => ("track, within limits", maker.track()),
    };
    for _ in 0..1 + maker.below(12) {
        for read in TRACK_READS {
            runner.check(made, Input::Track(track.clone(), read))?;
        }
        let time = maker.sample_time(&track);
        runner.check(made, Input::Track(track.clone(), TrackCall::ValueAt(time)))?;
        runner.check(made, Input::Track(track.clone(), maker.batch(&track)))?;
        let call = maker.track_change(&track);
        if let After::Track(after) = runner.check(made, Input::Track(track.clone(), call))? {
            track = after;
        }
    }
    Ok(())
}

fn pushed_track(maker: &mut Maker, runner: &mut Runner) -> Tried<Box<LaxTrack>> {
    let made = "track, pushed from new";
    let After::Track(mut track) = runner.check(made, Input::NewTrack)? else {
        unreachable!("a new track is a track")
    };
    for _ in 0..maker.pick(&[1, 2, 5, 70]) {
        let time = if maker.once_in(8) { maker.odd() } else { maker.below(40) as f32 / 4.0 };
        let call = TrackCall::PushEased(time, maker.value(), maker.easing());
        if let After::Track(after) = runner.check(made, Input::Track(track.clone(), call))? {
            track = after;
        }
    }
    Ok(track)
}

fn logs(maker: &mut Maker, runner: &mut Runner) -> Tried<()> {
    runner.check("log, any bytes", Input::Log(LogCall::Head { buffer: maker.some_bytes(12) }))?;
    runner.check("log, from its head", Input::Log(maker.log_history()))?;
    let (made, log) = match maker.below(8) {
        0 => ("log, records of any bytes", maker.log_of_odd_records()),
        1 => ("log, head wrong", maker.log_of_odd_head()),
        2 | 3 => ("log, length wrong", maker.log_of_odd_length()),
        4 => ("log, cut short", maker.log_cut_short()),
        _ => ("log, good", maker.log()),
    };
    for _ in 0..4 {
        let (buffer, written, event) = (log.buffer.clone(), log.written, maker.event());
        runner.check(made, Input::Log(LogCall::Record { buffer, written, event }))?;
    }
    Ok(())
}

/// Each from another clock.
fn lost_steps(maker: &mut Maker, runner: &mut Runner) -> Tried<()> {
    let (tween, mut track) = (maker.tween(), maker.track());
    track.complete = 0;
    for _ in 0..12 {
        let tween = maker.clocked(&tween);
        let call = TweenCall::Update(maker.lost_step(&tween));
        runner.check("tween, steps nearly lost", Input::Tween(tween, call))?;
        track.elapsed = maker.clock(LIMIT);
        let call = TrackCall::Update(maker.nearly_lost(track.elapsed));
        runner.check("track, steps nearly lost", Input::Track(track.clone(), call))?;
    }
    Ok(())
}

/// A log as it was written, and eight that are damaged.
fn replays(maker: &mut Maker, runner: &mut Runner) -> Tried<()> {
    let tween = maker.logged_tween();
    let events = maker.calls(&tween);
    let log = written(&events);
    let gaps = maker.gaps(records_in(log.len()));
    runner.check(WRITTEN, Input::Replay(ReplayCall::Run { tween, events, rounds: 1 }))?;
    runner.check(WRITTEN, Input::Replay(ReplayCall::Log { tween, log: log.clone(), gaps }))?;
    for _ in 0..5 {
        let (made, log) = maker.damaged(&log, 0);
        let (tween, gaps) = (maker.replayed_tween(&tween), maker.gaps(records_in(log.len())));
        runner.check(made, Input::Replay(ReplayCall::Log { tween, log, gaps }))?;
    }
    for _ in 0..2 {
        let (made, log) = maker.damaged(&log, HEAD);
        runner.check(made, Input::Replay(maker.replay_on(&tween, &log)))?;
    }
    let (made, log) = maker.damaged(&log, 0);
    runner.check(made, Input::Replay(ReplayCall::Parts { tween, log, parts: maker.parts() }))?;
    Ok(())
}
