use crate::calls::*;
use crate::difference::{Difference, answered, must, same, same_bits, same_count, same_list};
use crate::ffi::{lax_tween_pause, lax_tween_reset, lax_tween_resume, lax_tween_reverse, lax_tween_seek};
use crate::meaning;
use crate::rules::{self, LIMIT, folds};
use crate::search;
use crate::subjects::{GUARD, SENTINEL, bits, found};
use crate::words::*;
use oracle::{Easing, Loop, Playable, Tween, Update};

#[derive(Clone)]
pub enum TweenCall {
    Value,
    Progress,
    EasedProgress,
    Snapshot,
    PlaybackDuration,
    Reset,
    Seek(f32),
    Reverse,
    Pause,
    Resume,
    Update(f32),
    Run { steps: Vec<f32>, values: usize, folds: usize },
}

use TweenCall::*;

/// The calls that only read.
pub const TWEEN_READS: [TweenCall; 5] = [Value, Progress, EasedProgress, Snapshot, PlaybackDuration];

/// The number of the answer and the tween after the call.
type Checked = Result<(u32, LaxTween), Difference>;

impl TweenCall {
    pub fn name(&self) -> &'static str {
        match self {
            Value => "tween value",
            Progress => "tween progress",
            EasedProgress => "tween eased_progress",
            Snapshot => "tween snapshot",
            PlaybackDuration => "tween playback_duration",
            Reset => "tween reset",
            Seek(_) => "tween seek",
            Reverse => "tween reverse",
            Pause => "tween pause",
            Resume => "tween resume",
            Update(_) => "tween update",
            Run { .. } => "tween run",
        }
    }

    pub fn check(&self, t: &LaxTween) -> Checked {
        let name = self.name();
        match self {
            Value | EasedProgress => {
                let expected = found(self.read(t), || search::of_tween(t));
                answered(name, self.find(t), expected).map(|answer| (answer.number, *t))
            }
            Progress | PlaybackDuration => {
                answered(name, self.value(t), self.read(t)).map(|answer| (answer.number, *t))
            }
            Snapshot => answered(name, tween_snapshot(t), snapped(t)).map(|answer| (answer.number, *t)),
            Reset | Seek(_) | Reverse | Pause | Resume => {
                let LaxChanged { number, tween } = self.changed(t);
                let expected = LaxChanged { number, tween: meaning::tween_onto(t, &tween) };
                let ours = answered(name, self.change(t), expected)?;
                self.kept(ours.number, ours.tween)
            }
            Update(step) => {
                let after = updated(t, *step);
                let expected = LaxUpdated { tween: meaning::tween_onto(t, &after.tween), ..after };
                let ours = answered(name, tween_update(t, *step), expected)?;
                self.kept(ours.number, ours.tween)
            }
            Run { steps, values, folds } => self.run(t, steps, *values, *folds),
        }
    }

    fn find(&self, t: &LaxTween) -> LaxFound {
        match self {
            Value => tween_value(t),
            _ => tween_eased_progress(t),
        }
    }

    fn value(&self, t: &LaxTween) -> LaxValue {
        match self {
            Progress => tween_progress(t),
            _ => tween_playback_duration(t),
        }
    }

    /// Of the calls that answer a value.
    pub fn read(&self, t: &LaxTween) -> LaxValue {
        let number = rules::tween_refused(t);
        if number != 0 {
            return LaxValue { number, value: 0.0 };
        }
        let tween = meaning::tween(t);
        let value = match self {
            Value => tween.value(),
            Progress => tween.progress(),
            EasedProgress => tween.eased_progress(),
            _ => Playable::duration(&tween),
        };
        LaxValue { number, value }
    }

    fn change(&self, t: &LaxTween) -> LaxChanged {
        match self {
            Seek(progress) => tween_changed(t, |t| lax_tween_seek(t, *progress)),
            Reverse => tween_changed(t, |t| lax_tween_reverse(t)),
            Pause => tween_changed(t, |t| lax_tween_pause(t)),
            Resume => tween_changed(t, |t| lax_tween_resume(t)),
            _ => tween_changed(t, |t| lax_tween_reset(t)),
        }
    }

    /// Of the calls that hand the tween back and nothing else.
    pub fn changed(&self, t: &LaxTween) -> LaxChanged {
        let number = match self {
            Seek(progress) => rules::seek_refused(t, *progress),
            _ => rules::tween_refused(t),
        };
        if number != 0 {
            return LaxChanged { number, tween: *t };
        }
        let mut tween = meaning::tween(t);
        match self {
            Seek(progress) => tween.seek(*progress),
            Reverse => tween.reverse(),
            Pause => tween.pause(),
            Resume => tween.resume(),
            _ => tween.reset(),
        }
        LaxChanged { number, tween: meaning::tween_words(&tween) }
    }

    /// An accepted call hands back a tween within its limits, unless its loop_count has just passed.
    fn kept(&self, number: u32, t: LaxTween) -> Checked {
        let counted = LaxTween { loop_count: t.loop_count.min(LIMIT as u32), ..t };
        let kept = number != 0 || !rules::tween_breaks(&counted);
        must(&format!("{}: within limits afterwards", self.name()), kept)?;
        Ok((number, t))
    }

    fn run(&self, t: &LaxTween, steps: &[f32], values: usize, folds: usize) -> Checked {
        let mut our_values = vec![SENTINEL; values + GUARD];
        let mut our_folds = vec![SENTINEL.to_bits(); folds + GUARD];
        let (mut all_values, mut all_folds) = (our_values.clone(), our_folds.clone());
        let lent = steps.to_vec();
        let ours = tween_run(t, &lent, &mut our_values[..values], &mut our_folds[..folds]);
        let expected = ran(t, steps, &mut all_values[..values], &mut all_folds[..folds]);
        let name = self.name();
        same_count(format!("{name}: number"), ours.number as usize, expected.number as usize)?;
        same_count(format!("{name}: done"), ours.done, expected.done)?;
        same_count(format!("{name}: unsettled"), ours.unsettled, expected.unsettled)?;
        if expected.done == 0 {
            same_bits(name, &ours.tween, t)?;
        } else {
            same(name, &ours.tween, &meaning::tween_onto(t, &expected.tween))?;
        }
        same_list(&format!("{name}: values"), Float, &bits(&our_values), &bits(&all_values), expected.done)?;
        same_list(&format!("{name}: folds"), Whole, &our_folds, &all_folds, expected.done)?;
        same_list(&format!("{name}: steps"), Float, &bits(&lent), &bits(steps), 0)?;
        Ok((expected.number, ours.tween))
    }
}

pub fn snapped(t: &LaxTween) -> LaxSnapshot {
    let number = rules::tween_refused(t);
    if number != 0 {
        return LaxSnapshot { number, ..LaxSnapshot::default() };
    }
    let taken = meaning::tween(t).snapshot();
    LaxSnapshot {
        number,
        elapsed: taken.elapsed,
        delay_elapsed: taken.delay_elapsed,
        state: meaning::state_word(&taken.state),
        loop_count: taken.loop_count,
        ping_pong_reverse: taken.ping_pong_reverse.into(),
    }
}

pub fn updated(t: &LaxTween, step: f32) -> LaxUpdated {
    match rules::update_refused(t, step) {
        0 => stepped(t, step),
        number => LaxUpdated { number, folds: 0, running: 0, tween: *t },
    }
}

/// The Rust's update; the folds, which it does not tell, by the rules.
fn stepped(t: &LaxTween, step: f32) -> LaxUpdated {
    let mut tween = meaning::tween(t);
    let was_complete = tween.is_complete();
    let running = tween.update(meaning::secs(step)).into();
    let mut words = meaning::tween_words(&tween);
    // at duration 0 the Rust keeps what was added
    if t.duration == 0.0 && tween.is_complete() && !was_complete {
        words.elapsed = 0.0;
    }
    LaxUpdated { number: 0, folds: folds(t, step).unwrap_or(0), running, tween: words }
}

/// A run of steps by the rules, and by the Rust's update and value.
pub fn ran(t: &LaxTween, steps: &[f32], values: &mut [f32], folds: &mut [u32]) -> LaxRun {
    let number = rules::run_refused(t, steps.len(), values.len(), folds.len());
    let mut run = LaxRun { done: 0, unsettled: 0, number, tween: *t };
    if run.number != 0 {
        return run;
    }
    for (place, step) in steps.iter().enumerate() {
        let after = updated(&run.tween, *step);
        run.number = after.number;
        if run.number != 0 {
            break;
        }
        run.number = rules::tween_refused(&after.tween);
        if run.number != 0 {
            break;
        }
        values[place] = meaning::tween(&after.tween).value();
        folds[place] = after.folds;
        run.unsettled += usize::from(!search::of_tween(&after.tween).settled);
        run.tween = after.tween;
        run.done += 1;
    }
    run
}

/// A new tween: one second, Linear, no delay, scale 1, Once. Its ends are not looked at.
pub fn new_tween(start: f32, end: f32) -> LaxTween {
    meaning::tween_words(&Tween::of_builder(start, end, 1.0, Easing::Linear, 0.0, 1.0, Loop::Once))
}

pub fn check_new_tween(start: f32, end: f32) -> Result<LaxTween, Difference> {
    let ours = tween_new(start, end);
    // a NaN that is given as a float is written as 0x7fc00000
    let written = |x: f32| if x.is_nan() { f32::from_bits(0x7fc0_0000) } else { x };
    same_bits(NEW_TWEEN, &ours, &new_tween(written(start), written(end)))?;
    Ok(ours)
}

pub const NEW_TWEEN: &str = "tween new";
