use crate::ffi;
use crate::{Easing, Found, Refusal};

/// What happens at the end of a pass.
#[derive(Clone, Copy, Debug, PartialEq, Eq)]
pub enum Loop {
    /// One pass.
    Once,
    /// So many passes, at most 65,535; 0 counts as 1.
    Times(u32),
    /// Again and again.
    Forever,
    /// Forward, then backward, without an end.
    PingPong,
    /// So many single passes, turned round after each.
    PingPongTimes(u32),
}

/// The state of a tween.
#[derive(Clone, Copy, Debug, PartialEq, Eq)]
pub enum TweenState {
    /// Within the delay.
    Idle,
    /// Under way.
    Running,
    /// Updates change nothing.
    Paused,
    /// At the end of its last pass.
    Completed,
}

/// A ramp from `start` to `end`. Times are in seconds.
///
/// ```
/// use laxombiit::{Loop, Tween};
///
/// let mut ramp = Tween { duration: 2.0, looping: Loop::PingPongTimes(2), ..Tween::new(10.0, 20.0) };
/// let update = ramp.update(5.0)?;
/// assert_eq!(update.folds, 2);
/// assert!(!update.running);
/// assert_eq!(ramp.value()?.value, 10.0);
/// # Ok::<(), laxombiit::Refusal>(())
/// ```
#[derive(Clone, Copy, Debug, PartialEq)]
pub struct Tween {
    /// The value at the start of a pass.
    pub start: f32,
    /// The value at its end.
    pub end: f32,
    /// Of one pass, 0 to 16,777,216.
    pub duration: f32,
    /// The curve.
    pub easing: Easing,
    /// 0 to 16,777,216.
    pub delay: f32,
    /// 2 is double speed; 0 to 1,024. The delay is not scaled.
    pub time_scale: f32,
    /// What happens at the end of a pass.
    pub looping: Loop,
    /// In the pass under way, 0 to `duration`.
    pub elapsed: f32,
    /// While idle, below the delay.
    pub delay_elapsed: f32,
    /// Idle, running, paused or completed.
    pub state: TweenState,
    /// Passes made, in `Times` and `PingPongTimes`; up to 16,777,216.
    pub loop_count: u32,
    /// Under way from `end` to `start`.
    pub ping_pong_reverse: bool,
}

/// What moves in a tween.
#[derive(Clone, Copy, Debug, PartialEq)]
pub struct TweenSnapshot {
    /// In the pass under way.
    pub elapsed: f32,
    /// Of the delay.
    pub delay_elapsed: f32,
    /// Passes made.
    pub loop_count: u32,
    /// Under way from end to start.
    pub ping_pong_reverse: bool,
    /// Idle, running, paused or completed.
    pub state: TweenState,
}

/// What an update reports.
#[derive(Clone, Copy, Debug, PartialEq, Eq)]
pub struct Updated {
    /// The passes that it folded, the completing one too.
    pub folds: u32,
    /// False once the tween is completed: what animato's `update` returns.
    pub running: bool,
}

/// What a run of steps reports.
#[derive(Clone, Copy, Debug, PartialEq, Eq)]
pub struct Ran {
    /// How many of the values written are not settled.
    pub unsettled: usize,
}

/// Where and why a run of steps stopped.
#[derive(Clone, Copy, Debug, PartialEq, Eq)]
pub struct Stopped {
    /// The place of the step that was refused.
    pub place: usize,
    /// How many of the values written before it are not settled.
    pub unsettled: usize,
    /// Why.
    pub refusal: Refusal,
}

impl Tween {
    /// One second, linear, no delay, scale 1, once; running from its start. Set the fields that
    /// are to be otherwise; with a delay, `reset` then makes it idle.
    pub fn new(start: f32, end: f32) -> Tween {
        let mut words = ffi::LaxTween::default();
        ffi::lax_tween_new(&mut words, start, end);
        Tween::from_words(words)
    }

    /// The value at this time, and the search behind its easing.
    pub fn value(&self) -> Result<Found, Refusal> {
        Found::of(|out| ffi::lax_tween_value(&self.words(), out))
    }

    /// How far along in the pass under way, from 0 to 1.
    pub fn progress(&self) -> Result<f32, Refusal> {
        Refusal::or_lent(|out| ffi::lax_tween_progress(&self.words(), out))
    }

    /// The same after the easing, and the search behind it.
    pub fn eased_progress(&self) -> Result<Found, Refusal> {
        Found::of(|out| ffi::lax_tween_eased_progress(&self.words(), out))
    }

    /// What moves.
    pub fn snapshot(&self) -> Result<TweenSnapshot, Refusal> {
        let now = Refusal::or_lent(|out| ffi::lax_tween_snapshot(&self.words(), out))?;
        Ok(TweenSnapshot {
            elapsed: now.elapsed,
            delay_elapsed: now.delay_elapsed,
            loop_count: now.loop_count,
            ping_pong_reverse: now.ping_pong_reverse != 0,
            state: TweenState::from_word(now.state),
        })
    }

    /// The delay and all passes; infinity in the modes without an end.
    pub fn playback_duration(&self) -> Result<f32, Refusal> {
        Refusal::or_lent(|out| ffi::lax_tween_playback_duration(&self.words(), out))
    }

    /// Back to the start of the delay.
    pub fn reset(&mut self) -> Result<(), Refusal> {
        self.change(|t| ffi::lax_tween_reset(t))
    }

    /// To a place from 0 to 1 in the pass under way. Refused: 1 where it is NaN.
    pub fn seek(&mut self, progress: f32) -> Result<(), Refusal> {
        self.change(|t| ffi::lax_tween_seek(t, progress))
    }

    /// Exchanges `start` and `end`, and mirrors `elapsed`.
    pub fn reverse(&mut self) -> Result<(), Refusal> {
        self.change(|t| ffi::lax_tween_reverse(t))
    }

    /// Acts on a running tween alone.
    pub fn pause(&mut self) -> Result<(), Refusal> {
        self.change(|t| ffi::lax_tween_pause(t))
    }

    /// Acts on a paused tween alone.
    pub fn resume(&mut self) -> Result<(), Refusal> {
        self.change(|t| ffi::lax_tween_resume(t))
    }

    /// Moves on by `step` seconds; NaN and what is below 0 count as 0. Refused, and then
    /// unchanged: 5 for a step above 16,777,216, 6 where the f32 sum would be off by more than an
    /// eighth of what it adds, 7 for one that needs more than 4,096 folds.
    ///
    /// ```
    /// use laxombiit::{Loop, Refusal, Tween};
    ///
    /// let mut t = Tween { looping: Loop::Forever, ..Tween::new(0.0, 1.0) };
    /// assert_eq!(t.update(4096.0)?.folds, 4096);
    /// assert_eq!(t.update(4097.0), Err(Refusal::TooManyFolds));
    /// # Ok::<(), Refusal>(())
    /// ```
    pub fn update(&mut self, step: f32) -> Result<Updated, Refusal> {
        let mut words = self.words();
        let made =
            Refusal::or_lent(|out: &mut ffi::LaxUpdated| ffi::lax_tween_update(&mut words, step, out))?;
        self.take(&words);
        Ok(Updated { folds: made.folds, running: made.running != 0 })
    }

    /// Many updates in one call: the value after each step goes into `values`, its folds into
    /// `folds`. It answers how many of the values are not settled. Refused with 12, and nothing
    /// written, where either is shorter than `steps`. It stops at the first step that is refused;
    /// the tween is then as it stood before that step, and the lists are unwritten from its place
    /// on.
    ///
    /// ```
    /// use laxombiit::{Loop, Ran, Tween};
    ///
    /// let mut t = Tween { duration: 4.0, looping: Loop::Forever, ..Tween::new(0.0, 8.0) };
    /// let (mut values, mut folds) = ([0.0; 3], [0; 3]);
    /// assert_eq!(t.run(&[1.0, 2.0, 3.0], &mut values, &mut folds), Ok(Ran { unsettled: 0 }));
    /// assert_eq!((values, folds), ([2.0, 6.0, 4.0], [0, 0, 1]));
    /// ```
    pub fn run(&mut self, steps: &[f32], values: &mut [f32], folds: &mut [u32]) -> Result<Ran, Stopped> {
        let (mut words, mut run) = (self.words(), ffi::LaxRun::default());
        // SAFETY: each pointer and its length are those of one slice; the library reads within the first
        // and writes within the others.
        let number = unsafe {
            ffi::lax_tween_run(
                &mut words,
                steps.as_ptr(),
                steps.len() as u64,
                values.as_mut_ptr(),
                values.len() as u64,
                folds.as_mut_ptr(),
                folds.len() as u64,
                &mut run,
            )
        };
        self.take(&words);
        let (place, unsettled) = (run.done as usize, run.unsettled as usize);
        let ran = Refusal::or(number, Ran { unsettled });
        ran.map_err(|refusal| Stopped { place, unsettled, refusal })
    }

    fn change(&mut self, call: impl FnOnce(&mut ffi::LaxTween) -> u32) -> Result<(), Refusal> {
        let mut words = self.words();
        Refusal::or(call(&mut words), ())?;
        self.take(&words);
        Ok(())
    }

    /// What a call may change; the other words are those that it was lent.
    pub(crate) fn take(&mut self, w: &ffi::LaxTween) {
        self.start = w.start;
        self.end = w.end;
        self.elapsed = w.elapsed;
        self.delay_elapsed = w.delay_elapsed;
        self.state = TweenState::from_word(w.state);
        self.loop_count = w.loop_count;
        self.ping_pong_reverse = w.ping_pong_reverse != 0;
    }

    pub(crate) fn words(&self) -> ffi::LaxTween {
        ffi::LaxTween {
            start: self.start,
            end: self.end,
            duration: self.duration,
            easing: self.easing.words(),
            delay: self.delay,
            time_scale: self.time_scale,
            looping: self.looping.words(),
            elapsed: self.elapsed,
            delay_elapsed: self.delay_elapsed,
            state: self.state as u32,
            loop_count: self.loop_count,
            ping_pong_reverse: self.ping_pong_reverse as u32,
        }
    }

    pub(crate) fn from_words(w: ffi::LaxTween) -> Tween {
        Tween {
            start: w.start,
            end: w.end,
            duration: w.duration,
            easing: Easing::from_words(w.easing),
            delay: w.delay,
            time_scale: w.time_scale,
            looping: Loop::from_words(w.looping),
            elapsed: w.elapsed,
            delay_elapsed: w.delay_elapsed,
            state: TweenState::from_word(w.state),
            loop_count: w.loop_count,
            ping_pong_reverse: w.ping_pong_reverse != 0,
        }
    }
}

impl Loop {
    pub(crate) fn words(self) -> ffi::LaxLoop {
        let (mode, passes) = match self {
            Loop::Once => (0, 0),
            Loop::Times(n) => (1, n),
            Loop::Forever => (2, 0),
            Loop::PingPong => (3, 0),
            Loop::PingPongTimes(n) => (4, n),
        };
        ffi::LaxLoop { mode, passes }
    }

    pub(crate) fn from_words(w: ffi::LaxLoop) -> Loop {
        match w.mode {
            0 => Loop::Once,
            1 => Loop::Times(w.passes),
            2 => Loop::Forever,
            3 => Loop::PingPong,
            4 => Loop::PingPongTimes(w.passes),
            mode => unreachable!("the library answers modes 0 to 4, not {mode}"),
        }
    }
}

impl TweenState {
    fn from_word(w: u32) -> TweenState {
        match w {
            0 => TweenState::Idle,
            1 => TweenState::Running,
            2 => TweenState::Paused,
            3 => TweenState::Completed,
            state => unreachable!("the library answers states 0 to 3, not {state}"),
        }
    }
}
