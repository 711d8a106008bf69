use super::Maker;
use crate::rules::*;
use crate::subjects::TweenCall;
use crate::words::{Float, LaxTween, Words};

impl Maker {
    /// Within its limits.
    pub fn tween(&mut self) -> LaxTween {
        let mut t = LaxTween {
            start: self.value(),
            end: self.value(),
            duration: self.span(),
            easing: self.easing(),
            delay: if self.once_in(2) { 0.0 } else { self.span() },
            time_scale: self.scale(),
            looping: self.looping(),
            state: self.below(4),
            ping_pong_reverse: self.pick(&[0, 0, 1, 2, u32::MAX]),
            ..LaxTween::default()
        };
        t.elapsed = self.up_to(t.duration);
        t.loop_count = self.passes_made(&t);
        t.delay_elapsed = self.up_to(if t.state == IDLE { t.delay } else { 33_554_432.0 });
        if t.state == IDLE && t.delay_elapsed >= t.delay {
            t.delay_elapsed = 0.0;
            t.state = if t.delay > 0.0 { IDLE } else { RUNNING };
        }
        t
    }

    /// Just reset, with whole numbers in its settings.
    pub fn whole_tween(&mut self) -> LaxTween {
        let t = LaxTween {
            start: self.below(100) as f32,
            end: self.below(100) as f32,
            duration: (1 + self.below(12)) as f32,
            easing: self.easing(),
            delay: self.pick(&[0.0, 0.0, 1.0, 2.0, 5.0]),
            time_scale: (1 + self.below(4)) as f32,
            looping: self.looping(),
            ..LaxTween::default()
        };
        LaxTween { state: if t.delay > 0.0 { IDLE } else { RUNNING }, ..t }
    }

    /// Within its limits but for one or two words, which may be anything.
    pub fn odd_tween(&mut self) -> LaxTween {
        let mut t = self.tween();
        for _ in 0..1 + self.below(2) {
            let layout = LaxTween::layout();
            let place = self.below(layout.len() as u32) as usize;
            let word = if layout[place].1 == Float { self.odd().to_bits() } else { self.odd_count() };
            t.words_mut()[place] = word;
        }
        t
    }

    /// Any words at all.
    pub fn any_tween(&mut self) -> LaxTween {
        let mut t = LaxTween::default();
        t.words_mut().iter_mut().for_each(|word| *word = self.word());
        t.easing.kind %= 39;
        t.looping.mode %= 6;
        t.state %= 5;
        t
    }

    /// A duration or a delay.
    fn span(&mut self) -> f32 {
        match self.below(8) {
            0 => self.up_to(16_777_216.0),
            1 => self.pick(&[0.0, -0.0, 1.0, 0.1, 1.6, 16_777_216.0]),
            2 => 1.0 + self.below(10) as f32,
            3 => self.up_to(1000.0),
            _ => self.part() * 10.0,
        }
    }

    fn scale(&mut self) -> f32 {
        match self.below(6) {
            0 => self.pick(&[0.0, -0.0, 0.5, 2.0, 1024.0]),
            1 => self.up_to(1024.0),
            2 => self.part() * 4.0,
            _ => 1.0,
        }
    }

    /// Near the passes of the mode, or near the limit.
    fn passes_made(&mut self, t: &LaxTween) -> u32 {
        match self.below(4) {
            0 => 16_777_216 - self.below(3),
            1 => (passes(&t.looping).unwrap_or(0) + self.below(3)).saturating_sub(1),
            2 => self.below(16_777_217),
            _ => self.below(4),
        }
    }

    /// Idle or running, with another clock.
    pub fn clocked(&mut self, t: &LaxTween) -> LaxTween {
        let span = self.pick(&[1.0, 1000.0, LIMIT]);
        if self.once_in(2) {
            LaxTween { state: IDLE, delay: span, delay_elapsed: self.clock(span), ..*t }
        } else {
            LaxTween { state: RUNNING, duration: span, elapsed: self.clock(span), ..*t }
        }
    }

    /// A step that is lost or nearly so; one in eight is so small that the scale may leave nothing of it.
    pub fn lost_step(&mut self, t: &LaxTween) -> f32 {
        match t.state {
            _ if self.once_in(8) => f32::from_bits(self.below(20)),
            IDLE => self.nearly_lost(t.delay_elapsed),
            _ => to_scale(t, self.nearly_lost(t.elapsed)),
        }
    }

    /// A step for this tween: near the end of a pass, of the delay or of 4,096 folds, or lost, or any.
    pub fn step(&mut self, t: &LaxTween) -> f32 {
        let pass = if t.duration.is_finite() { t.duration } else { 1.0 };
        let waiting = if t.state == IDLE { t.delay - t.delay_elapsed } else { 0.0 };
        let moved = match self.below(12) {
            0 => pass - t.elapsed,
            1 => pass * self.below(8) as f32,
            2 => pass * (4_093 + self.below(7)) as f32 - t.elapsed,
            3 => self.nearly_lost(t.elapsed),
            4 => self.part() * pass,
            5 => pass * 60.0 * self.part(),
            6 => return self.below(6) as f32,
            7 => return self.odd(),
            8 => return self.up_to(16_777_216.0),
            9 => return self.lost_step(t),
            _ => return self.part(),
        };
        let step = waiting + to_scale(t, moved);
        if self.once_in(2) && step > 0.0 { self.near(step) } else { step }
    }

    /// A call that may change the tween.
    pub fn tween_change(&mut self, t: &LaxTween) -> TweenCall {
        match self.below(16) {
            0 => TweenCall::Reset,
            1 | 2 => TweenCall::Seek(self.progress()),
            3 => TweenCall::Reverse,
            4 => TweenCall::Pause,
            5 | 6 => TweenCall::Resume,
            7 => self.tween_run(t),
            _ => TweenCall::Update(self.step(t)),
        }
    }

    /// A run of steps into outputs that are too short, exact or too long.
    fn tween_run(&mut self, t: &LaxTween) -> TweenCall {
        let steps: Vec<f32> = (0..self.below(9)).map(|_| self.step(t)).collect();
        let [values, folds] = [(); 2].map(|_| self.output(steps.len()));
        TweenCall::Run { steps, values, folds }
    }

    /// The length of an output for a list: exact as a rule.
    pub fn output(&mut self, length: usize) -> usize {
        match self.below(6) {
            0 => length.saturating_sub(1 + self.below(2) as usize),
            1 => length + 1 + self.below(4) as usize,
            2 => 0,
            _ => length,
        }
    }
}

/// The step that the scale makes so long.
fn to_scale(t: &LaxTween, moved: f32) -> f32 {
    if t.time_scale > 0.0 { moved / t.time_scale } else { moved }
}
