use super::Maker;
use crate::rules::*;
use crate::subjects::TrackCall;
use crate::words::{Float, LaxKeyframe, LaxTrack, PLACES, Words};

/// The numbers of frames that every run must have.
pub const FRAME_COUNTS: [u32; 5] = [0, 1, 2, 63, 64];

impl Maker {
    /// Within its limits. The places behind the frames hold anything.
    pub fn track(&mut self) -> Box<LaxTrack> {
        let mut t = Box::new(LaxTrack::default());
        t.count = if self.once_in(2) { self.pick(&FRAME_COUNTS) } else { self.below(1 + PLACES as u32) };
        self.fill_frames(&mut t);
        t.looping = self.looping();
        if passes(&t.looping).is_some() {
            t.looping.passes = self.fitting_passes(&t, t.looping.passes);
        }
        t.elapsed = self.track_elapsed(&t);
        t.loop_count = if self.once_in(4) { self.word() } else { self.below(5) };
        t.complete = self.pick(&[0, 0, 0, 1, 7]);
        t
    }

    fn fill_frames(&mut self, t: &mut LaxTrack) {
        let count = t.count as usize;
        let (gaps, junk) = (self.below(6), self.once_in(2));
        let mut time = if self.once_in(2) { 0.0 } else { self.first_time(gaps) };
        for place in 0..PLACES {
            if place < count {
                t.frames[place] = LaxKeyframe::new(time, self.value(), self.easing());
                time = self.later(time, gaps);
            } else if junk {
                t.frames[place].words_mut().iter_mut().for_each(|word| *word = self.word());
            }
        }
    }

    fn first_time(&mut self, gaps: u32) -> f32 {
        match gaps {
            0 => self.below(4) as f32,
            1 => f32::from_bits(self.below(0x3400_0000)),
            2 => self.part() * 0.01,
            _ => self.part(),
        }
    }

    /// The next time: whole seconds, the next floats, gaps about 2^-23, even gaps, or any size that leaves
    /// room for 64.
    fn later(&mut self, time: f32, gaps: u32) -> f32 {
        let gap = match gaps {
            0 => (1 + self.below(2)) as f32,
            1 => 0.0,
            2 => f32::EPSILON * self.part() * 2.0,
            3 => 0.25,
            4 => self.part() * 0.5,
            _ => self.up_to(200_000.0),
        };
        let next = time + gap;
        if next > time { next } else { f32::from_bits(time.to_bits() + 1 + self.below(3)) }
    }

    /// As many passes as wanted, or as the total allows, or near that.
    fn fitting_passes(&mut self, t: &LaxTrack, wanted: u32) -> u32 {
        let last = last_time(t);
        let most = if last > 0.0 { (LIMIT / last).min(65_535.0) as u32 } else { 65_535 };
        if self.once_in(4) { most - self.below(2).min(most) } else { wanted.min(most) }
    }

    /// Near a multiple of the last time, near the total, or any.
    fn track_elapsed(&mut self, t: &LaxTrack) -> f32 {
        let last = last_time(t);
        let total = last * passes(&t.looping).unwrap_or(3) as f32;
        let passed = last * self.below(9) as f32;
        let elapsed = match self.below(8) {
            0 => 0.0,
            1 => self.near(passed),
            2 => self.near(total),
            3 => self.part() * total,
            4 => self.up_to(LIMIT),
            5 => -0.0,
            _ => self.part() * last,
        };
        elapsed.min(LIMIT)
    }

    /// Within its limits but for one or two words, or for its count, or for the order of its times.
    pub fn odd_track(&mut self) -> Box<LaxTrack> {
        let mut t = self.track();
        match self.below(6) {
            0 => t.count = self.odd_count(),
            1 => self.mix_times(&mut t),
            _ => {}
        }
        for _ in 0..1 + self.below(2) {
            let frames = 8 * (t.count as usize).min(PLACES);
            let in_frames = frames > 0 && self.once_in(2);
            let place = if in_frames { self.below(frames as u32) } else { 512 + self.below(6) } as usize;
            let is_float = LaxTrack::layout()[place].1 == Float;
            t.words_mut()[place] = if is_float { self.odd().to_bits() } else { self.odd_count() };
        }
        t
    }

    /// Two times exchanged or made equal.
    fn mix_times(&mut self, t: &mut LaxTrack) {
        if t.count >= 2 {
            let place = self.below(t.count - 1) as usize;
            let (here, next) = (t.frames[place].time, t.frames[place + 1].time);
            t.frames[place + 1].time = here;
            t.frames[place].time = if self.once_in(2) { here } else { next };
        }
    }

    /// A time to sample at: a frame's own, one beside it, between two, before, behind, or any.
    pub fn sample_time(&mut self, t: &LaxTrack) -> f32 {
        let times: Vec<f32> = frames(t).iter().map(|frame| frame.time).collect();
        match self.below(6) {
            0 => self.odd(),
            1 => self.up_to(LIMIT),
            2 if !times.is_empty() => self.pick(&times),
            3 if !times.is_empty() => {
                let time = self.pick(&times);
                self.near(time)
            }
            _ => self.part() * last_time(t),
        }
    }

    fn push_time(&mut self, t: &LaxTrack) -> f32 {
        match self.below(8) {
            0 => LIMIT / passes(&t.looping).unwrap_or(1).max(1) as f32,
            1 => {
                let most = LIMIT / passes(&t.looping).unwrap_or(1).max(1) as f32;
                self.near(most)
            }
            2 => -0.0,
            3 => last_time(t) + self.part(),
            _ => self.sample_time(t),
        }
    }

    /// A step for this track: to the end of a pass or of all, to the limit, lost, or any.
    pub fn track_step(&mut self, t: &LaxTrack) -> f32 {
        let last = last_time(t);
        let total = last * passes(&t.looping).unwrap_or(2) as f32;
        let step = match self.below(10) {
            0 => last - t.elapsed,
            1 => total - t.elapsed,
            2 => LIMIT - t.elapsed,
            3 => self.nearly_lost(t.elapsed),
            4 => last * self.below(5) as f32,
            5 => last * self.part(),
            6 => return self.odd(),
            7 => return self.up_to(LIMIT),
            8 => return self.below(4) as f32,
            _ => return self.part(),
        };
        if self.once_in(2) && step > 0.0 { self.near(step) } else { step }
    }

    pub fn track_change(&mut self, t: &LaxTrack) -> TrackCall {
        match self.below(12) {
            0 => TrackCall::Push(self.push_time(t), self.pushed_value()),
            1 | 2 => {
                let easing = if self.once_in(4) { self.odd_easing() } else { self.easing() };
                TrackCall::PushEased(self.push_time(t), self.pushed_value(), easing)
            }
            3 => TrackCall::Looping(if self.once_in(2) { self.odd_looping() } else { self.looping() }),
            4 => TrackCall::Reset,
            5 | 6 => TrackCall::SeekTo(self.progress()),
            _ => TrackCall::Update(self.track_step(t)),
        }
    }

    fn pushed_value(&mut self) -> f32 {
        if self.once_in(6) { self.odd() } else { self.value() }
    }

    /// A list of times into an output that is too short, exact or too long.
    pub fn batch(&mut self, t: &LaxTrack) -> TrackCall {
        let most = if self.once_in(8) { 100 } else { 9 };
        let times: Vec<f32> = (0..self.below(most)).map(|_| self.sample_time(t)).collect();
        let out = self.output(times.len());
        TrackCall::ValuesAt { times, out }
    }
}
