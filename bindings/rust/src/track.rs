use std::fmt;

use crate::ffi;
use crate::{Easing, Found, Loop, Refusal};

/// A value at a time. `easing` goes from this frame to the next.
#[derive(Clone, Copy, Debug, PartialEq)]
pub struct Keyframe {
    /// In seconds from the start of the track, +0 to 16,777,216.
    pub time: f32,
    /// At most 16,777,216 in size.
    pub value: f32,
    /// The curve up to the next frame.
    pub easing: Easing,
}

/// What many samples at once answer.
#[derive(Debug, PartialEq)]
pub struct Filled<'a> {
    /// The values: the front of the output, one for each time.
    pub values: &'a mut [f32],
    /// How many of them are not settled.
    pub unsettled: usize,
}

/// A value along frames: animato's `KeyframeTrack`, with at most [`Track::FRAMES`] frames.
///
/// ```
/// use laxombiit::{Easing, Loop, Track};
///
/// let mut track = Track::new();
/// track.push_eased(0.0, 0.0, Easing::EaseInQuad)?.push(2.0, 8.0)?.looping(Loop::PingPong)?;
/// assert!(track.update(1.0)?);
/// assert_eq!(track.value()?.value, 2.0);
/// assert!(track.update(2.5)?);
/// assert_eq!(track.active_time()?, 0.5);
/// # Ok::<(), laxombiit::Refusal>(())
/// ```
///
/// A track is 2 KB, so it is cloned only where one asks for it.
#[derive(Clone)]
pub struct Track {
    words: ffi::LaxTrack,
}

impl Track {
    /// The most frames that a track holds.
    pub const FRAMES: usize = ffi::FRAMES;

    /// No frames, `Once`.
    pub fn new() -> Track {
        let frames = [ffi::LaxKeyframe::default(); ffi::FRAMES];
        let looping = ffi::LaxLoop::default();
        let mut words = ffi::LaxTrack { frames, count: 0, elapsed: 0.0, looping, loop_count: 0, complete: 0 };
        ffi::lax_track_new(&mut words);
        Track { words }
    }

    /// A track with these parts, as an archive has them. More than 64 frames are refused with 4.
    /// Nothing else is checked: where another limit is broken, every call refuses with 4.
    ///
    /// ```
    /// use laxombiit::{Easing, Keyframe, Loop, Refusal, Track};
    ///
    /// let frames = [(0.0, 0.0), (2.0, 8.0)].map(|(time, value)| Keyframe::new(time, value, Easing::Linear));
    /// let mut track = Track::from_parts(&frames, 524_288.0, Loop::Forever, 262_144, false)?;
    /// assert_eq!(track.update(0.02), Err(Refusal::StepLost));
    /// # Ok::<(), Refusal>(())
    /// ```
    pub fn from_parts(
        frames: &[Keyframe],
        elapsed: f32,
        looping: Loop,
        loop_count: u32,
        complete: bool,
    ) -> Result<Track, Refusal> {
        let mut words = Track::new().words;
        let places = words.frames.get_mut(..frames.len()).ok_or(Refusal::RecordBreaksLimit)?;
        for (place, frame) in places.iter_mut().zip(frames) {
            *place = frame.words();
        }
        words.count = frames.len() as u32;
        words.elapsed = elapsed;
        words.looping = looping.words();
        words.loop_count = loop_count;
        words.complete = complete as u32;
        Ok(Track { words })
    }

    /// A linear frame, put in its place by time; a frame at an equal time is replaced, and -0 is
    /// stored as +0. Clears completion. Refused, and then unchanged: 11 for a time, a value or a
    /// total beyond its limit, 9 where the track is full and no frame has this time.
    ///
    /// ```
    /// use laxombiit::{Refusal, Track};
    ///
    /// let mut track = Track::new();
    /// track.push(0.0, 0.0)?.push(2.0, 8.0)?;
    /// assert_eq!(track.push(-1.0, 3.0).err(), Some(Refusal::TrackLimit));
    /// track.push(2.0, 6.0)?;
    /// assert_eq!(track.frames().len(), 2);
    /// assert_eq!(track.value_at(1.0)?.value, 3.0);
    /// # Ok::<(), Refusal>(())
    /// ```
    pub fn push(&mut self, time: f32, value: f32) -> Result<&mut Track, Refusal> {
        self.push_eased(time, value, Easing::Linear)
    }

    /// The same with an easing. Refused also: 2 for one without a curve, 3 for a parameter beyond
    /// its limit.
    pub fn push_eased(&mut self, time: f32, value: f32, easing: Easing) -> Result<&mut Track, Refusal> {
        self.push_frame(Keyframe::new(time, value, easing))
    }

    /// The same with a frame, whose time may be -0. Refused as by `push_eased`.
    ///
    /// ```
    /// use laxombiit::{Easing, Keyframe, Refusal, Track};
    ///
    /// let frame = Keyframe::new(0.0, 1.0, Easing::EaseInQuad);
    /// let mut track = Track::new();
    /// track.push_frame(frame)?.push(2.0, 9.0)?;
    /// assert_eq!(track.frames().next(), Some(frame));
    /// assert_eq!(track.value_at(1.0)?.value, 3.0);
    /// let steps = Easing::Steps(65_537);
    /// assert_eq!(track.push_frame(Keyframe { easing: steps, ..frame }).err(), Some(Refusal::EasingParameter));
    /// # Ok::<(), Refusal>(())
    /// ```
    pub fn push_frame(&mut self, frame: Keyframe) -> Result<&mut Track, Refusal> {
        self.change(|t| ffi::lax_track_push_frame(t, &frame.words()))
    }

    /// Another mode. Clears completion. Refused: 11 for passes or a total beyond its limit.
    pub fn looping(&mut self, mode: Loop) -> Result<&mut Track, Refusal> {
        self.change(|t| ffi::lax_track_looping(t, &mode.words()))
    }

    /// The value at so many seconds, and the search behind its easing. NaN and what is below 0
    /// count as 0; from the last frame on it is the last value. Refused: 10 where there are no
    /// frames.
    pub fn value_at(&self, secs: f32) -> Result<Found, Refusal> {
        Found::of(|out| ffi::lax_track_value_at(&self.words, secs, out))
    }

    /// The same at the active time. Refused: 10 where there are no frames.
    pub fn value(&self) -> Result<Found, Refusal> {
        Found::of(|out| ffi::lax_track_value(&self.words, out))
    }

    /// The values at many times, and how many of them are not settled. What lies behind the front
    /// of `out` keeps its numbers. Refused, and nothing written: 10 where there are no frames, 12
    /// where `out` is shorter than `times`.
    ///
    /// ```
    /// use laxombiit::Track;
    ///
    /// let mut track = Track::new();
    /// track.push(0.0, 0.0)?.push(2.0, 8.0)?;
    /// let mut out = [-1.0; 4];
    /// let filled = track.values_at(&[0.5, 1.0, 9.0], &mut out)?;
    /// assert_eq!((&filled.values[..], filled.unsettled), (&[2.0, 4.0, 8.0][..], 0));
    /// assert_eq!(out, [2.0, 4.0, 8.0, -1.0]);
    /// # Ok::<(), laxombiit::Refusal>(())
    /// ```
    pub fn values_at<'a>(&self, times: &[f32], out: &'a mut [f32]) -> Result<Filled<'a>, Refusal> {
        let (places, room) = (out.as_mut_ptr(), out.len() as u64);
        // SAFETY: each pointer and its length are those of one slice; the library reads within the first
        // and writes within the second.
        let filled = Refusal::or_lent(|filled: &mut ffi::LaxFilled| unsafe {
            ffi::lax_track_values_at(&self.words, times.as_ptr(), times.len() as u64, places, room, filled)
        })?;
        Ok(Filled { values: &mut out[..filled.filled as usize], unsettled: filled.unsettled as usize })
    }

    /// Moves on by `step` seconds, and says whether the track still runs. NaN and what is below 0
    /// count as 0. A track that is complete, or has fewer than two frames, stays as it is. Refused,
    /// and then unchanged: 5 for a step above 16,777,216, 6 where the f32 sum would be off by more
    /// than an eighth of it, 8 where `Forever` or `PingPong` would pass 16,777,216. What an accepted
    /// step adds is rounded too: the manual says what to carry.
    ///
    /// ```
    /// use laxombiit::Track;
    ///
    /// let mut track = Track::new();
    /// track.push(0.0, 0.0)?.push(1.0, 100.0)?;
    /// assert!(track.update(0.25)?);
    /// assert_eq!(track.value()?.value, 25.0);
    /// assert!(!track.update(3.25)?);
    /// assert_eq!((track.elapsed(), track.loop_count()), (1.0, 3));
    /// # Ok::<(), laxombiit::Refusal>(())
    /// ```
    pub fn update(&mut self, step: f32) -> Result<bool, Refusal> {
        let running = Refusal::or_lent(|out| ffi::lax_track_update(&mut self.words, step, out))?;
        Ok(running != 0)
    }

    /// Where in a pass, in seconds; 0 without frames.
    pub fn active_time(&self) -> Result<f32, Refusal> {
        Refusal::or_lent(|out| ffi::lax_track_active_time(&self.words, out))
    }

    /// One pass: the last frame's time, or 0 without frames.
    pub fn duration(&self) -> Result<f32, Refusal> {
        Refusal::or_lent(|out| ffi::lax_track_duration(&self.words, out))
    }

    /// All passes; infinity in the modes without an end.
    pub fn playback_duration(&self) -> Result<f32, Refusal> {
        Refusal::or_lent(|out| ffi::lax_track_playback_duration(&self.words, out))
    }

    /// How far along from 0 to 1: in all passes, or in this one where there is no end.
    pub fn progress(&self) -> Result<f32, Refusal> {
        Refusal::or_lent(|out| ffi::lax_track_progress(&self.words, out))
    }

    /// Whether playback is over; true also with fewer than two frames.
    pub fn is_complete(&self) -> Result<bool, Refusal> {
        let complete = Refusal::or_lent(|out| ffi::lax_track_is_complete(&self.words, out))?;
        Ok(complete != 0)
    }

    /// Back to the start.
    pub fn reset(&mut self) -> Result<(), Refusal> {
        self.change(|t| ffi::lax_track_reset(t)).map(drop)
    }

    /// To a place from 0 to 1, measured as `progress` is. Refused: 1 where it is NaN.
    pub fn seek_to(&mut self, progress: f32) -> Result<(), Refusal> {
        self.change(|t| ffi::lax_track_seek_to(t, progress)).map(drop)
    }

    /// The frames, by time.
    pub fn frames(&self) -> impl ExactSizeIterator<Item = Keyframe> + DoubleEndedIterator + '_ {
        self.words.frames[..self.words.count as usize].iter().map(Keyframe::from_words)
    }

    /// In seconds, over all passes.
    pub fn elapsed(&self) -> f32 {
        self.words.elapsed
    }

    /// What happens at the end of a pass.
    pub fn loop_mode(&self) -> Loop {
        Loop::from_words(self.words.looping)
    }

    /// Whole passes, counted before `elapsed` is cut at the end.
    pub fn loop_count(&self) -> u32 {
        self.words.loop_count
    }

    /// The flag alone; [`Track::is_complete`] looks at the number of frames too.
    pub fn complete(&self) -> bool {
        self.words.complete != 0
    }

    /// A refused call changes no word.
    fn change(&mut self, call: impl FnOnce(&mut ffi::LaxTrack) -> u32) -> Result<&mut Track, Refusal> {
        Refusal::or(call(&mut self.words), self)
    }
}

impl Default for Track {
    fn default() -> Track {
        Track::new()
    }
}

impl PartialEq for Track {
    fn eq(&self, other: &Track) -> bool {
        self.frames().eq(other.frames())
            && self.elapsed() == other.elapsed()
            && self.loop_mode() == other.loop_mode()
            && self.loop_count() == other.loop_count()
            && self.complete() == other.complete()
    }
}

impl fmt::Debug for Track {
    fn fmt(&self, f: &mut fmt::Formatter<'_>) -> fmt::Result {
        f.debug_struct("Track")
            .field("frames", &self.frames().collect::<Vec<_>>())
            .field("elapsed", &self.elapsed())
            .field("looping", &self.loop_mode())
            .field("loop_count", &self.loop_count())
            .field("complete", &self.complete())
            .finish()
    }
}

impl Keyframe {
    /// A frame with these parts. Nothing is checked.
    pub fn new(time: f32, value: f32, easing: Easing) -> Keyframe {
        Keyframe { time, value, easing }
    }

    fn words(&self) -> ffi::LaxKeyframe {
        ffi::LaxKeyframe { time: self.time, value: self.value, easing: self.easing.words() }
    }

    fn from_words(w: &ffi::LaxKeyframe) -> Keyframe {
        Keyframe::new(w.time, w.value, Easing::from_words(w.easing))
    }
}
