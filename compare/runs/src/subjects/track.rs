use crate::calls::*;
use crate::difference::{Difference, answered, must, same_bits, same_count, same_list};
use crate::ffi::{
    lax_track_looping, lax_track_push, lax_track_push_eased, lax_track_push_frame, lax_track_reset,
    lax_track_seek_to,
};
use crate::meaning;
use crate::rules;
use crate::search::{self, Search};
use crate::subjects::{GUARD, SENTINEL, bits, found};
use crate::words::*;
use oracle::{KeyframeTrack, Playable, Update};

#[derive(Clone)]
pub enum TrackCall {
    Push(f32, f32),
    PushEased(f32, f32, LaxEasing),
    Looping(LaxLoop),
    ValueAt(f32),
    Value,
    ValuesAt { times: Vec<f32>, out: usize },
    Update(f32),
    ActiveTime,
    Duration,
    PlaybackDuration,
    Progress,
    IsComplete,
    Reset,
    SeekTo(f32),
}

use TrackCall::*;

/// The calls that only read, without an argument.
pub const TRACK_READS: [TrackCall; 6] = [Value, ActiveTime, Duration, PlaybackDuration, Progress, IsComplete];

/// The number of the answer, and the track after the call where the call hands one back.
type Checked = Result<(u32, Option<Box<LaxTrack>>), Difference>;

impl TrackCall {
    pub fn name(&self) -> &'static str {
        match self {
            Push(..) => "track push",
            PushEased(..) => "track push_eased",
            Looping(_) => "track looping",
            ValueAt(_) => "track value_at",
            Value => "track value",
            ValuesAt { .. } => "track values_at",
            Update(_) => "track update",
            ActiveTime => "track active_time",
            Duration => "track duration",
            PlaybackDuration => "track playback_duration",
            Progress => "track progress",
            IsComplete => "track is_complete",
            Reset => "track reset",
            SeekTo(_) => "track seek_to",
        }
    }

    pub fn check(&self, t: &LaxTrack) -> Checked {
        let name = self.name();
        match self {
            Push(..) | PushEased(..) | Looping(_) | Reset | SeekTo(_) => {
                let LaxTrackChanged { number, track } = self.changed(t);
                let expected = LaxTrackChanged { number, track: self.onto(t, number, track) };
                let ours = answered(name, self.change(t), expected)?;
                if let Some(frame) = self.pushed() {
                    same_bits(
                        "track push_frame",
                        &track_changed(t, |t| lax_track_push_frame(t, &frame)),
                        &ours,
                    )?;
                }
                self.kept(ours.number, t, ours.track)
            }
            Update(step) => {
                let after = self.stepped(t, *step);
                let expected = LaxTrackUpdated { track: self.onto(t, after.number, after.track), ..after };
                let ours = answered(name, track_update(t, *step), expected)?;
                self.kept(ours.number, t, ours.track)
            }
            ValuesAt { times, out } => self.samples(t, times, *out),
            IsComplete => {
                let ours = answered(name, track_is_complete(t), self.completion(t))?;
                Ok((ours.number, None))
            }
            ValueAt(_) | Value => {
                let expected = found(self.read(t), || self.search(t));
                answered(name, self.find(t), expected).map(|ours| (ours.number, None))
            }
            _ => answered(name, self.value(t), self.read(t)).map(|ours| (ours.number, None)),
        }
    }

    /// Words that a kind or a mode has no use for stay as they came, with the frame or the mode.
    fn onto(&self, came: &LaxTrack, number: u32, t: LaxTrack) -> LaxTrack {
        if number != 0 {
            return t;
        }
        let pushed = self.pushed();
        let mut track = t;
        for frame in &mut track.frames[..t.count as usize] {
            *frame = meaning::frame_onto(pushed.iter().chain(rules::frames(came)), frame);
        }
        let looping = if let Looping(mode) = self { *mode } else { came.looping };
        LaxTrack { looping, ..track }
    }

    fn refused(&self, t: &LaxTrack) -> u32 {
        match self {
            Push(..) | PushEased(..) => self.pushed().map_or(0, |frame| rules::push_refused(t, &frame)),
            Looping(mode) => rules::looping_refused(t, mode),
            ValueAt(_) | Value => rules::sample_refused(t),
            ValuesAt { times, out } => rules::samples_refused(t, times.len(), *out),
            Update(step) => rules::track_update_refused(t, *step),
            SeekTo(progress) => rules::seek_to_refused(t, *progress),
            ActiveTime | Duration | PlaybackDuration | Progress | IsComplete | Reset => {
                rules::track_refused(t)
            }
        }
    }

    /// The frame of a push.
    fn pushed(&self) -> Option<LaxKeyframe> {
        match self {
            Push(time, value) => Some(LaxKeyframe::new(*time, *value, LaxEasing::default())),
            PushEased(time, value, easing) => Some(LaxKeyframe::new(*time, *value, *easing)),
            _ => None,
        }
    }

    fn change(&self, t: &LaxTrack) -> LaxTrackChanged {
        match self {
            Push(time, value) => track_changed(t, |t| lax_track_push(t, *time, *value)),
            PushEased(time, value, easing) => {
                track_changed(t, |t| lax_track_push_eased(t, *time, *value, easing))
            }
            Looping(mode) => track_changed(t, |t| lax_track_looping(t, mode)),
            SeekTo(progress) => track_changed(t, |t| lax_track_seek_to(t, *progress)),
            _ => track_changed(t, |t| lax_track_reset(t)),
        }
    }

    fn changed_rust(&self, t: &LaxTrack) -> KeyframeTrack<f32> {
        let mut track = meaning::track(t);
        match self {
            Push(time, value) => return track.push(*time, *value),
            PushEased(time, value, easing) => {
                return track.push_eased(*time, *value, meaning::easing(easing));
            }
            Looping(mode) => return track.looping(meaning::looping(mode)),
            SeekTo(progress) => track.seek_to(*progress),
            _ => track.reset(),
        }
        track
    }

    /// Of the calls that hand the track back and nothing else.
    pub fn changed(&self, t: &LaxTrack) -> LaxTrackChanged {
        match self.refused(t) {
            0 => LaxTrackChanged { number: 0, track: meaning::track_words(&self.changed_rust(t), t) },
            number => LaxTrackChanged { number, track: *t },
        }
    }

    pub fn stepped(&self, t: &LaxTrack, step: f32) -> LaxTrackUpdated {
        let number = self.refused(t);
        if number != 0 {
            return LaxTrackUpdated { number, running: 0, track: *t };
        }
        let mut track = meaning::track(t);
        let running = track.update(meaning::secs(step)).into();
        LaxTrackUpdated { number, running, track: meaning::track_words(&track, t) }
    }

    /// An accepted call hands back a track within its limits, so a pushed -0 is stored as +0; the places
    /// behind its frames are those that came, to the bit.
    fn kept(&self, number: u32, came: &LaxTrack, t: LaxTrack) -> Checked {
        let kept = number != 0 || !rules::track_breaks(&t);
        must(&format!("{}: within limits afterwards", self.name()), kept)?;
        let behind = 8 * rules::frames(&t).len()..8 * PLACES;
        let kept = t.words()[behind.clone()] == came.words()[behind];
        must(&format!("{}: places behind the frames kept", self.name()), kept)?;
        Ok((number, Some(Box::new(t))))
    }

    fn find(&self, t: &LaxTrack) -> LaxFound {
        match self {
            ValueAt(secs) => track_value_at(t, *secs),
            _ => track_value(t),
        }
    }

    fn search(&self, t: &LaxTrack) -> Search {
        match self {
            ValueAt(secs) => search::of_track(t, *secs),
            _ => search::of_track(t, meaning::track(t).time_in_pass()),
        }
    }

    fn value(&self, t: &LaxTrack) -> LaxValue {
        match self {
            ActiveTime => track_active_time(t),
            Duration => track_duration(t),
            PlaybackDuration => track_playback_duration(t),
            _ => track_progress(t),
        }
    }

    /// Of the calls that answer one value.
    pub fn read(&self, t: &LaxTrack) -> LaxValue {
        let number = self.refused(t);
        if number != 0 {
            return LaxValue { number, value: 0.0 };
        }
        let track = meaning::track(t);
        let value = match self {
            ValueAt(secs) => track.value_at(meaning::secs(*secs)).expect("there are frames"),
            Value => track.value().expect("there are frames"),
            ActiveTime => track.time_in_pass(),
            Duration => track.duration(),
            PlaybackDuration => Playable::duration(&track),
            _ => track.progress(),
        };
        LaxValue { number, value }
    }

    fn samples(&self, t: &LaxTrack, times: &[f32], out: usize) -> Checked {
        let mut ours = vec![SENTINEL; out + GUARD];
        let mut expected = ours.clone();
        let lent = times.to_vec();
        let answer = track_values_at(t, &lent, &mut ours[..out]);
        let LaxFilled { filled, unsettled, number } = sampled(t, times, &mut expected[..out]);
        let name = self.name();
        same_count(format!("{name}: number"), answer.number as usize, number as usize)?;
        same_count(format!("{name}: filled"), answer.filled, filled)?;
        same_count(format!("{name}: unsettled"), answer.unsettled, unsettled)?;
        same_list(&format!("{name}: out"), Float, &bits(&ours), &bits(&expected), filled)?;
        same_list(&format!("{name}: times"), Float, &bits(&lent), &bits(times), 0)?;
        Ok((number, None))
    }

    pub fn completion(&self, t: &LaxTrack) -> LaxFlag {
        match self.refused(t) {
            0 => LaxFlag { number: 0, flag: meaning::track(t).is_complete().into() },
            number => LaxFlag { number, flag: 0 },
        }
    }
}

/// The values at many times.
pub fn sampled(t: &LaxTrack, times: &[f32], out: &mut [f32]) -> LaxFilled {
    let number = rules::samples_refused(t, times.len(), out.len());
    let filled = if number == 0 { times.len() } else { 0 };
    let mut unsettled = 0;
    if number == 0 {
        let track = meaning::track(t);
        let sampled =
            times.iter().map(|secs| track.value_at(meaning::secs(*secs)).expect("there are frames"));
        out.iter_mut().zip(sampled).for_each(|(place, value)| *place = value);
        unsettled = times.iter().filter(|secs| !search::of_track(t, **secs).settled).count();
    }
    LaxFilled { filled, unsettled, number }
}

pub const NEW_TRACK: &str = "track new";

pub fn new_track() -> LaxTrack {
    meaning::track_words(&KeyframeTrack::new(), &LaxTrack::default())
}

pub fn check_new_track() -> Result<LaxTrack, Difference> {
    let ours = track_new();
    same_bits(NEW_TRACK, &ours, &new_track())?;
    Ok(ours)
}
