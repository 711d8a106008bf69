//! One call with all that it is given: what a run tries, shows and makes smaller.
mod log;
mod replay;

use crate::difference::{Difference, shown};
use crate::rules::frames;
use crate::subjects::*;
use crate::words::*;

#[derive(Clone)]
pub enum Input {
    Easing(EasingCall),
    NewTween(f32, f32),
    Tween(LaxTween, TweenCall),
    NewTrack,
    Track(Box<LaxTrack>, TrackCall),
    Log(LogCall),
    Replay(ReplayCall),
}

/// The record after a call.
pub enum After {
    None,
    Tween(LaxTween),
    Track(Box<LaxTrack>),
}

impl Input {
    pub fn name(&self) -> &'static str {
        match self {
            Input::Easing(call) => call.name(),
            Input::NewTween(..) => NEW_TWEEN,
            Input::Tween(_, call) => call.name(),
            Input::NewTrack => NEW_TRACK,
            Input::Track(_, call) => call.name(),
            Input::Log(call) => call.name(),
            Input::Replay(call) => call.name(),
        }
    }

    pub fn check(&self) -> Result<(u32, After), Difference> {
        match self {
            Input::Easing(call) => call.check().map(|number| (number, After::None)),
            Input::NewTween(start, end) => check_new_tween(*start, *end).map(|t| (0, After::Tween(t))),
            Input::Tween(t, call) => call.check(t).map(|(number, t)| (number, After::Tween(t))),
            Input::NewTrack => check_new_track().map(|t| (0, After::Track(Box::new(t)))),
            Input::Track(t, call) => {
                let (number, after) = call.check(t)?;
                Ok((number, after.map_or(After::None, After::Track)))
            }
            Input::Log(call) => call.check().map(|number| (number, After::None)),
            Input::Replay(call) => call.check().map(|number| (number, After::None)),
        }
    }

    /// Every word of the input, with its name.
    pub fn words(&mut self) -> Vec<(String, Kind, &mut u32)> {
        match self {
            Input::Easing(call) => easing_words(call),
            Input::NewTween(start, end) => vec![float("start", start), float("end", end)],
            Input::Tween(t, call) => [record("tween", t), tween_words(call)].into_iter().flatten().collect(),
            Input::NewTrack => vec![],
            Input::Track(t, call) => {
                [record("track", t.as_mut()), track_words(call)].into_iter().flatten().collect()
            }
            Input::Log(call) => log::words(call),
            Input::Replay(call) => replay::words(call),
        }
    }

    /// The length of each list, with its name.
    pub fn lengths(&self) -> Vec<(&'static str, usize)> {
        match self {
            Input::Tween(_, TweenCall::Run { steps, values, folds }) => {
                vec![("steps", steps.len()), ("values", *values), ("folds", *folds)]
            }
            Input::Track(_, TrackCall::ValuesAt { times, out }) => {
                vec![("times", times.len()), ("out", *out)]
            }
            Input::Log(call) => log::lengths(call),
            Input::Replay(call) => replay::lengths(call),
            _ => vec![],
        }
    }

    /// The same with one frame, one element of a list or one record of a log less.
    pub fn shorter(&self) -> Vec<Input> {
        let mut all = Vec::new();
        if let Input::Track(t, call) = self {
            for place in 0..frames(t).len() {
                all.push(Input::Track(Box::new(without_frame(t, place)), call.clone()));
            }
        }
        match self {
            Input::Tween(t, TweenCall::Run { steps, values, folds }) => {
                for place in 0..steps.len() {
                    let (values, folds) = (values.saturating_sub(1), folds.saturating_sub(1));
                    all.push(Input::Tween(
                        *t,
                        TweenCall::Run { steps: without(steps, place), values, folds },
                    ));
                }
            }
            Input::Track(t, TrackCall::ValuesAt { times, out }) => {
                for place in 0..times.len() {
                    let times = without(times, place);
                    all.push(Input::Track(
                        t.clone(),
                        TrackCall::ValuesAt { times, out: out.saturating_sub(1) },
                    ));
                }
            }
            Input::Log(call) => all.extend(log::shorter(call).into_iter().map(Input::Log)),
            Input::Replay(call) => all.extend(replay::shorter(call).into_iter().map(Input::Replay)),
            _ => {}
        }
        all
    }

    /// Line by line, as bits and as decimals; a word that is not shown is 0.
    pub fn show(&mut self) -> String {
        let mut text = format!("    {}\n", self.name());
        for (name, length) in self.lengths() {
            text += &format!("    {name}: {length} places\n");
        }
        for (name, kind, word) in self.words() {
            if *word != 0 {
                text += &format!("    {name} = {}\n", shown(*word, kind));
            }
        }
        text
    }
}

fn without<T: Clone>(list: &[T], place: usize) -> Vec<T> {
    let mut list = list.to_vec();
    list.remove(place);
    list
}

fn without_frame(t: &LaxTrack, place: usize) -> LaxTrack {
    let mut track = *t;
    track.frames.copy_within(place + 1.., place);
    track.frames[PLACES - 1] = LaxKeyframe::default();
    track.count = frames(t).len() as u32 - 1;
    track
}

fn float<'a>(name: &str, x: &'a mut f32) -> (String, Kind, &'a mut u32) {
    (name.to_string(), Float, unsafe { &mut *(x as *mut f32).cast() })
}

fn record<'a, T: Words>(name: &str, t: &'a mut T) -> Vec<(String, Kind, &'a mut u32)> {
    let named = |((word, kind), place)| (format!("{name}.{word}"), kind, place);
    T::layout().into_iter().zip(t.words_mut()).map(named).collect()
}

fn list<'a>(name: &str, list: &'a mut [f32]) -> Vec<(String, Kind, &'a mut u32)> {
    list.iter_mut().enumerate().map(|(place, x)| float(&format!("{name}[{place}]"), x)).collect()
}

fn easing_words(call: &mut EasingCall) -> Vec<(String, Kind, &mut u32)> {
    match call {
        EasingCall::Apply(e, t) => {
            let mut words = record("easing", e);
            words.push(float("t", t));
            words
        }
        EasingCall::Eq(x, y) => [record("x", x), record("y", y)].into_iter().flatten().collect(),
        EasingCall::IsSupplied(e) => record("easing", e),
        EasingCall::Named(place) => vec![("place".into(), Whole, place)],
    }
}

fn tween_words(call: &mut TweenCall) -> Vec<(String, Kind, &mut u32)> {
    match call {
        TweenCall::Seek(progress) => vec![float("progress", progress)],
        TweenCall::Update(step) => vec![float("step", step)],
        TweenCall::Run { steps, .. } => list("steps", steps),
        _ => vec![],
    }
}

fn track_words(call: &mut TrackCall) -> Vec<(String, Kind, &mut u32)> {
    match call {
        TrackCall::Push(time, value) => vec![float("time", time), float("value", value)],
        TrackCall::PushEased(time, value, easing) => {
            let mut words = vec![float("time", time), float("value", value)];
            words.extend(record("easing", easing));
            words
        }
        TrackCall::Looping(mode) => record("mode", mode),
        TrackCall::ValueAt(secs) => vec![float("secs", secs)],
        TrackCall::ValuesAt { times, .. } => list("times", times),
        TrackCall::Update(step) => vec![float("step", step)],
        TrackCall::SeekTo(progress) => vec![float("progress", progress)],
        _ => vec![],
    }
}
