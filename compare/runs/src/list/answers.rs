//! What the rules and the Rust say to a call, as words of the list. Of a refused call that is its number;
//! where the call hands a record back a 1 follows, for the one that came.
use super::form::track_words;
use crate::input::{After, Input};
use crate::refusals::UNKNOWN;
use crate::subjects::*;
use crate::words::*;

/// What stands in a lent output before a call: 1e30, which no call writes.
const MARK: u32 = 0x7149_f2ca;
const NAN: u32 = 0x7fc0_0000;

pub fn answer(input: &Input) -> (Vec<u32>, After) {
    match input {
        Input::Easing(call) => (easing(call), After::None),
        Input::NewTween(start, end) => {
            let tween = new_tween(*start, *end);
            (plain(&tween), After::Tween(tween))
        }
        Input::Tween(t, call) => {
            let (words, after) = tween(t, call);
            (words, After::Tween(after))
        }
        Input::NewTrack => {
            let track = new_track();
            (track_words(&plain_record(&track)), After::Track(Box::new(track)))
        }
        Input::Track(t, call) => {
            let (words, after) = track(t, call);
            (words, After::Track(Box::new(after)))
        }
        Input::Log(_) | Input::Replay(_) => unreachable!("the list has no logs"),
    }
}

/// A zero is written as +0, and every NaN alike.
fn plain_record<T: Words>(record: &T) -> T {
    let mut plain = *record;
    for (word, (_, kind)) in plain.words_mut().iter_mut().zip(T::layout()) {
        if kind == Float {
            *word = plain_float(f32::from_bits(*word));
        }
    }
    plain
}

fn plain_float(x: f32) -> u32 {
    match x {
        _ if x == 0.0 => 0,
        _ if x.is_nan() => NAN,
        _ => x.to_bits(),
    }
}

fn plain<T: Words>(record: &T) -> Vec<u32> {
    plain_record(record).words().to_vec()
}

/// An answer without a record.
fn read<T: Words>(answer: &T) -> Vec<u32> {
    let words = plain(answer);
    if words[0] == 0 { words } else { vec![words[0]] }
}

/// Refused, with the record as it came; where a word is unknown there is no record to hand on.
fn refused(number: u32) -> Vec<u32> {
    if number == UNKNOWN { vec![number] } else { vec![number, 1] }
}

fn easing(call: &EasingCall) -> Vec<u32> {
    match call {
        EasingCall::Apply(e, t) => read(&applied(e, *t)),
        EasingCall::Eq(x, y) => read(&equal(x, y)),
        EasingCall::IsSupplied(e) => read(&supplied(e)),
        EasingCall::Named(place) => read(&named(*place)),
    }
}

fn tween(t: &LaxTween, call: &TweenCall) -> (Vec<u32>, LaxTween) {
    match call {
        TweenCall::Snapshot => (read(&snapped(t)), *t),
        TweenCall::Update(step) => {
            let answer = updated(t, *step);
            let words = if answer.number == 0 { plain(&answer) } else { refused(answer.number) };
            (words, answer.tween)
        }
        TweenCall::Run { steps, values, folds } => run(t, steps, *values, *folds),
        TweenCall::Value | TweenCall::Progress | TweenCall::EasedProgress | TweenCall::PlaybackDuration => {
            (read(&call.read(t)), *t)
        }
        _ => {
            let answer = call.changed(t);
            let words = if answer.number == 0 { plain(&answer) } else { refused(answer.number) };
            (words, answer.tween)
        }
    }
}

/// The number, the steps taken, the tween, or a 1 where none was taken, and both lists afterwards.
fn run(t: &LaxTween, steps: &[f32], values: usize, folds: usize) -> (Vec<u32>, LaxTween) {
    let (mut values, mut folds) = (vec![f32::from_bits(MARK); values], vec![MARK; folds]);
    let run = ran(t, steps, &mut values, &mut folds);
    if run.number == UNKNOWN {
        return (vec![UNKNOWN], run.tween);
    }
    let tween = if run.done == 0 { vec![1] } else { plain(&run.tween) };
    let head = vec![run.number, run.done as u32];
    let values = values.into_iter().map(plain_float).collect();
    ([head, tween, values, folds].concat(), run.tween)
}

fn track(t: &LaxTrack, call: &TrackCall) -> (Vec<u32>, LaxTrack) {
    match call {
        TrackCall::Push(..)
        | TrackCall::PushEased(..)
        | TrackCall::Looping(_)
        | TrackCall::Reset
        | TrackCall::SeekTo(_) => {
            let answer = call.changed(t);
            (changed_track(answer.number, &[], &answer.track), answer.track)
        }
        TrackCall::Update(step) => {
            let answer = call.stepped(t, *step);
            (changed_track(answer.number, &[answer.running], &answer.track), answer.track)
        }
        TrackCall::ValuesAt { times, out } => (batch(t, times, *out), *t),
        TrackCall::IsComplete => (read(&call.completion(t)), *t),
        _ => (read(&call.read(t)), *t),
    }
}

fn changed_track(number: u32, own: &[u32], track: &LaxTrack) -> Vec<u32> {
    if number != 0 {
        return refused(number);
    }
    [&[number], own, &track_words(&plain_record(track))].concat()
}

/// The number, how many places were filled, and the output afterwards.
fn batch(t: &LaxTrack, times: &[f32], out: usize) -> Vec<u32> {
    let mut out = vec![f32::from_bits(MARK); out];
    let answer = sampled(t, times, &mut out);
    if answer.number == UNKNOWN {
        return vec![UNKNOWN];
    }
    let out = out.into_iter().map(plain_float).collect();
    [vec![answer.number, answer.filled as u32], out].concat()
}
