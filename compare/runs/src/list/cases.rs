//! Which cases the list has: edges, and random ones of a fixed seed.
use super::written::List;
use crate::edges::lost::{BELOW_LIMIT, BELOW_POWER, LATE, ODD, SMALL, USUAL, idle, moving, running, turns};
use crate::edges::{plain_track, plain_tween, track_calls, tween_calls};
use crate::input::{After, Input};
use crate::make::Maker;
use crate::meaning;
use crate::rules::*;
use crate::subjects::*;
use crate::words::*;
use oracle::Easing;

const SEED: u64 = 2026;

/// Progresses at which an easing changes its formula, beside them and beyond 0..1.
const PROGRESSES: [f32; 17] = [
    f32::NEG_INFINITY,
    -0.5,
    -0.0,
    0.0,
    f32::from_bits(1),
    1e-6,
    0.1,
    0.25,
    1.0 / 2.75,
    0.49999997,
    0.5,
    2.0 / 2.75,
    2.5 / 2.75,
    0.99999994,
    1.0,
    1.5,
    f32::NAN,
];

pub fn all(list: &mut List) {
    named_easings(list);
    for case in 0..200 {
        easings(list, &mut Maker::new(SEED, case));
    }
    for place in 0..20 {
        edge_tween(list, &plain_tween(place / 4, place % 4));
    }
    let plain = plain_tween(ONCE, RUNNING);
    edge_tween(list, &LaxTween { time_scale: -1.0, ..plain });
    edge_tween(list, &LaxTween { state: 4, ..plain });
    for case in 0..75 {
        tweens(list, &mut Maker::new(SEED, 1_000 + case));
    }
    for place in 0..15 {
        edge_track(list, &plain_track(place / 3, place % 3));
    }
    let plain = plain_track(FOREVER, 2);
    edge_track(list, &LaxTrack { elapsed: -1.0, ..plain });
    edge_track(list, &LaxTrack { count: 65, ..plain_track(ONCE, 64) });
    edge_track(list, &LaxTrack { looping: LaxLoop { mode: 5, passes: 1 }, ..plain });
    late_tracks(list);
    lost_steps(list);
    for (mode, count) in [(FOREVER, 63), (ONCE, 64), (PING_PONG_TIMES, 64)] {
        long_track(list, &plain_track(mode, count));
    }
    for case in 0..65 {
        tracks(list, &mut Maker::new(SEED, 2_000 + case));
    }
}

fn named_easings(list: &mut List) {
    for place in 0..KINDS + 2 {
        list.add(&Input::Easing(EasingCall::Named(place)));
        let easing = LaxEasing { kind: place, ..LaxEasing::default() };
        list.add(&Input::Easing(EasingCall::IsSupplied(easing)));
    }
    for named in Easing::all_named() {
        let easing = meaning::easing_words(named);
        let ends = if is_one_of_twelve(&easing) { 15 } else { 0 };
        for t in &PROGRESSES[ends..] {
            list.add(&Input::Easing(EasingCall::Apply(easing, *t)));
        }
        list.add(&Input::Easing(EasingCall::Eq(easing, easing)));
    }
}

fn easings(list: &mut List, maker: &mut Maker) {
    let easing = if maker.once_in(5) { maker.odd_easing() } else { maker.easing() };
    for _ in 0..3 {
        list.add(&Input::Easing(EasingCall::Apply(easing, maker.progress())));
    }
    let mut other = if maker.once_in(2) { easing } else { maker.odd_easing() };
    other.words_mut()[maker.below(6) as usize] ^= maker.pick(&[1, 1 << 31]);
    list.add(&Input::Easing(EasingCall::Eq(easing, other)));
}

fn edge_tween(list: &mut List, plain: &LaxTween) {
    for call in tween_calls() {
        list.add(&Input::Tween(*plain, call));
    }
    // lost, 4,096 folds and one more
    for step in [1e-9, 8_191.0, 8_195.0] {
        list.add(&Input::Tween(*plain, TweenCall::Update(step)));
        let steps = vec![0.5, step, f32::INFINITY];
        list.add(&Input::Tween(*plain, TweenCall::Run { steps, values: 3, folds: 4 }));
    }
}

/// Three calls that change it, one behind the other, with the calls that read before each.
fn tweens(list: &mut List, maker: &mut Maker) {
    let mut tween = match maker.below(10) {
        0 => new(list, maker),
        1..3 => maker.whole_tween(),
        3..5 => maker.odd_tween(),
        5 => maker.any_tween(),
        _ => maker.tween(),
    };
    for _ in 0..3 {
        for read in TWEEN_READS {
            list.add(&Input::Tween(tween, read));
        }
        let settings = [TweenCall::Reset, TweenCall::Reverse, TweenCall::Pause, TweenCall::Resume];
        list.add(&Input::Tween(tween, settings[maker.below(4) as usize].clone()));
        let call = maker.tween_change(&tween);
        if let After::Tween(after) = list.add(&Input::Tween(tween, call)) {
            tween = after;
        }
    }
}

fn new(list: &mut List, maker: &mut Maker) -> LaxTween {
    let [start, end] = [(); 2].map(|_| if maker.once_in(4) { maker.odd() } else { maker.value() });
    match list.add(&Input::NewTween(start, end)) {
        After::Tween(tween) => tween,
        _ => unreachable!("a new tween is a tween"),
    }
}

fn edge_track(list: &mut List, plain: &LaxTrack) {
    for call in track_calls() {
        list.add(&Input::Track(Box::new(*plain), call));
    }
    let steps = LaxEasing { kind: STEPS, count: 65_537, ..LaxEasing::default() };
    list.add(&Input::Track(Box::new(*plain), TrackCall::PushEased(1.75, 5.0, steps)));
}

/// Where a step is lost, and where elapsed would pass its limit.
fn late_tracks(list: &mut List) {
    let ends = [(524_288.0, 0.02), (524_288.0, 2.0), (BELOW_LIMIT, 4.0), (LIMIT, 0.02), (LIMIT, 2.0)];
    for (mode, (elapsed, step)) in (0..5).flat_map(|mode| ends.map(|end| (mode, end))) {
        late_track(list, elapsed, mode, step);
    }
    for (elapsed, step) in LATE[..3].iter().flat_map(|elapsed| USUAL.map(|step| (*elapsed, step))) {
        late_track(list, elapsed, FOREVER, step);
    }
}

fn late_track(list: &mut List, elapsed: f32, mode: u32, step: f32) {
    list.add(&Input::Track(Box::new(moving(elapsed, mode)), TrackCall::Update(step)));
}

/// Where a step begins or ceases to be lost, and one of which the scale leaves nothing.
fn lost_steps(list: &mut List) {
    for clock in [ODD, BELOW_POWER] {
        turns(clock).for_each(|add| each_sum(list, clock, add));
    }
    for units in [3, 5] {
        each_sum(list, SMALL, f32::from_bits(units));
    }
    list.add(&Input::Tween(running(0.0, 0.5), TweenCall::Update(f32::from_bits(1))));
}

/// Within a delay, behind it, and on a track.
fn each_sum(list: &mut List, clock: f32, add: f32) {
    list.add(&Input::Tween(idle(clock), TweenCall::Update(add)));
    list.add(&Input::Tween(running(clock, 1.0), TweenCall::Update(add)));
    late_track(list, clock, FOREVER, add);
}

/// The calls that hand such a track back are few, since each holds all its frames.
fn long_track(list: &mut List, plain: &LaxTrack) {
    let mut calls = TRACK_READS.to_vec();
    calls.extend([1.25, 17.0, 32.4].map(TrackCall::ValueAt));
    calls.push(TrackCall::ValuesAt { times: (0..40).map(|place| place as f32 * 0.83).collect(), out: 41 });
    calls.extend([1.5, 1.75, 100.0].map(|time| TrackCall::Push(time, 5.0)));
    calls.push(TrackCall::PushEased(0.25, 5.0, LaxEasing::default()));
    calls.extend([0.5, f32::INFINITY].map(TrackCall::Update));
    for call in calls {
        list.add(&Input::Track(Box::new(*plain), call));
    }
}

/// As with the tweens.
fn tracks(list: &mut List, maker: &mut Maker) {
    let mut track = short_track(maker);
    if maker.once_in(6)
        && let After::Track(new) = list.add(&Input::NewTrack)
    {
        track = new;
    }
    for _ in 0..3 {
        for read in TRACK_READS {
            list.add(&Input::Track(track.clone(), read));
        }
        list.add(&Input::Track(track.clone(), TrackCall::ValueAt(maker.sample_time(&track))));
        list.add(&Input::Track(track.clone(), maker.batch(&track)));
        let call = maker.track_change(&track);
        if let After::Track(after) = list.add(&Input::Track(track.clone(), call)) {
            track = after;
        }
    }
}

/// One of few frames, and every third with an odd word or two.
fn short_track(maker: &mut Maker) -> Box<LaxTrack> {
    loop {
        let track = if maker.once_in(3) { maker.odd_track() } else { maker.track() };
        if frames(&track).len() <= 6 {
            return track;
        }
    }
}
