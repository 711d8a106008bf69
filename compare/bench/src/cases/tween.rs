use super::{BEZIER_BAR, Case, EASINGS, name_of};
use crate::ffi::{lax_tween_update, lax_tween_value, tween_run};
use crate::inputs::MANY;
use crate::rules::{COMPLETED, FOREVER, IDLE, ONCE, PAUSED, PING_PONG, PING_PONG_TIMES, TIMES};
use crate::side::{Stepped, Valued};
use crate::words::{CountedPlace, FoundPlace, LaxTween, UpdatedPlace};
use crate::{inputs, meaning, rust, side};
use oracle::Easing;
use std::hint::black_box;

/// In a pass, each from the record that the one before handed back; the first from the same in every pass.
const STEPS: usize = 1_000;

/// With at most one fold, with many, and in the states in which nothing is folded.
const UPDATE_BAR: f64 = 2.5;
const MANY_FOLDS_BAR: f64 = 8.0;
const STATE_BAR: f64 = 4.0;
const VALUE_BAR: f64 = 3.0;
const RUN_BAR: f64 = 1.3;

const MODES: [(&str, u32); 5] = [
    ("Once", ONCE),
    ("Times", TIMES),
    ("Forever", FOREVER),
    ("PingPong", PING_PONG),
    ("PingPongTimes", PING_PONG_TIMES),
];

pub fn cases() -> Vec<Case> {
    let mut cases = Vec::new();
    for (name, mode) in MODES {
        for folds in if mode == ONCE { 0..1 } else { 0..2 } {
            cases.push(Case { bar: Some(UPDATE_BAR), ..update(name, mode, folds) });
        }
    }
    cases.push(Case { bar: Some(UPDATE_BAR), ..completing() });
    cases.push(Case { bar: Some(MANY_FOLDS_BAR), ..update("Forever", FOREVER, 100) });
    let states = [("Idle", IDLE), ("Paused", PAUSED), ("Completed", COMPLETED)];
    cases.extend(states.map(|(name, state)| Case { bar: Some(STATE_BAR), ..standing(name, state) }));
    cases.extend(EASINGS.iter().map(value));
    cases.extend([0, 1].map(run));
    cases
}

pub fn growing_folds() -> Vec<Case> {
    [0, 1, 10, 100, 1_000, 4_096].map(|folds| update("Forever", FOREVER, folds)).into()
}

fn value_bar(easing: &Easing) -> Option<f64> {
    match easing {
        Easing::Linear => Some(VALUE_BAR),
        Easing::CubicBezier(..) => Some(BEZIER_BAR),
        _ => None,
    }
}

fn folded(folds: u32) -> String {
    match folds {
        0 => "no fold".to_string(),
        1 => "1 fold".to_string(),
        _ => format!("{folds} folds"),
    }
}

fn update(mode: &str, number: u32, folds: u32) -> Case {
    let (first, steps) = inputs::stepping(number, folds, STEPS);
    Case { name: format!("update, {mode}, {}", folded(folds)), size: folds as usize, ..stepped(first, steps) }
}

/// In a state in which a step does little: within a delay, paused, completed.
fn standing(name: &str, state: u32) -> Case {
    let running = inputs::tween(&Easing::Linear, 1.0, 0.0);
    let first = LaxTween { state, delay: 100_000.0, ..running };
    let steps = inputs::below(1.0, STEPS);
    Case { name: format!("update, {name}"), ..stepped(first, steps) }
}

/// The update that completes a tween; the tween is copied before each, on both sides.
fn completing() -> Case {
    let (first, _) = inputs::stepping(ONCE, 0, STEPS);
    let steps: Vec<f32> = inputs::below(1.0, STEPS).iter().map(|part| STEPS as f32 + part).collect();
    let (begun, same) = (meaning::tween(&first), steps.clone());
    Case {
        name: "update, Once, completing a copy".to_string(),
        bar: None,
        answers: STEPS as f64,
        size: 1,
        ours: side::filling(STEPS, move |answers| {
            let mut out = UpdatedPlace::default();
            for (answer, step) in answers.iter_mut().zip(&steps) {
                let mut tween = *black_box(&first);
                let number = lax_tween_update(black_box(&mut tween), *step, &mut out);
                *answer = Stepped { number, running: out.running, elapsed: tween.elapsed };
            }
        }),
        rust: side::filling(STEPS, move |answers| {
            for (answer, step) in answers.iter_mut().zip(&same) {
                let mut tween = black_box(&begun).clone();
                let running = rust::update(black_box(&mut tween), *step);
                *answer = Stepped { number: 0, running: running.into(), elapsed: tween.elapsed() };
            }
        }),
    }
}

/// One update behind the other.
fn stepped(first: LaxTween, steps: Vec<f32>) -> Case {
    let (begun, same) = (meaning::tween(&first), steps.clone());
    Case {
        name: String::new(),
        bar: None,
        answers: STEPS as f64,
        size: 1,
        ours: side::filling(STEPS, move |answers| {
            let (mut tween, mut out) = (first, UpdatedPlace::default());
            for (answer, step) in answers.iter_mut().zip(&steps) {
                let number = lax_tween_update(black_box(&mut tween), *step, &mut out);
                *answer = Stepped { number, running: out.running, elapsed: tween.elapsed };
            }
        }),
        rust: side::filling(STEPS, move |answers| {
            let mut tween = begun.clone();
            for (answer, step) in answers.iter_mut().zip(&same) {
                let running = rust::update(black_box(&mut tween), *step);
                *answer = Stepped { number: 0, running: running.into(), elapsed: tween.elapsed() };
            }
        }),
    }
}

fn value(easing: &Easing) -> Case {
    let at = |elapsed: &f32| inputs::tween(easing, 1.0, *elapsed);
    let words: Vec<LaxTween> = inputs::below(1.0, MANY).iter().map(at).collect();
    let tweens: Vec<_> = words.iter().map(meaning::tween).collect();
    Case {
        name: format!("value, {}", name_of(easing)),
        bar: value_bar(easing),
        answers: MANY as f64,
        size: 1,
        ours: side::filling(MANY, move |answers| {
            let mut out = FoundPlace::default();
            for (answer, tween) in answers.iter_mut().zip(black_box(&words)) {
                let number = lax_tween_value(tween, &mut out);
                *answer = Valued { number, value: out.value };
            }
        }),
        rust: side::filling(MANY, move |answers| {
            for (answer, tween) in answers.iter_mut().zip(black_box(&tweens)) {
                *answer = rust::value(tween);
            }
        }),
    }
}

fn run(folds: u32) -> Case {
    let (first, steps) = inputs::stepping(FOREVER, folds, STEPS);
    let (begun, same, mut made) = (meaning::tween(&first), steps.clone(), vec![0; STEPS]);
    Case {
        name: format!("run of {STEPS} steps, {} a step", folded(folds)),
        bar: Some(RUN_BAR),
        answers: STEPS as f64,
        size: STEPS,
        ours: side::filling(STEPS, move |values| {
            let (mut tween, mut out) = (first, CountedPlace { count: 0, unsettled: 0 });
            assert_eq!(tween_run(black_box(&mut tween), &steps, values, &mut made, &mut out), 0);
        }),
        rust: side::filling(STEPS, move |values| {
            rust::run(black_box(&mut begun.clone()), &same, values);
        }),
    }
}
