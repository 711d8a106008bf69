use super::Case;
use crate::ffi::{log_head, log_record, log_replay};
use crate::words::{LaxEvent, ReplayPlace};
use crate::{inputs, meaning, rust, side};
use oracle::Easing;
use std::hint::black_box;

/// In a pass: three steps of different lengths, then a pause.
const RECORDS: usize = 1_000;

/// In a pass: steps, of which about every fourth folds.
const REPLAYED: usize = 4_000;
const LOST: usize = 512;

const REPLAY_BAR: f64 = 2.0;

pub fn cases() -> Vec<Case> {
    vec![written(), replayed()]
}

fn events() -> Vec<LaxEvent> {
    let steps = inputs::below(100.0, RECORDS);
    (0..)
        .zip(steps)
        .map(|(place, step)| LaxEvent { kind: if place % 4 == 3 { 2 } else { 1 }, step })
        .collect()
}

fn written() -> Case {
    let (events, same) = (events(), events());
    Case {
        name: "log record".to_string(),
        bar: None,
        answers: RECORDS as f64,
        size: 1,
        ours: side::filling(5 + 8 * RECORDS, move |log: &mut [u8]| {
            let mut written = 0;
            log_head(log, &mut written);
            for event in &events {
                log_record(log, &mut written, event);
            }
        }),
        rust: side::filling(5 + 8 * RECORDS, move |log: &mut [u8]| {
            let mut written = rust::log_head(log).expect("room");
            for event in &same {
                written = rust::log_record(log, written, *event).expect("a record");
            }
        }),
    }
}

/// A log of steps, from whose middle some are lost.
fn log() -> Vec<u8> {
    let mut log = inputs::log(REPLAYED + LOST);
    let middle = 5 + 8 * (REPLAYED / 2);
    log.drain(middle..middle + 8 * LOST);
    log
}

/// The answers are the gaps, and behind them what is missing and where the tween stands.
fn replayed() -> Case {
    let first = inputs::tween(&Easing::Linear, 1.0, 0.0);
    let (begun, log, same) = (meaning::tween(&first), log(), log());
    let end = |answers: &mut [u16], missing: u64, elapsed: f32| {
        let bits = elapsed.to_bits();
        answers[REPLAYED..].copy_from_slice(&[missing as u16, bits as u16, (bits >> 16) as u16]);
    };
    Case {
        name: format!("log replay of {REPLAYED} records"),
        bar: Some(REPLAY_BAR),
        answers: REPLAYED as f64,
        size: 1,
        ours: side::filling(REPLAYED + 3, move |answers: &mut [u16]| {
            let (mut tween, mut reached) = (first, ReplayPlace { missing: 0, folds: 0, last: 0, done: 0 });
            let number = log_replay(black_box(&mut tween), &log, &mut answers[..REPLAYED], &mut reached);
            assert_eq!((number, reached.done), (0, REPLAYED as u64));
            end(answers, reached.missing, tween.elapsed);
        }),
        rust: side::filling(REPLAYED + 3, move |answers: &mut [u16]| {
            let mut tween = begun.clone();
            let missing = rust::log_replay(black_box(&mut tween), &same, &mut answers[..REPLAYED]);
            end(answers, missing.expect("a log"), tween.elapsed());
        }),
    }
}
