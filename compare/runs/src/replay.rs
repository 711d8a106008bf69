//! A log replayed and its gaps counted: the request's sentences, written apart from the library. What a
//! record does to the tween is the Rust's answer, where the rules accept the call.
use crate::log::{HEAD, RECORD, read_record};
use crate::meaning;
use crate::rules::{self, NO_RECORD, PAUSE, RESUME, STEP};
use crate::subjects::{TweenCall, updated};
use crate::words::{LaxEvent, LaxReplay, LaxReplayed, LaxTween};

/// What is missing before a record that has the number of the one before.
const REPEAT: i64 = 65_535;
const WRONG_RECORD: u32 = 18;

/// Where nothing was read.
pub fn begun(t: &LaxTween) -> LaxReplay {
    LaxReplay { missing: 0, folds: 0, last: NO_RECORD, tween: *t }
}

/// A log from its head on.
pub fn replayed(t: &LaxTween, log: &[u8], gaps: &mut [u16]) -> LaxReplayed {
    match rules::replay_refused(t, log, gaps.len()) {
        0 => read(begun(t), &log[HEAD..], gaps),
        number => LaxReplayed { done: 0, number, reached: begun(t) },
    }
}

/// The records that follow.
pub fn replayed_on(reached: &LaxReplay, records: &[u8], gaps: &mut [u16]) -> LaxReplayed {
    match rules::replay_on_refused(reached, records.len(), gaps.len()) {
        0 => read(*reached, records, gaps),
        number => LaxReplayed { done: 0, number, reached: *reached },
    }
}

/// Record by record, up to the first that is refused.
fn read(reached: LaxReplay, records: &[u8], gaps: &mut [u16]) -> LaxReplayed {
    let mut answer = LaxReplayed { done: 0, number: 0, reached };
    for (record, place) in records.chunks(RECORD).zip(gaps) {
        match heard(&answer.reached, record) {
            Ok((gap, after)) => {
                *place = gap;
                answer.reached = after;
                answer.done += 1;
            }
            Err(number) => {
                answer.number = number;
                break;
            }
        }
    }
    answer.reached.tween = meant(&answer.reached.tween);
    answer
}

/// What is missing before a record, and where the replay is behind it; or why it is refused.
pub fn heard(before: &LaxReplay, record: &[u8]) -> Result<(u16, LaxReplay), u32> {
    let entry = read_record(record).ok_or(WRONG_RECORD)?;
    let gap = gap(before.last, entry.number);
    if gap == REPEAT {
        return Ok((gap as u16, *before));
    }
    let (tween, folds) = played(&before.tween, &entry.event)?;
    let missing = sum(before.missing, gap as u128);
    let folds = sum(before.folds, folds.into());
    Ok((gap as u16, LaxReplay { missing, folds, last: entry.number, tween }))
}

/// From 0 to 65,535.
fn gap(last: u32, number: u32) -> i64 {
    if last == NO_RECORD {
        return 0;
    }
    (i64::from(number) - i64::from(last) - 1).rem_euclid(65_536)
}

fn sum(before: u64, more: u128) -> u64 {
    u64::try_from(u128::from(before) + more).unwrap_or(u64::MAX)
}

/// The tween behind an event, and the folds that it made; or why the tween refuses it.
pub fn played(t: &LaxTween, event: &LaxEvent) -> Result<(LaxTween, u32), u32> {
    let call = match event.kind {
        STEP => {
            let after = updated(t, event.step);
            return if after.number == 0 { Ok((after.tween, after.folds)) } else { Err(after.number) };
        }
        PAUSE => TweenCall::Pause,
        RESUME => TweenCall::Resume,
        _ => TweenCall::Reset,
    };
    let after = call.changed(t);
    if after.number == 0 { Ok((after.tween, 0)) } else { Err(after.number) }
}

/// Words that the tween has no use for are 0, and a flag is 0 or 1.
fn meant(t: &LaxTween) -> LaxTween {
    meaning::tween_words(&meaning::tween(t))
}
