//! The input of a replay: its words, its lengths, and what is shorter.
use super::log::{all_events, bytes, fewer_records, long, without_last};
use super::{record, without};
use crate::log::HEAD;
use crate::subjects::ReplayCall::{self, *};
use crate::words::{Kind, Whole};

pub fn words(call: &mut ReplayCall) -> Vec<(String, Kind, &mut u32)> {
    let all = match call {
        Log { tween, log, .. } => vec![record("tween", tween), bytes("log", log)],
        On { reached, records, .. } => vec![
            long("missing", &mut reached.missing),
            long("folds", &mut reached.folds),
            vec![("last".to_string(), Whole, &mut reached.last)],
            record("tween", &mut reached.tween),
            bytes("records", records),
        ],
        Parts { tween, log, parts } => vec![record("tween", tween), bytes("log", log), bytes("parts", parts)],
        Run { tween, events, rounds } => {
            vec![record("tween", tween), vec![("rounds".to_string(), Whole, rounds)], all_events(events)]
        }
    };
    all.into_iter().flatten().collect()
}

pub fn lengths(call: &ReplayCall) -> Vec<(&'static str, usize)> {
    match call {
        Log { log, gaps, .. } => vec![("log", log.len()), ("gaps", *gaps)],
        On { records, gaps, .. } => vec![("records", records.len()), ("gaps", *gaps)],
        Parts { log, parts, .. } => vec![("log", log.len()), ("parts", parts.len())],
        Run { events, .. } => vec![("events", events.len())],
    }
}

/// Without a record, without the last byte, with a shorter list; without a part or an event.
pub fn shorter(call: &ReplayCall) -> Vec<ReplayCall> {
    match call {
        Log { tween, log, gaps } => shorter_bytes(log, *gaps, HEAD)
            .into_iter()
            .map(|(log, gaps)| Log { tween: *tween, log, gaps })
            .collect(),
        On { reached, records, gaps } => shorter_bytes(records, *gaps, 0)
            .into_iter()
            .map(|(records, gaps)| On { reached: *reached, records, gaps })
            .collect(),
        Parts { tween, log, parts } => {
            let with = |log, parts| Parts { tween: *tween, log, parts };
            let fewer = fewer_records(log, HEAD, log.len()).into_iter().map(|log| with(log, parts.clone()));
            let joined = (0..parts.len()).map(|place| with(log.clone(), without(parts, place)));
            fewer.chain(joined).collect()
        }
        Run { tween, events, rounds } => (0..events.len())
            .map(|place| Run { tween: *tween, events: without(events, place), rounds: *rounds })
            .collect(),
    }
}

/// Bytes whose records begin at `first`, and the length of the lent list.
fn shorter_bytes(bytes: &[u32], gaps: usize, first: usize) -> Vec<(Vec<u32>, usize)> {
    let mut all: Vec<(Vec<u32>, usize)> = Vec::new();
    for rest in fewer_records(bytes, first, bytes.len()) {
        all.extend(gaps.checked_sub(1).map(|gaps| (rest.clone(), gaps)));
        all.push((rest, gaps));
    }
    all.extend(without_last(bytes).map(|bytes| (bytes, gaps)));
    all.extend(gaps.checked_sub(1).map(|gaps| (bytes.to_vec(), gaps)));
    all
}
