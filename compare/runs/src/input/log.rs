//! The input of a log's call: its words, its lengths, and what is shorter.
use super::{record, without};
use crate::log::{HEAD, RECORD};
use crate::subjects::LogCall;
use crate::words::{Kind, LaxEvent, Whole};

pub fn words(call: &mut LogCall) -> Vec<(String, Kind, &mut u32)> {
    match call {
        LogCall::Head { buffer } => bytes("buffer", buffer),
        LogCall::Record { buffer, written, event } => {
            [bytes("buffer", buffer), length("written", written), record("event", event)]
                .into_iter()
                .flatten()
                .collect()
        }
        LogCall::Write { fill, events, rounds, .. } => {
            let own = vec![("fill".to_string(), Whole, fill), ("rounds".to_string(), Whole, rounds)];
            [own, all_events(events)].into_iter().flatten().collect()
        }
    }
}

pub fn bytes<'a>(name: &str, bytes: &'a mut [u32]) -> Vec<(String, Kind, &'a mut u32)> {
    bytes.iter_mut().enumerate().map(|(place, byte)| (format!("{name}[{place}]"), Whole, byte)).collect()
}

fn length<'a>(name: &str, length: &'a mut usize) -> Vec<(String, Kind, &'a mut u32)> {
    long(name, unsafe { &mut *(length as *mut usize).cast() })
}

/// Two words here, the low one first.
pub fn long<'a>(name: &str, long: &'a mut u64) -> Vec<(String, Kind, &'a mut u32)> {
    let [low, high]: &mut [u32; 2] = unsafe { &mut *(long as *mut u64).cast() };
    vec![(name.to_string(), Whole, low), (format!("{name}, high word"), Whole, high)]
}

pub fn all_events(events: &mut [LaxEvent]) -> Vec<(String, Kind, &mut u32)> {
    let named = |(place, event)| record(&format!("events[{place}]"), event);
    events.iter_mut().enumerate().flat_map(named).collect()
}

pub fn lengths(call: &LogCall) -> Vec<(&'static str, usize)> {
    match call {
        LogCall::Head { buffer } | LogCall::Record { buffer, .. } => vec![("buffer", buffer.len())],
        LogCall::Write { room, events, .. } => vec![("buffer", *room), ("events", events.len())],
    }
}

/// Without the buffer's last byte, and without a record or an event.
pub fn shorter(call: &LogCall) -> Vec<LogCall> {
    match call {
        LogCall::Head { buffer } => {
            without_last(buffer).into_iter().map(|buffer| LogCall::Head { buffer }).collect()
        }
        LogCall::Record { buffer, written, event } => shorter_logs(buffer, *written)
            .into_iter()
            .map(|(buffer, written)| LogCall::Record { buffer, written, event: *event })
            .collect(),
        LogCall::Write { room, fill, events, rounds } => {
            let with = |room, events| LogCall::Write { room, fill: *fill, events, rounds: *rounds };
            let less = (0..events.len()).map(|place| with(*room, without(events, place)));
            let smaller = [room / 2, room.saturating_sub(RECORD), room.saturating_sub(1)];
            let smaller = smaller.into_iter().filter(|less| less < room);
            less.chain(smaller.map(|room| with(room, events.clone()))).collect()
        }
    }
}

pub fn without_last(buffer: &[u32]) -> Option<Vec<u32>> {
    buffer.split_last().map(|(_, rest)| rest.to_vec())
}

fn shorter_logs(buffer: &[u32], written: usize) -> Vec<(Vec<u32>, usize)> {
    let fewer = fewer_records(buffer, HEAD, buffer.len().min(written));
    let mut all: Vec<_> = fewer.into_iter().map(|rest| (rest, written - RECORD)).collect();
    all.extend(without_last(buffer).map(|buffer| (buffer, written)));
    all
}

/// Without one of the whole records that lie between two places.
pub fn fewer_records(bytes: &[u32], first: usize, end: usize) -> Vec<Vec<u32>> {
    let places = (first..end).step_by(RECORD).filter(|place| place + RECORD <= end);
    places.map(|place| [&bytes[..place], &bytes[place + RECORD..]].concat()).collect()
}
