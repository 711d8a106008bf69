//! The log's calls: each step at each edge, each number that matters, each length beside each length that
//! counts, a byte of the head wrong, and all of these together, for their order.
use crate::input::Input;
use crate::make::{EDGES, LAST_NUMBERS, Log};
use crate::rules::{LIMIT, PAUSE, RESET, RESUME, STEP};
use crate::runner::{Runner, Tried};
use crate::subjects::LogCall;
use crate::words::LaxEvent;

/// Logs of no record up to three, then the heads, the steps, and the histories.
pub const PARTS: u64 = 4 + 3;

const MADE: &str = "log, edges";

pub fn part(part: u64, runner: &mut Runner) -> Tried<()> {
    match part {
        0..4 => records(part as usize, runner),
        4 => heads(runner),
        5 => steps(runner),
        _ => histories(runner),
    }
}

fn check(runner: &mut Runner, call: LogCall) -> Tried<()> {
    runner.check(MADE, Input::Log(call)).map(drop)
}

fn try_record(runner: &mut Runner, log: &Log, event: LaxEvent) -> Tried<()> {
    check(runner, LogCall::Record { buffer: log.buffer.clone(), written: log.written, event })
}

fn heads(runner: &mut Runner) -> Tried<()> {
    for size in 0..24 {
        for byte in [0, 1, 80, 165, 255] {
            check(runner, LogCall::Head { buffer: vec![byte; size] })?;
        }
    }
    Ok(())
}

/// Every kind with every step, behind no record and behind one.
fn steps(runner: &mut Runner) -> Tried<()> {
    for numbers in [&[][..], &[7][..]] {
        let mut log = Log::of(numbers);
        log.buffer.extend([90; 12]);
        for kind in [0, 1, 2, 3, 4, 5, 6, 255, 256, 257, 65_537, 1 << 31, !0] {
            for step in EDGES.iter() {
                try_record(runner, &log, LaxEvent { kind, step: *step })?;
            }
        }
    }
    Ok(())
}

/// Accepted, and refused by 5, 14 and 100.
const EVENTS: [LaxEvent; 7] = [
    LaxEvent { kind: STEP, step: 0.25 },
    LaxEvent { kind: STEP, step: -0.0 },
    LaxEvent { kind: RESET, step: f32::NAN },
    LaxEvent { kind: STEP, step: f32::INFINITY },
    LaxEvent { kind: STEP, step: f32::NAN },
    LaxEvent { kind: STEP, step: f32::NEG_INFINITY },
    LaxEvent { kind: 5, step: f32::NAN },
];

fn records(count: usize, runner: &mut Runner) -> Tried<()> {
    let lasts = if count == 0 { &LAST_NUMBERS[..1] } else { &LAST_NUMBERS };
    for last in lasts {
        let numbers: Vec<u32> =
            (0..count as u32).rev().map(|before| last.wrapping_sub(before) % 65_536).collect();
        for room in [0, 1, 7, 8, 9, 16] {
            let mut log = Log::of(&numbers);
            log.buffer.extend((0..room).map(|place| 200 + place));
            for written in lengths(log.written, log.buffer.len()) {
                each_head(&Log { written, ..log.clone() }, &mut |log| {
                    EVENTS.iter().try_for_each(|event| try_record(runner, log, *event))
                })?;
            }
        }
    }
    Ok(())
}

fn lengths(written: usize, buffer: usize) -> Vec<usize> {
    let mut all = vec![0, 1, 2, 3, 4, 5, 6, 12, 13, 14, 21, 1 << 32, (1 << 32) + written];
    all.extend([written - 1, written, written + 1, written + 8]);
    all.extend([buffer - 1, buffer, buffer + 1, buffer + 8]);
    all.extend([usize::MAX, usize::MAX - 1, usize::MAX - 2, usize::MAX - 7, usize::MAX - 8]);
    all.sort();
    all.dedup();
    all
}

/// The log as it is, with each byte of the head wrong in turn, and with the mark and the version wrong.
fn each_head(log: &Log, each: &mut dyn FnMut(&Log) -> Tried<()>) -> Tried<()> {
    each(log)?;
    let changes: [(usize, u32); 9] =
        [(0, 112), (0, 0), (1, 0x65), (2, 0x6c), (2, 0), (3, 0), (3, 2), (4, 1), (4, 255)];
    for (place, byte) in changes {
        let mut changed = log.clone();
        changed.buffer[place] = byte;
        each(&changed)?;
    }
    let mut changed = log.clone();
    (changed.buffer[1], changed.buffer[3]) = (0, 2);
    each(&changed)
}

/// None, few and many events into buffers about their size; and so many that the numbers begin again.
fn histories(runner: &mut Runner) -> Tried<()> {
    let events = [
        LaxEvent { kind: STEP, step: 1.5 },
        LaxEvent { kind: PAUSE, step: 2.0 },
        LaxEvent { kind: STEP, step: f32::NAN },
        LaxEvent { kind: RESUME, step: -1.0 },
        LaxEvent { kind: STEP, step: -0.0 },
        LaxEvent { kind: 5, step: 0.0 },
        LaxEvent { kind: RESET, step: f32::INFINITY },
        LaxEvent { kind: STEP, step: LIMIT },
        LaxEvent { kind: STEP, step: f32::INFINITY },
    ];
    for count in 0..=events.len() {
        for room in 0..100 {
            let events = events[..count].to_vec();
            check(runner, LogCall::Write { room, fill: 100, events, rounds: 1 })?;
        }
    }
    let events = events[..2].to_vec();
    check(runner, LogCall::Write { room: 5 + 8 * 65_600 + 3, fill: 9, events, rounds: 32_800 })
}
