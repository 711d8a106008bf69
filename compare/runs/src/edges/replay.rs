//! The replays: each step at each edge in each kind, each number behind each, all refusals of a whole log
//! together, for their order, each refusal of a record behind each count of records, sums at their cap, and
//! each word of some tweens at each edge.
use super::{each_word, plain_tween};
use crate::input::Input;
use crate::log::{HEAD, RECORD};
use crate::make::{EDGES, set_bits, set_number, written};
use crate::replay::begun;
use crate::rules::*;
use crate::runner::{Runner, Tried};
use crate::subjects::ReplayCall;
use crate::words::{LaxEvent, LaxLoop, LaxReplay, LaxTween};

/// The tweens, then the kinds, the numbers, the refusals before and in a replay, the sums, and the runs.
pub const PARTS: u64 = TWEENS.len() as u64 + 6;

const MADE: &str = "replay, edges";

const TWEENS: [(u32, u32); 5] =
    [(ONCE, IDLE), (TIMES, RUNNING), (FOREVER, COMPLETED), (PING_PONG, RUNNING), (PING_PONG_TIMES, PAUSED)];

pub fn part(part: u64, runner: &mut Runner) -> Tried<()> {
    if let Some(tween) = TWEENS.get(part as usize) {
        return tweens(*tween, runner);
    }
    match part - TWEENS.len() as u64 {
        0 => kinds(runner),
        1 => numbers(runner),
        2 => refused_before(runner),
        3 => refused_within(runner),
        4 => sums(runner),
        _ => runs(runner),
    }
}

fn step(step: f32) -> LaxEvent {
    LaxEvent { kind: STEP, step }
}

fn event(kind: u32) -> LaxEvent {
    LaxEvent { kind, step: 0.0 }
}

/// Two seconds, for ever, from its start.
fn running() -> LaxTween {
    LaxTween { elapsed: 0.0, ..plain_tween(FOREVER, RUNNING) }
}

fn check(runner: &mut Runner, call: ReplayCall) -> Tried<()> {
    runner.check(MADE, Input::Replay(call)).map(drop)
}

/// Into a list of its length; whole, in parts, and its records behind nothing.
fn try_log(runner: &mut Runner, tween: &LaxTween, log: &[u32]) -> Tried<()> {
    let (tween, log) = (*tween, log.to_vec());
    let (records, gaps) = (log[HEAD..].to_vec(), log[HEAD..].len() / RECORD);
    check(runner, ReplayCall::On { reached: begun(&tween), records, gaps })?;
    check(runner, ReplayCall::Parts { tween, log: log.clone(), parts: vec![1, 0, 1] })?;
    check(runner, ReplayCall::Log { tween, log, gaps })
}

/// A record of each event, with these numbers.
fn log_of(events: &[LaxEvent], numbers: &[u32]) -> Vec<u32> {
    let mut log = written(events);
    for (record, number) in log[HEAD..].chunks_mut(RECORD).zip(numbers) {
        set_number(record, 0, *number);
    }
    log
}

/// Each word at each edge: a replay from such a tween, and one that goes on behind a repeat, which no tween
/// refuses.
fn tweens((mode, state): (u32, u32), runner: &mut Runner) -> Tried<()> {
    let log = written(&[event(PAUSE), step(3.0), event(RESUME), step(0.25)]);
    each_word(&plain_tween(mode, state), &|_| true, &mut |tween| {
        check(runner, ReplayCall::Log { tween, log: log.clone(), gaps: 5 })?;
        for last in [0, 65_535] {
            let (reached, records) = (LaxReplay { last, ..begun(&tween) }, log[HEAD..].to_vec());
            check(runner, ReplayCall::On { reached, records, gaps: 4 })?;
        }
        Ok(())
    })
}

/// Every kind with every step and some zero bytes, in a record that is repeated and in one that is a repeat.
fn kinds(runner: &mut Runner) -> Tried<()> {
    let kinds = [0, 1, 2, 3, 4, 5, 6, 128, 255];
    for (kind, zero) in kinds.into_iter().flat_map(|kind| [0, 1, 255].map(|zero| (kind, zero))) {
        for x in EDGES.iter() {
            for numbers in [[7, 8, 8], [7, 7, 8]] {
                let mut log = log_of(&[step(0.5); 3], &numbers);
                let place = HEAD + RECORD;
                (log[place + 2], log[place + 3]) = (kind, zero);
                set_bits(&mut log, place, x.to_bits());
                check(runner, ReplayCall::Log { tween: running(), log, gaps: 3 })?;
            }
        }
    }
    Ok(())
}

/// Behind 0, 65,535 is a loss of 65,534; 0 may be one of 65,535, and looks like a repeat; 1 may be one of
/// 65,536, and looks like none.
const NUMBERS: [u32; 16] =
    [0, 1, 2, 3, 254, 255, 256, 257, 512, 513, 514, 32_767, 32_768, 65_533, 65_534, 65_535];

fn numbers(runner: &mut Runner) -> Tried<()> {
    for first in NUMBERS {
        for second in NUMBERS {
            for third in [second, (second + 1) % 65_536, first, (first + 1) % 65_536, 0, 65_535] {
                let log = log_of(&[step(0.5), step(1.5), step(2.0)], &[first, second, third]);
                try_log(runner, &running(), &log)?;
            }
        }
        for last in NUMBERS.into_iter().chain([NO_RECORD, NO_RECORD + 1, 1 << 17, u32::MAX]) {
            let reached = LaxReplay { missing: 5, folds: 6, last, tween: running() };
            let records = log_of(&[step(0.5), step(1.5)], &[first, (first + 1) % 65_536])[HEAD..].to_vec();
            check(runner, ReplayCall::On { reached, records, gaps: 2 })?;
        }
    }
    Ok(())
}

/// Every choice among what may be wrong, with logs of no record up to three.
fn refused_before(runner: &mut Runner) -> Tried<()> {
    for (wrong, count) in (0..128u32).flat_map(|wrong| (0..4).map(move |count| (wrong, count))) {
        let is = |place: u32| wrong >> place & 1 == 1;
        let mut tween = running();
        if is(0) {
            tween.state = 4;
        }
        if is(1) {
            tween.time_scale = -1.0;
        }
        let mut log = written(&vec![step(0.5); count]);
        if is(2) {
            log[1] = 101;
        }
        if is(3) {
            log[4] = 1;
        }
        if is(4) {
            log.extend([0; 7]);
        }
        let gaps = if is(5) { count.saturating_sub(1) } else { count };
        let last = if is(6) { NO_RECORD + 1 } else { 3 };
        let records = log[HEAD..].to_vec();
        check(runner, ReplayCall::On { reached: LaxReplay { last, ..begun(&tween) }, records, gaps })?;
        check(runner, ReplayCall::Log { tween, log, gaps })?;
    }
    lengths(runner)
}

/// Each length of a log that is cut, and each of a list.
fn lengths(runner: &mut Runner) -> Tried<()> {
    let log = written(&[step(0.5), event(PAUSE), step(2.0)]);
    for end in 0..=log.len() {
        for gaps in 0..6 {
            let log = log[..end].to_vec();
            let records = log.get(HEAD..).unwrap_or_default().to_vec();
            check(runner, ReplayCall::On { reached: begun(&running()), records, gaps })?;
            check(runner, ReplayCall::Log { tween: running(), log, gaps })?;
        }
    }
    Ok(())
}

/// A record that is refused, behind so many that are not, with repeats and without, as a repeat too.
fn refused_within(runner: &mut Runner) -> Tried<()> {
    let counting =
        LaxTween { looping: LaxLoop { mode: TIMES, passes: 3 }, loop_count: 16_777_216, ..running() };
    let late = LaxTween { duration: LIMIT, elapsed: 8_388_608.0, ..running() };
    let steps = [0.25, 2.0, 0.5, 8_196.0, 8_190.0, 1e-9, f32::MAX, LIMIT, 16_777_218.0, -0.0, f32::NAN];
    for tween in [running(), counting, late, LaxTween { state: PAUSED, ..running() }] {
        for (before, x) in (0..4).flat_map(|before| steps.map(|x| (before, x))) {
            for number in [before as u32, before as u32 + 2, (before as u32).saturating_sub(1)] {
                let mut numbers: Vec<u32> = (0..before as u32).collect();
                numbers.extend([number, number + 1, number + 1, number + 2]);
                let mut log = log_of(&vec![step(2.0); before + 4], &numbers);
                set_bits(&mut log, HEAD + RECORD * before, x.to_bits());
                try_log(runner, &tween, &log)?;
            }
        }
    }
    Ok(())
}

/// Near the cap of each sum, with a loss and with folds that meet it, pass it and come short of it.
fn sums(runner: &mut Runner) -> Tried<()> {
    for (short, other) in (0..9).flat_map(|short| [0, 5, u64::MAX].map(|other| (short, other))) {
        for (missing, folds) in [(u64::MAX - short, other), (other, u64::MAX - short)] {
            for number in [8, 9, 10, 12, 15] {
                let events = [step(4.0), event(PAUSE), event(RESUME), step(8.5), step(f32::from_bits(1))];
                let log = log_of(&events, &[number, number, number + 3, number + 4, number + 6]);
                let reached = LaxReplay { missing, folds, last: 7, tween: running() };
                check(runner, ReplayCall::On { reached, records: log[HEAD..].to_vec(), gaps: 5 })?;
            }
        }
    }
    Ok(())
}

/// Each event beside each, on each plain tween; and so many that the numbers begin again.
fn runs(runner: &mut Runner) -> Tried<()> {
    let events = [step(0.0), step(0.5), step(9.5), step(9_000.0), event(PAUSE), event(RESUME), event(RESET)];
    for (mode, state) in (0..5).flat_map(|mode| (0..4).map(move |state| (mode, state))) {
        let tween = plain_tween(mode, state);
        for (one, other) in events.iter().flat_map(|one| events.iter().map(move |other| (*one, *other))) {
            check(runner, ReplayCall::Run { tween, events: vec![one, other, one], rounds: 2 })?;
        }
    }
    let events = vec![step(1.5), event(PAUSE), event(RESUME), step(0.75)];
    check(runner, ReplayCall::Run { tween: running(), events, rounds: 16_400 })
}
