use crate::calls::*;
use crate::difference::{Difference, same, same_bits, same_count};
use crate::ffi::{lax_tween_pause, lax_tween_reset, lax_tween_resume};
use crate::log::{HEAD, RECORD};
use crate::meaning;
use crate::replay::{begun, replayed, replayed_on};
use crate::rules::{self, PAUSE, RESUME, STEP};
use crate::subjects::bytes;
use crate::subjects::lent::Lent;
use crate::words::{LaxEvent, LaxReplay, LaxReplayed, LaxTween};

/// The bytes of a log stand in words, as a buffer's do.
#[derive(Clone)]
pub enum ReplayCall {
    Log {
        tween: LaxTween,
        log: Vec<u32>,
        gaps: usize,
    },
    On {
        reached: LaxReplay,
        records: Vec<u32>,
        gaps: usize,
    },
    /// So many records with the head, then so many at a time, and then the rest, but for a tail.
    Parts {
        tween: LaxTween,
        log: Vec<u32>,
        parts: Vec<u32>,
    },
    /// The list of events, so many times over, as calls on a tween: those that it and the log accept are
    /// logged, and replayed from the same tween.
    Run {
        tween: LaxTween,
        events: Vec<LaxEvent>,
        rounds: u32,
    },
}

use ReplayCall::*;

impl ReplayCall {
    pub fn name(&self) -> &'static str {
        match self {
            Log { .. } => "log replay",
            On { .. } => "log replay on",
            Parts { .. } => "log replay in parts",
            Run { .. } => "log replay of a run",
        }
    }

    /// The number of the answer, where it is the expected one.
    pub fn check(&self) -> Result<u32, Difference> {
        match self {
            Log { tween, log, gaps } => self.hold(
                tween,
                &bytes(log),
                *gaps,
                |log, gaps| log_replay(&begun(tween), log, gaps),
                |log, gaps| replayed(tween, log, gaps),
            ),
            On { reached, records, gaps } => self.hold(
                &reached.tween,
                &bytes(records),
                *gaps,
                |records, gaps| log_replay_on(reached, records, gaps),
                |records, gaps| replayed_on(reached, records, gaps),
            ),
            Parts { tween, log, parts } => self.hold(
                tween,
                &bytes(whole_records(log)),
                records_in(log.len()),
                |log, gaps| in_parts(tween, log, parts, gaps),
                |log, gaps| replayed(tween, log, gaps),
            ),
            Run { tween, events, rounds } => self.run(tween, events, *rounds),
        }
    }

    /// Ours and the reader's, each with the same bytes and a list of its own.
    fn hold(
        &self,
        came: &LaxTween,
        bytes: &[u8],
        gaps: usize,
        ours: impl FnOnce(&[u8], &mut [u16]) -> LaxReplayed,
        reader: impl FnOnce(&[u8], &mut [u16]) -> LaxReplayed,
    ) -> Result<u32, Difference> {
        let mut list = unwritten(gaps);
        let (mut lent, mut written) = (Lent::new(bytes), Lent::new(&list));
        let ours = ours(lent.list(), written.list());
        let expected = reader(bytes, &mut list);
        self.answered(came, &ours, &expected)?;
        written.same(self.name(), "gaps", &list)?;
        lent.same(self.name(), "bytes", bytes)?;
        Ok(expected.number)
    }

    /// The replay comes to the tween that the calls left, with all their folds and no gap.
    fn run(&self, t: &LaxTween, events: &[LaxEvent], rounds: u32) -> Result<u32, Difference> {
        let number = rules::tween_refused(t);
        let mut left = LaxReplayed { done: 0, number, reached: begun(t) };
        let log = logged_run(&mut left, events, rounds);
        let mut list = unwritten(left.done + 1);
        let mut written = Lent::new(&list);
        list[..left.done].fill(0);
        self.answered(t, &log_replay(&begun(t), &log, written.list()), &left)?;
        written.same(self.name(), "gaps", &list)?;
        Ok(number)
    }

    fn answered(
        &self,
        came: &LaxTween,
        ours: &LaxReplayed,
        expected: &LaxReplayed,
    ) -> Result<(), Difference> {
        let name = self.name();
        for ((word, ours), (_, expected)) in counts(ours).into_iter().zip(counts(expected)) {
            same_count(format!("{name}: {word}"), ours, expected)?;
        }
        // no record changes a tween that breaks a limit
        if expected.done == 0 || rules::tween_breaks(came) {
            same_bits(name, &ours.reached.tween, came)
        } else {
            same(name, &ours.reached.tween, &meaning::tween_onto(came, &expected.reached.tween))
        }
    }
}

/// Every word of the answer but for the tween's.
fn counts(answer: &LaxReplayed) -> [(&'static str, usize); 5] {
    let LaxReplayed { done, number, reached } = answer;
    let LaxReplay { missing, folds, last, .. } = reached;
    [
        ("number", *number as usize),
        ("done", *done),
        ("missing", *missing as usize),
        ("folds", *folds as usize),
        ("last", *last as usize),
    ]
}

/// How many whole records a log of so many bytes has.
pub fn records_in(log: usize) -> usize {
    log.saturating_sub(HEAD) / RECORD
}

/// The log without a tail.
fn whole_records(log: &[u32]) -> &[u32] {
    &log[..log.len().min(HEAD + RECORD * records_in(log.len()))]
}

/// Numbers that differ from place to place.
fn unwritten(gaps: usize) -> Vec<u16> {
    (0..gaps as u32).map(|place| 40_000u32.wrapping_add(place.wrapping_mul(37)) as u16).collect()
}

/// The head and the first part, then the other parts, each from where the one before has come.
fn in_parts(t: &LaxTween, log: &[u8], parts: &[u32], gaps: &mut [u16]) -> LaxReplayed {
    let mut ends: Vec<usize> = parts
        .iter()
        .scan(HEAD, |end, records| {
            *end += RECORD * *records as usize;
            Some((*end).min(log.len()))
        })
        .collect();
    ends.push(log.len());
    let mut whole = log_replay(&begun(t), &log[..ends[0]], gaps);
    for part in ends.windows(2) {
        if whole.number != 0 {
            break;
        }
        let rest = gaps.get_mut(whole.done..).unwrap_or_default();
        let answer = log_replay_on(&whole.reached, &log[part[0]..part[1]], rest);
        whole = LaxReplayed { done: whole.done + answer.done, ..answer };
    }
    whole
}

/// Makes the calls, one behind the other, and logs each that is accepted.
fn logged_run(left: &mut LaxReplayed, events: &[LaxEvent], rounds: u32) -> Vec<u8> {
    let mut log = vec![0; HEAD + RECORD * events.len() * rounds as usize];
    let mut written = log_head(&mut log).written;
    for event in (0..rounds).flat_map(|_| events) {
        let logged = log_record(&mut log, written, event);
        let (number, folds, tween) = called(&left.reached.tween, event);
        if logged.number != 0 || number != 0 {
            continue;
        }
        left.reached.tween = tween;
        left.reached.folds += u64::from(folds);
        left.reached.last = left.done as u32 % 65_536;
        left.done += 1;
        written = logged.written;
    }
    log.truncate(written);
    log
}

/// The number, the folds and the tween that comes back.
fn called(t: &LaxTween, event: &LaxEvent) -> (u32, u32, LaxTween) {
    let changed = match event.kind {
        STEP => {
            let updated = tween_update(t, event.step);
            return (updated.number, updated.folds, updated.tween);
        }
        PAUSE => tween_changed(t, |t| lax_tween_pause(t)),
        RESUME => tween_changed(t, |t| lax_tween_resume(t)),
        _ => tween_changed(t, |t| lax_tween_reset(t)),
    };
    (changed.number, 0, changed.tween)
}
