use super::Maker;
use crate::calls::{log_head, log_record};
use crate::log::{HEAD, RECORD};
use crate::make::LAST_NUMBERS;
use crate::replay::played;
use crate::rules::*;
use crate::subjects::{ReplayCall, records_in};
use crate::words::{LaxEvent, LaxLoop, LaxReplay, LaxTween};

/// A log as words, and how it was made.
pub type Made = (&'static str, Vec<u32>);

pub const WRITTEN: &str = "replay, as it was written";

/// In the order of `damage`.
const DAMAGES: [&str; 9] = [
    "replay, bytes or bits changed",
    "replay, cut or with a tail",
    "replay, head wrong",
    "replay, records lost",
    "replay, records repeated",
    "replay, records swapped",
    "replay, other numbers",
    "replay, another step",
    "replay, a record wrong",
];

/// What the writer makes of the events.
pub fn written(events: &[LaxEvent]) -> Vec<u32> {
    let mut log = vec![0; HEAD + RECORD * events.len()];
    let mut end = log_head(&mut log).written;
    for event in events {
        end = log_record(&mut log, end, event).written;
    }
    log[..end].iter().map(|byte| u32::from(*byte)).collect()
}

/// Where one of the records lies.
fn record_place(place: usize) -> usize {
    HEAD + RECORD * place
}

impl Maker {
    /// A tween to be logged: within its limits, and one in eight so that an update may take it out of them.
    pub fn logged_tween(&mut self) -> LaxTween {
        match self.below(8) {
            0..4 => self.whole_tween(),
            4 => LaxTween {
                looping: LaxLoop { mode: TIMES, passes: 3 },
                loop_count: 16_777_216,
                ..self.whole_tween()
            },
            _ => self.tween(),
        }
    }

    /// Up to 40 events, each of which the tween accepts as a rule; one in 40 has some hundreds.
    pub fn calls(&mut self, t: &LaxTween) -> Vec<LaxEvent> {
        let count = if self.once_in(40) { 100 + self.below(300) } else { self.below(41) };
        self.calls_of(t, count)
    }

    pub fn calls_of(&mut self, t: &LaxTween, count: u32) -> Vec<LaxEvent> {
        let refusals = self.once_in(3);
        let (mut tween, mut events) = (*t, Vec::new());
        for _ in 0..count {
            let event = self.call(&tween);
            match played(&tween, &event) {
                Ok((after, _)) => tween = after,
                Err(_) if refusals && self.once_in(8) => {}
                Err(_) => continue,
            }
            events.push(event);
        }
        events
    }

    fn call(&mut self, t: &LaxTween) -> LaxEvent {
        let kind = match self.below(16) {
            0 => PAUSE,
            1 => RESUME,
            2 => RESET,
            3..8 if t.state == PAUSED => RESUME,
            3..6 if t.state == COMPLETED => RESET,
            _ => STEP,
        };
        LaxEvent { kind, step: counted(self.step(t)).min(LIMIT) }
    }

    /// Damaged until it shows in what lies from a place on; one in three up to three times more.
    pub fn damaged(&mut self, log: &[u32], from: usize) -> Made {
        let (mut made, mut damaged) = (WRITTEN, log.to_vec());
        while damaged.get(from..) == Some(&log[from..]) {
            made = self.damage(&mut damaged);
        }
        if self.once_in(3) {
            made = "replay, damaged more than once";
            for _ in 0..1 + self.below(3) {
                self.damage(&mut damaged);
            }
        }
        (made, damaged)
    }

    /// Says what was done.
    fn damage(&mut self, log: &mut Vec<u32>) -> &'static str {
        let kind = self.below(9);
        match kind {
            0 => self.change_bytes(log),
            1 => self.change_length(log),
            2 => self.change_head(log),
            3 => self.lose_records(log),
            4 => self.repeat_record(log),
            5 => self.swap_records(log),
            6 => self.renumber(log),
            7 => self.change_step(log),
            _ => self.spoil_record(log),
        }
        DAMAGES[kind as usize]
    }

    /// One of so many places.
    pub(super) fn place(&mut self, count: usize) -> usize {
        self.below(count as u32) as usize
    }

    /// Where one of the records lies; nothing where there is none.
    fn some_record(&mut self, log: &[u32]) -> Option<usize> {
        let records = records_in(log.len());
        (records > 0).then(|| record_place(self.place(records)))
    }

    fn change_bytes(&mut self, log: &mut [u32]) {
        if log.is_empty() {
            return;
        }
        for _ in 0..1 + self.below(3) {
            let place = self.place(log.len());
            log[place] = if self.once_in(2) { self.byte() } else { log[place] ^ 1 << self.below(8) };
        }
    }

    fn change_length(&mut self, log: &mut Vec<u32>) {
        if self.once_in(2) {
            let end = self.place(log.len() + 1);
            log.truncate(end);
        } else {
            let tail = self.some_bytes(20);
            log.extend(tail);
        }
    }

    fn change_head(&mut self, log: &mut [u32]) {
        if log.len() < HEAD {
            return;
        }
        if self.once_in(2) {
            let [low, high] = self.pick(&[[0, 0], [2, 0], [0, 1], [1, 1], [255, 255]]);
            (log[3], log[4]) = (low, high);
        } else {
            let place = self.place(HEAD);
            log[place] = if self.once_in(2) { self.byte() } else { log[place] ^ 32 };
        }
    }

    /// At the front, at the end or anywhere; one or several.
    fn lose_records(&mut self, log: &mut Vec<u32>) {
        let records = records_in(log.len());
        if records == 0 {
            return;
        }
        let count = if self.once_in(2) { 1 } else { 1 + self.place(records) };
        let most = records - count;
        let first = match self.below(4) {
            0 => 0,
            1 => most,
            _ => self.place(most + 1),
        };
        log.drain(record_place(first)..record_place(first + count));
    }

    /// At once, or behind others; the same bytes, or another event under the number.
    fn repeat_record(&mut self, log: &mut Vec<u32>) {
        let Some(place) = self.some_record(log) else { return };
        let mut record = log[place..place + RECORD].to_vec();
        if self.once_in(3) {
            record[2..].copy_from_slice(&[self.below(5), 0, 0, 0, 0, 0]);
        }
        let behind = if self.once_in(4) { self.some_record(log).unwrap_or(place) } else { place };
        for _ in 0..self.pick(&[1, 1, 1, 2, 5]) {
            log.splice(behind + RECORD..behind + RECORD, record.iter().copied());
        }
    }

    fn swap_records(&mut self, log: &mut [u32]) {
        let (Some(one), Some(any)) = (self.some_record(log), self.some_record(log)) else { return };
        let next = (one + RECORD).min(record_place(records_in(log.len()) - 1));
        let other = if self.once_in(2) { next } else { any };
        for byte in 0..RECORD {
            log.swap(one + byte, other + byte);
        }
    }

    /// All numbers from a record on are so much higher, as if others were lost before it; or all of them.
    fn renumber(&mut self, log: &mut [u32]) {
        let Some(place) = self.some_record(log) else { return };
        let more = match self.below(4) {
            0 => self.pick(&[1, 2, 511, 512, 513, 32_768]),
            1 => self.pick(&[65_533, 65_534, 65_535]),
            2 => 65_535 - self.below(20),
            _ => self.below(65_536),
        };
        let first = if self.once_in(2) { place } else { HEAD };
        for place in (first..record_place(records_in(log.len()))).step_by(RECORD) {
            let number = number_at(log, place) + more;
            set_number(log, place, number % 65_536);
        }
    }

    /// One that is wrong, too long, too small to show, or needs many folds.
    fn change_step(&mut self, log: &mut [u32]) {
        let Some(place) = self.some_record(log) else { return };
        let step = match self.below(8) {
            0 => self.pick(&[f32::NAN, -f32::NAN, f32::INFINITY, f32::NEG_INFINITY]),
            1 => self.pick(&[-0.0, -f32::from_bits(1), -1.0, f32::MIN]),
            2 => -self.up_to(LIMIT),
            3 => self.near(LIMIT),
            4 => self.pick(&[f32::MAX, 16_777_218.0, 1e9]),
            5 => f32::from_bits(self.below(0x0100_0000)),
            6 => 4_096.0 * (1 + self.below(12)) as f32,
            _ => self.odd(),
        };
        log[place + 2] = STEP;
        set_bits(log, place, step.to_bits());
    }

    /// Another kind, a zero byte that is not 0, or a step in another kind.
    fn spoil_record(&mut self, log: &mut [u32]) {
        let Some(place) = self.some_record(log) else { return };
        match self.below(3) {
            0 => log[place + 2] = self.pick(&[0, 1, 2, 3, 4, 5, 6, 128, 129, 255]),
            1 => log[place + 3] = self.pick(&[1, 2, 128, 255]),
            _ => {
                log[place + 2] = self.pick(&[PAUSE, RESUME, RESET]);
                let bits = if self.once_in(2) { self.word() } else { 1 << self.below(32) };
                set_bits(log, place, bits);
            }
        }
    }

    /// As long as the records are many, as a rule.
    pub fn gaps(&mut self, records: usize) -> usize {
        match self.below(16) {
            0 => records.saturating_sub(1),
            1 => self.place(records + 1),
            2..6 => records + 1 + self.place(20),
            _ => records,
        }
    }

    /// The tween that was logged, as a rule.
    pub fn replayed_tween(&mut self, t: &LaxTween) -> LaxTween {
        match self.below(24) {
            0 => self.odd_tween(),
            1 => self.any_tween(),
            2 => self.tween(),
            _ => *t,
        }
    }

    /// The records of a log, behind what may have come before them.
    pub fn replay_on(&mut self, t: &LaxTween, log: &[u32]) -> ReplayCall {
        let records = log.get(HEAD..).unwrap_or_default().to_vec();
        let tween = if self.once_in(8) { self.odd_tween() } else { *t };
        let first = if records.len() < RECORD { 0 } else { number_at(&records, 0) };
        let last = match self.below(12) {
            0 => self.pick(&[NO_RECORD + 1, 1 << 31, u32::MAX]),
            1..3 => NO_RECORD,
            3..5 => first,
            5 => self.pick(&LAST_NUMBERS),
            6 => self.below(65_536),
            _ => (first + 65_536 - 1 - self.below(4)) % 65_536,
        };
        let reached = LaxReplay { missing: self.sum(), folds: self.sum(), last, tween };
        ReplayCall::On { reached, gaps: self.gaps(records.len() / RECORD), records }
    }

    /// Near the cap, or anything.
    fn sum(&mut self) -> u64 {
        match self.below(4) {
            0 => u64::MAX - u64::from(self.below(4)),
            1 => u64::MAX - u64::from(self.below(100_000)),
            2 => u64::from(self.word()) << 32 | u64::from(self.word()),
            _ => self.below(1_000).into(),
        }
    }

    /// How many records are read at a time.
    pub fn parts(&mut self) -> Vec<u32> {
        (0..self.below(8)).map(|_| self.below(12)).collect()
    }
}

fn number_at(bytes: &[u32], place: usize) -> u32 {
    bytes[place] + 256 * bytes[place + 1]
}

pub fn set_number(bytes: &mut [u32], place: usize, number: u32) {
    (bytes[place], bytes[place + 1]) = (number % 256, number / 256);
}

/// Of the step.
pub fn set_bits(bytes: &mut [u32], place: usize, bits: u32) {
    let bits = bits.to_le_bytes().map(u32::from);
    bytes[place + 4..place + RECORD].copy_from_slice(&bits);
}
