use super::Maker;
use crate::log::{Entry, HEAD, RECORD};
use crate::rules::{LIMIT, PAUSE, RESET, RESUME, STEP};
use crate::subjects::{LogCall, record_bytes};
use crate::words::LaxEvent;

/// The numbers of a last record that every run must have.
pub const LAST_NUMBERS: [u32; 6] = [0, 1, 255, 256, 65_534, 65_535];

/// A buffer's bytes, and how many of them are written.
#[derive(Clone)]
pub struct Log {
    pub buffer: Vec<u32>,
    pub written: usize,
}

impl Log {
    pub fn of(numbers: &[u32]) -> Self {
        let mut bytes = b"PEL\x01\x00".to_vec();
        for number in numbers {
            let event = LaxEvent { kind: STEP, step: 0.5 };
            bytes.extend(record_bytes(&Entry { number: *number, event }));
        }
        let buffer: Vec<u32> = bytes.into_iter().map(u32::from).collect();
        Self { written: buffer.len(), buffer }
    }
}

impl Maker {
    /// A kind that is known as a rule, with any step.
    pub fn event(&mut self) -> LaxEvent {
        let kind = match self.below(12) {
            0 => self.odd_count(),
            1 => self.pick(&[0, 5, 255, 256, 257, 1 << 31]),
            2..5 => self.pick(&[PAUSE, RESUME, RESET]),
            _ => STEP,
        };
        LaxEvent { kind, step: self.log_step() }
    }

    /// One that is not refused for its step or its kind.
    fn good_event(&mut self) -> LaxEvent {
        let kind = self.pick(&[STEP, STEP, PAUSE, RESUME, RESET]);
        LaxEvent { kind, step: self.up_to(LIMIT) }
    }

    fn log_step(&mut self) -> f32 {
        match self.below(8) {
            0 => self.odd(),
            1 => self.near(LIMIT),
            2 => self.pick(&[f32::NAN, f32::INFINITY, f32::NEG_INFINITY, -1.0]),
            3 => self.pick(&[0.0, -0.0, f32::from_bits(1), -f32::from_bits(1)]),
            4 => -self.up_to(LIMIT),
            _ => self.up_to(LIMIT),
        }
    }

    pub fn byte(&mut self) -> u32 {
        self.below(256)
    }

    pub fn some_bytes(&mut self, most: u32) -> Vec<u32> {
        (0..self.below(most + 1)).map(|_| self.byte()).collect()
    }

    /// Up to five records, the last with a number that matters, and room behind them: none, for one record
    /// or one byte less, for more.
    pub fn log(&mut self) -> Log {
        let numbers: Vec<u32> = (0..self.below(6)).map(|_| self.last_number()).collect();
        let mut log = Log::of(&numbers);
        let room = self.pick(&[0, 7, 8, 8, 9, 15, 16, 40]);
        log.buffer.extend((0..room).map(|_| self.byte()));
        log
    }

    fn last_number(&mut self) -> u32 {
        if self.once_in(2) { self.pick(&LAST_NUMBERS) } else { self.below(65_536) }
    }

    /// Its records have any bytes here and there.
    pub fn log_of_odd_records(&mut self) -> Log {
        let mut log = self.log();
        for place in HEAD..log.written {
            if self.once_in(3) {
                log.buffer[place] = self.byte();
            }
        }
        log
    }

    /// One or two bytes of the head are wrong.
    pub fn log_of_odd_head(&mut self) -> Log {
        let mut log = self.log();
        for _ in 0..1 + self.below(2) {
            let place = self.below(HEAD as u32) as usize;
            log.buffer[place] = if self.once_in(2) { self.byte() } else { log.buffer[place] ^ 1 };
        }
        log
    }

    /// Written less or more than there is, or beyond the buffer; one in four with a wrong head too.
    pub fn log_of_odd_length(&mut self) -> Log {
        let mut log = if self.once_in(4) { self.log_of_odd_head() } else { self.log() };
        let (written, end) = (log.written, log.buffer.len());
        log.written = match self.below(8) {
            0 | 1 => self.below(6) as usize,
            2 => self.pick(&[13, 21]),
            3 => written - 1,
            4 => written + 1,
            5 => self.below(end as u32 + 1) as usize,
            6 => self.pick(&[end, end + 1, end + RECORD, written + (1 << 32)]),
            _ => self.pick(&[usize::MAX, usize::MAX - 2, usize::MAX - 7, usize::MAX / 2 + 6]),
        };
        log
    }

    /// The buffer is cut, and what is written with it or not.
    pub fn log_cut_short(&mut self) -> Log {
        let mut log = self.log();
        log.buffer.truncate(self.below(log.buffer.len() as u32 + 1) as usize);
        if self.once_in(2) {
            log.written = log.written.min(log.buffer.len());
        }
        log
    }

    /// Up to 40 events into a buffer that has room for all, for some, or not even for the head.
    pub fn log_history(&mut self) -> LogCall {
        let odd = self.once_in(2);
        let events: Vec<LaxEvent> = (0..self.below(41))
            .map(|_| if odd && self.once_in(3) { self.event() } else { self.good_event() })
            .collect();
        let all = HEAD + RECORD * events.len();
        let room = match self.below(6) {
            0 => self.below(HEAD as u32) as usize,
            1 => all - 1,
            2 => self.below(all as u32 + 1) as usize,
            3 => all + self.below(20) as usize,
            _ => all,
        };
        LogCall::Write { room, fill: self.byte(), events, rounds: 1 }
    }
}
