//! The event log of a pump: what was done to a tween, record behind record. It is written, and read
//! back into a tween. The manual has the format, and what a reading can tell and what not.
//!
//! ```
//! use laxombiit::event_log::{write_head, write_record, Event};
//!
//! let mut buffer = [0; 64];
//! let mut written = write_head(&mut buffer)?;
//! for event in [Event::Step(0.02), Event::Pause] {
//!     written = write_record(&mut buffer, written, event)?;
//! }
//! assert_eq!(buffer[..written], *b"PEL\x01\0\x00\0\x01\0\x0a\xd7\xa3\x3c\x01\0\x02\0\0\0\0\0");
//! # Ok::<(), laxombiit::Refusal>(())
//! ```

use std::error::Error;
use std::fmt;

use crate::ffi;
use crate::{Refusal, Tween};

/// What is done to a tween.
#[derive(Clone, Copy, Debug, PartialEq)]
pub enum Event {
    /// An update, by so many seconds.
    Step(f32),
    /// A pause.
    Pause,
    /// A resume.
    Resume,
    /// A reset.
    Reset,
}

impl Event {
    fn words(self) -> ffi::LaxEvent {
        let (kind, step) = match self {
            Event::Step(step) => (1, step),
            Event::Pause => (2, 0.0),
            Event::Resume => (3, 0.0),
            Event::Reset => (4, 0.0),
        };
        ffi::LaxEvent { kind, step }
    }
}

/// Writes a log's head, 5 bytes, at the buffer's start, and answers the log's length. Refuses 13;
/// other bytes stay, and where it is refused, all of them.
pub fn write_head(buffer: &mut [u8]) -> Result<usize, Refusal> {
    // SAFETY: the pointer and the length are those of one slice, and the library writes within it.
    let number =
        |written: &mut u64| unsafe { ffi::lax_log_head(buffer.as_mut_ptr(), buffer.len() as u64, written) };
    Refusal::or_lent(number).map(|written| written as usize)
}

/// Writes one record, 8 bytes, behind the first `written` bytes of the buffer, which are a log, and
/// answers the log's length. Its number is that of the record before plus one; 65,535 is followed by
/// 0. A step of -0 is written as +0.
///
/// Refuses, in this order: 5 and 14 for the step, 17 where `written` is beyond the buffer, 15, 16, 17
/// where it is not 5 plus a multiple of 8, and 13. Other bytes stay, and where it is refused, all of
/// them.
pub fn write_record(buffer: &mut [u8], written: usize, event: Event) -> Result<usize, Refusal> {
    let mut length = written as u64;
    // SAFETY: as in write_head.
    let number =
        unsafe { ffi::lax_log_record(buffer.as_mut_ptr(), buffer.len() as u64, &mut length, &event.words()) };
    Refusal::or(number, length as usize)
}

/// How far a replay has come. Both sums stay at `u64::MAX` where they would pass it.
#[derive(Clone, Copy, Debug, PartialEq)]
pub struct Replay {
    /// The tween behind the records that were replayed.
    pub tween: Tween,
    /// The number of the last record, where one was read.
    pub last: Option<u16>,
    /// How many records are known to be missing, repeats apart.
    pub missing: u64,
    /// The folds of all updates that were replayed.
    pub folds: u64,
}

/// Where and why a replay stopped.
#[derive(Clone, Copy, Debug, PartialEq)]
pub struct Stopped {
    /// How many records were read, and so the place of the one that was refused.
    pub place: usize,
    /// Why.
    pub refusal: Refusal,
    /// How far the replay had come before that record.
    pub reached: Replay,
}

impl fmt::Display for Stopped {
    fn fmt(&self, f: &mut fmt::Formatter<'_>) -> fmt::Result {
        write!(f, "after {} records: {}", self.place, self.refusal)
    }
}

impl Error for Stopped {}

/// What no record has for its number.
const NO_RECORD: u64 = 65_536;

impl Replay {
    /// From where a call leaves the words of the tween and of what is reached.
    fn go_on(
        mut self,
        call: impl FnOnce(&mut ffi::LaxTween, &mut ffi::LaxReplay) -> u32,
    ) -> Result<Replay, Stopped> {
        let last = self.last.map_or(NO_RECORD, u64::from);
        let mut words = self.tween.words();
        let mut reached = ffi::LaxReplay { missing: self.missing, folds: self.folds, last, done: 0 };
        let number = call(&mut words, &mut reached);
        self.tween.take(&words);
        self.last = u16::try_from(reached.last).ok();
        self.missing = reached.missing;
        self.folds = reached.folds;
        let place = reached.done as usize;
        Refusal::or(number, self).map_err(|refusal| Stopped { place, refusal, reached: self })
    }
}

/// Replays a log, from its head on, into a tween. For each record that is read, how many are missing
/// before it goes into `gaps`: 0 for the first; 65,535 marks the number of the record before again, a
/// repeat, which is not replayed. What lies behind keeps its numbers.
///
/// Refuses, in this order and before any record is replayed: 4, 15, 16, 17 where the last record is
/// not whole, 12 where `gaps` is shorter than the records are many. It stops at the first record that
/// is wrong, 18, or that the tween refuses; `gaps` is unwritten from its place on. A loss of 65,535
/// records or more between two can't be told rightly.
///
/// ```
/// use laxombiit::event_log::{replay, write_head, write_record, Event};
/// use laxombiit::{Loop, Tween};
///
/// let mut log = vec![0; 5 + 8 * 1000];
/// let mut written = write_head(&mut log)?;
/// for _ in 0..1000 {
///     written = write_record(&mut log, written, Event::Step(0.25))?;
/// }
/// log.drain(5 + 8 * 100..5 + 8 * 612);
///
/// let pump = Tween { looping: Loop::Forever, ..Tween::new(0.0, 8.0) };
/// let mut gaps = [0; 488];
/// let reached = replay(pump, &log, &mut gaps).unwrap();
/// assert_eq!((gaps[99], gaps[100], gaps[101]), (0, 512, 0));
/// assert_eq!((reached.missing, reached.last), (512, Some(999)));
/// assert_eq!(reached.folds, 122);
/// # Ok::<(), laxombiit::Refusal>(())
/// ```
pub fn replay(tween: Tween, log: &[u8], gaps: &mut [u16]) -> Result<Replay, Stopped> {
    let begun = Replay { tween, last: None, missing: 0, folds: 0 };
    let (list, room) = (gaps.as_mut_ptr(), gaps.len() as u64);
    // SAFETY: each pointer and its length are those of one slice; the library reads within the first
    // and writes within the second.
    begun.go_on(|t, reached| unsafe {
        ffi::lax_log_replay(t, log.as_ptr(), log.len() as u64, list, room, reached)
    })
}

/// Goes on with the whole records that follow, for a log that is read part by part: `replay` takes the
/// head, and as many whole records as are at hand. The parts come to what the log comes to in one
/// call. What is missing goes into the front of `gaps`, for the records of this part.
///
/// Refuses 17 where the bytes are not whole records, and then 12; it stops as `replay` does. A tween
/// that breaks a limit is refused by the first record that is replayed into it.
///
/// ```
/// use laxombiit::event_log::{replay, replay_on};
/// use laxombiit::{Refusal, Tween};
///
/// let log = b"PEL\x01\0\0\0\x02\0\0\0\0\0\x01\0\x07\0\0\0\0\0\x02\0\x03\0\0\0\0\0";
/// let mut gaps = [0; 2];
/// let begun = replay(Tween::new(0.0, 8.0), &log[..13], &mut gaps).unwrap();
/// let stopped = replay_on(begun, &log[13..], &mut gaps).unwrap_err();
/// assert_eq!((stopped.place, stopped.refusal), (0, Refusal::WrongRecord));
///
/// // past the record of kind 7, which then counts as missing
/// let reached = replay_on(stopped.reached, &log[21..], &mut gaps).unwrap();
/// assert_eq!((gaps[0], reached.missing), (1, 1));
/// ```
pub fn replay_on(reached: Replay, records: &[u8], gaps: &mut [u16]) -> Result<Replay, Stopped> {
    let (list, room) = (gaps.as_mut_ptr(), gaps.len() as u64);
    // SAFETY: as in replay.
    reached.go_on(|t, reached| unsafe {
        ffi::lax_log_replay_on(t, records.as_ptr(), records.len() as u64, list, room, reached)
    })
}
