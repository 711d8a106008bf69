use crate::calls::{log_head, log_record};
use crate::difference::{Difference, must, same_bits, same_count};
use crate::log::{self, Entry, HEAD, RECORD};
use crate::rules::{self, STEP, counted};
use crate::subjects::lent::Lent;
use crate::words::{LaxEvent, LaxLogged};

/// A buffer's bytes stand in words, so that they are shown and made smaller as other words are.
#[derive(Clone)]
pub enum LogCall {
    Head {
        buffer: Vec<u32>,
    },
    Record {
        buffer: Vec<u32>,
        written: usize,
        event: LaxEvent,
    },
    /// The head, and behind it the list of events, so many times over.
    Write {
        room: usize,
        fill: u32,
        events: Vec<LaxEvent>,
        rounds: u32,
    },
}

use LogCall::*;

impl LogCall {
    pub fn name(&self) -> &'static str {
        match self {
            Head { .. } => "log head",
            Record { .. } => "log record",
            Write { .. } => "log write",
        }
    }

    /// The number of the answer, where it is the expected one; of a history the first that is not 0.
    pub fn check(&self) -> Result<u32, Difference> {
        match self {
            Head { buffer } => self.head(&bytes(buffer)),
            Record { buffer, written, event } => self.record(&bytes(buffer), *written, event),
            Write { room, fill, events, rounds } => self.write(&filled(*room, *fill), events, *rounds),
        }
    }

    fn head(&self, before: &[u8]) -> Result<u32, Difference> {
        let mut lent = Lent::new(before);
        let answer = log_head(lent.list());
        let number = rules::head_refused(before.len());
        if number != 0 {
            self.answered(answer, LaxLogged { written: 0, number })?;
            lent.same(self.name(), "buffer", before)?;
            return Ok(number);
        }
        self.answered(answer, LaxLogged { written: HEAD, number })?;
        let mut expected = before.to_vec();
        expected[..HEAD].copy_from_slice(&head());
        lent.same(self.name(), "buffer", &expected)?;
        self.read_back(&lent.list()[..HEAD], &[])?;
        Ok(number)
    }

    fn record(&self, before: &[u8], written: usize, event: &LaxEvent) -> Result<u32, Difference> {
        let mut lent = Lent::new(before);
        let answer = log_record(lent.list(), written, event);
        let number = rules::record_refused(before, written, event);
        if number != 0 {
            self.answered(answer, LaxLogged { written, number })?;
            lent.same(self.name(), "buffer", before)?;
            return Ok(number);
        }
        let end = written + RECORD;
        self.answered(answer, LaxLogged { written: end, number })?;
        let record = Entry { number: next_number(&before[..written]), event: logged(event) };
        let mut expected = before.to_vec();
        expected[written..end].copy_from_slice(&record_bytes(&record));
        lent.same(self.name(), "buffer", &expected)?;
        // of the records before it only the last one's number counts, so they may be wrong
        match log::read(&before[..written]) {
            Some(records) => self.read_back(&lent.list()[..end], &[records, vec![record]].concat())?,
            None => self.same_record(log::read_record(&lent.list()[written..end]), &record)?,
        }
        Ok(number)
    }

    /// A refused event changes nothing, and the next one follows.
    fn write(&self, before: &[u8], events: &[LaxEvent], rounds: u32) -> Result<u32, Difference> {
        let mut lent = Lent::new(before);
        let mut answer = log_head(lent.list());
        let mut first = rules::head_refused(before.len());
        let mut expected = if first == 0 { head().to_vec() } else { vec![] };
        self.answered(answer, LaxLogged { written: expected.len(), number: first })?;
        let mut records = Vec::new();
        for event in (0..rounds).flat_map(|_| events) {
            let number = rules::record_refused(lent.list(), answer.written, event);
            answer = log_record(lent.list(), answer.written, event);
            if number == 0 {
                let number = records.len() as u32 % 65_536;
                records.push(Entry { number, event: logged(event) });
                expected.extend(record_bytes(&records[records.len() - 1]));
            }
            self.answered(answer, LaxLogged { written: expected.len(), number })?;
            first = if first == 0 { number } else { first };
        }
        if !expected.is_empty() {
            self.read_back(&lent.list()[..answer.written], &records)?;
        }
        expected.extend(&before[expected.len()..]);
        lent.same(self.name(), "buffer", &expected)?;
        Ok(first)
    }

    fn answered(&self, ours: LaxLogged, expected: LaxLogged) -> Result<(), Difference> {
        let name = self.name();
        if (ours.number, ours.written) == (expected.number, expected.written) {
            return Ok(());
        }
        same_count(format!("{name}: number"), ours.number as usize, expected.number as usize)?;
        same_count(format!("{name}: written"), ours.written, expected.written)
    }

    /// What the reader finds in the log.
    fn read_back(&self, log: &[u8], expected: &[Entry]) -> Result<(), Difference> {
        let read = log::read(log);
        must(&format!("{}: read back as a log", self.name()), read.is_some())?;
        let read = read.unwrap_or_default();
        same_count(format!("{}: records read back", self.name()), read.len(), expected.len())?;
        read.into_iter().zip(expected).try_for_each(|(ours, expected)| self.same_record(Some(ours), expected))
    }

    fn same_record(&self, ours: Option<Entry>, expected: &Entry) -> Result<(), Difference> {
        must(&format!("{}: read back as a record", self.name()), ours.is_some())?;
        ours.map_or(Ok(()), |ours| same_bits(&format!("{}, read back", self.name()), &ours, expected))
    }
}

pub fn bytes(words: &[u32]) -> Vec<u8> {
    words.iter().map(|word| *word as u8).collect()
}

/// Bytes that differ from place to place.
fn filled(room: usize, fill: u32) -> Vec<u8> {
    (0..room as u32).map(|place| fill.wrapping_add(place.wrapping_mul(37)) as u8).collect()
}

fn head() -> [u8; HEAD] {
    let [low, high] = 1u16.to_le_bytes();
    [b'P', b'E', b'L', low, high]
}

pub fn record_bytes(record: &Entry) -> [u8; RECORD] {
    let mut bytes = [0; RECORD];
    bytes[..2].copy_from_slice(&(record.number as u16).to_le_bytes());
    bytes[2] = record.event.kind as u8;
    bytes[4..].copy_from_slice(&record.event.step.to_le_bytes());
    bytes
}

/// The event as a log has it: a step of -0 is +0, and no other kind has a step.
fn logged(event: &LaxEvent) -> LaxEvent {
    let step = if event.kind == STEP { counted(event.step) } else { 0.0 };
    LaxEvent { kind: event.kind, step }
}

/// By the two bytes of the record before it alone.
fn next_number(log: &[u8]) -> u32 {
    if log.len() == HEAD {
        return 0;
    }
    let last = log.len() - RECORD;
    u16::from_le_bytes([log[last], log[last + 1]]).wrapping_add(1).into()
}
