//! Event logs: written by the library, read back by a few lines that share nothing with it.
mod log;

use laxombiit::event_log::{write_head, write_record, Event};
use laxombiit::Refusal;
use log::{record, written, FILL};

/// The number and the event of each record, where the bytes are a log.
fn read(log: &[u8]) -> Option<Vec<(u16, Event)>> {
    let records = log.strip_prefix(b"PEL")?.strip_prefix(&1u16.to_le_bytes())?;
    records.chunks(8).map(record).collect()
}

fn refused(buffer: &[u8], length: usize, event: Event) -> Refusal {
    let mut lent = buffer.to_vec();
    let refusal = write_record(&mut lent, length, event).unwrap_err();
    assert_eq!(lent, buffer);
    refusal
}

#[test]
fn a_small_log() {
    let events = [Event::Step(0.02), Event::Pause, Event::Resume, Event::Step(-0.0), Event::Reset];
    let log = written(&events);
    let bytes = [
        0x50, 0x45, 0x4c, 0x01, 0x00, //
        0x00, 0x00, 0x01, 0x00, 0x0a, 0xd7, 0xa3, 0x3c, //
        0x01, 0x00, 0x02, 0x00, 0x00, 0x00, 0x00, 0x00, //
        0x02, 0x00, 0x03, 0x00, 0x00, 0x00, 0x00, 0x00, //
        0x03, 0x00, 0x01, 0x00, 0x00, 0x00, 0x00, 0x00, //
        0x04, 0x00, 0x04, 0x00, 0x00, 0x00, 0x00, 0x00, //
    ];
    assert_eq!(log, bytes);
    let steps = [Event::Step(0.02), Event::Pause, Event::Resume, Event::Step(0.0), Event::Reset];
    assert_eq!(read(&log), Some((0..).zip(steps).collect()));
}

#[test]
fn other_bytes_stay() {
    let log = written(&[Event::Pause; 5]);
    for place in 0..5 {
        let length = 5 + 8 * place;
        let mut buffer = [&log[..length], &[FILL; 20]].concat();
        assert_eq!(write_record(&mut buffer, length, Event::Pause), Ok(length + 8));
        assert_eq!(buffer, [&log[..length + 8], &[FILL; 12]].concat());
    }
}

#[test]
fn numbers_wrap() {
    let kinds = [Event::Pause, Event::Resume, Event::Reset, Event::Step(1.5)];
    let events: Vec<Event> = (0..70_000).map(|k| kinds[k % 4]).collect();
    let expected = (0..70_000u32).map(|k| k as u16).zip(events.iter().copied()).collect();
    assert_eq!(read(&written(&events)), Some(expected));
}

#[test]
fn numbers_go_on_from_the_last_record() {
    let mut buffer = written(&[Event::Pause, Event::Pause]);
    buffer[5..7].copy_from_slice(&700u16.to_le_bytes());
    write_record(&mut buffer, 13, Event::Reset).unwrap();
    assert_eq!(read(&buffer), Some(vec![(700, Event::Pause), (701, Event::Reset)]));
}

/// As the manual says: where the buffer is full, the log goes out, and the head and the last record stay.
#[test]
fn a_log_in_parts() {
    let events: Vec<Event> = (0..1000).map(|k| Event::Step(k as f32)).collect();
    let mut buffer = [FILL; 5 + 8 * 7];
    let mut out = Vec::new();
    let (mut from, mut length) = (0, write_head(&mut buffer).unwrap());
    for &event in &events {
        if length == buffer.len() {
            out.extend_from_slice(&buffer[from..length]);
            buffer.copy_within(length - 8..length, 5);
            (from, length) = (13, 13);
        }
        length = write_record(&mut buffer, length, event).unwrap();
    }
    out.extend_from_slice(&buffer[from..length]);
    assert_eq!(out, written(&events));
}

#[test]
fn steps_keep_their_bits() {
    for bits in [1, 0x007f_ffff, 0x0080_0000, 0x3f80_0000, 0x4b80_0000] {
        let log = written(&[Event::Step(f32::from_bits(bits))]);
        assert_eq!(log[9..], bits.to_le_bytes());
    }
    assert_eq!(written(&[Event::Step(-0.0)])[9..], [0; 4]);
}

#[test]
fn the_first_refusal_counts() {
    let log = written(&[Event::Pause]);
    let bad = [FILL; 13];
    let no_version = [b"PEL\x02\0".as_slice(), &bad].concat();
    let cases = [
        (Event::Step(f32::INFINITY), bad.as_slice(), 99, Refusal::StepTooLong),
        (Event::Step(16_777_218.0), &bad, 99, Refusal::StepTooLong),
        (Event::Step(f32::NAN), &bad, 99, Refusal::StepBelowZero),
        (Event::Step(f32::NEG_INFINITY), &bad, 99, Refusal::StepBelowZero),
        (Event::Step(-f32::MIN_POSITIVE), &bad, 99, Refusal::StepBelowZero),
        (Event::Pause, &bad, 14, Refusal::WrongLength),
        (Event::Pause, &bad, usize::MAX, Refusal::WrongLength),
        (Event::Pause, &bad, 13, Refusal::WrongMark),
        (Event::Pause, &[], 0, Refusal::WrongMark),
        (Event::Pause, &log, 2, Refusal::WrongMark),
        (Event::Pause, &log, 3, Refusal::UnknownVersion),
        (Event::Pause, &log, 4, Refusal::UnknownVersion),
        (Event::Pause, &no_version, 5, Refusal::UnknownVersion),
        (Event::Pause, &no_version, 6, Refusal::UnknownVersion),
        (Event::Pause, &log, 12, Refusal::WrongLength),
        (Event::Pause, &log, 13, Refusal::NoRoom),
        (Event::Step(16_777_216.0), &log[..12], 5, Refusal::NoRoom),
    ];
    for (event, buffer, length, refusal) in cases {
        assert_eq!(refused(buffer, length, event), refusal, "{event:?} behind {length} of {buffer:?}");
    }
}

#[test]
fn a_head_wants_five_bytes() {
    for room in 0..5 {
        let mut buffer = vec![FILL; room];
        assert_eq!(write_head(&mut buffer), Err(Refusal::NoRoom));
        assert_eq!(buffer, vec![FILL; room]);
    }
    let mut buffer = [FILL; 7];
    assert_eq!(write_head(&mut buffer), Ok(5));
    assert_eq!(buffer, *b"PEL\x01\0\xee\xee");
}
