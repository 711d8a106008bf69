//! Logs that the library writes, and a reader of records that shares nothing with it.
use laxombiit::event_log::{write_head, write_record, Event};

/// What is behind a log, and stays.
pub const FILL: u8 = 0xee;

/// The number and the event of a record, where it is one.
pub fn record(bytes: &[u8]) -> Option<(u16, Event)> {
    let word = u64::from_le_bytes(bytes.try_into().ok()?);
    let step = f32::from_bits((word >> 32) as u32);
    let event = match (word >> 16 & 0xffff, word >> 32) {
        (1, _) if step.is_sign_positive() && step.is_finite() => Event::Step(step),
        (2, 0) => Event::Pause,
        (3, 0) => Event::Resume,
        (4, 0) => Event::Reset,
        _ => return None,
    };
    Some((word as u16, event))
}

/// The log of the events, in a buffer that ends right behind it.
pub fn written(events: &[Event]) -> Vec<u8> {
    let mut buffer = vec![FILL; 5 + 8 * events.len()];
    let mut length = write_head(&mut buffer).unwrap();
    for &event in events {
        length = write_record(&mut buffer, length, event).unwrap();
    }
    assert_eq!(length, buffer.len());
    buffer
}
