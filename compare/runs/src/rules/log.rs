use super::{LIMIT, Rule};
use crate::words::LaxEvent;

pub const STEP: u32 = 1;
pub const PAUSE: u32 = 2;
pub const RESUME: u32 = 3;
pub const RESET: u32 = 4;

/// A log's rules stand in its own order, which has 17 twice; one is asked only where no earlier one applies.
pub(super) fn in_order(rules: &[Rule]) -> u32 {
    rules.iter().find(|(_, rule)| rule()).map_or(0, |(number, _)| *number)
}

pub fn head_refused(room: usize) -> u32 {
    in_order(&[(13, &|| room < 5)])
}

/// The step of an event that is none is not looked at.
pub fn record_refused(buffer: &[u8], written: usize, event: &LaxEvent) -> u32 {
    let step = if event.kind == STEP { event.step } else { 0.0 };
    let log = || &buffer[..written];
    in_order(&[
        (100, &|| ![STEP, PAUSE, RESUME, RESET].contains(&event.kind)),
        (5, &|| step > LIMIT),
        (14, &|| step.is_nan() || step < 0.0),
        (17, &|| written > buffer.len()),
        (15, &|| !log().starts_with(b"PEL")),
        (16, &|| !log()[3..].starts_with(&[1, 0])),
        (17, &|| written % 8 != 5),
        (13, &|| buffer.len() - written < 8),
    ])
}
