use super::log::in_order;
use super::{tween_breaks, tween_unknown};
use crate::words::{LaxReplay, LaxTween};

/// The number of the last record where none was read.
pub const NO_RECORD: u32 = 65_536;

/// Of a replay as a whole; the records are then refused one by one.
pub fn replay_refused(t: &LaxTween, log: &[u8], gaps: usize) -> u32 {
    in_order(&[
        (100, &|| tween_unknown(t)),
        (4, &|| tween_breaks(t)),
        (15, &|| !log.starts_with(b"PEL")),
        (16, &|| !log[3..].starts_with(&[1, 0])),
        (17, &|| log.len() % 8 != 5),
        (12, &|| gaps < (log.len() - 5) / 8),
    ])
}

/// The limits of the tween are left to the calls that are made on it.
pub fn replay_on_refused(reached: &LaxReplay, records: usize, gaps: usize) -> u32 {
    in_order(&[
        (100, &|| tween_unknown(&reached.tween) || reached.last > NO_RECORD),
        (17, &|| !records.is_multiple_of(8)),
        (12, &|| gaps < records / 8),
    ])
}
