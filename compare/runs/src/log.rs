//! An event log read back: the request's sentence on the format, written apart from the library.
use crate::words::{Float, LaxEvent, Layout, Whole, Words};

pub const HEAD: usize = 5;
pub const RECORD: usize = 8;

/// What a record says.
#[repr(C)]
#[derive(Clone, Copy)]
pub struct Entry {
    pub number: u32,
    pub event: LaxEvent,
}

unsafe impl Words for Entry {
    fn layout() -> Layout {
        [("number", Whole), ("kind", Whole), ("step", Float)]
            .map(|(name, kind)| (name.to_string(), kind))
            .to_vec()
    }
}

/// The records of a log, or nothing where the bytes are no log.
pub fn read(bytes: &[u8]) -> Option<Vec<Entry>> {
    let ([b'P', b'E', b'L', low, high], records) = bytes.split_first_chunk::<HEAD>()? else { return None };
    if whole(&[*low, *high]) != 1 || records.len() % RECORD != 0 {
        return None;
    }
    records.chunks(RECORD).map(read_record).collect()
}

/// Nothing where a replay refuses the record by 18.
pub fn read_record(bytes: &[u8]) -> Option<Entry> {
    let [first, second, kind, zero, step @ ..] = bytes else { return None };
    let (number, step) = (whole(&[*first, *second]), whole(step));
    let event = LaxEvent { kind: u32::from(*kind), step: f32::from_bits(step) };
    let fits = if *kind == 1 { is_step(event.step) } else { step == 0 };
    ((1..=4).contains(kind) && *zero == 0 && fits).then_some(Entry { number, event })
}

/// As a writer leaves it.
fn is_step(x: f32) -> bool {
    !x.is_nan() && !x.is_infinite() && !x.is_sign_negative()
}

/// Low byte first.
fn whole(bytes: &[u8]) -> u32 {
    bytes.iter().rev().fold(0, |sum, byte| sum * 256 + u32::from(*byte))
}
