//! What a log comes to, record by record, by the reader that is written apart from the library.
use crate::log::{RECORD, read_record};
use crate::replay::{begun, heard};
use crate::words::{LaxReplay, LaxTween};

const CUT: u32 = 17;

/// A record that was read, behind the number `last`.
pub struct Seen {
    pub place: usize,
    pub gap: u16,
    pub last: u32,
    pub number: u32,
    pub folds: u64,
    pub step: f32,
}

/// All that was read, the number of the first record, and what stopped it, 0 for nothing.
pub struct Survey {
    pub seen: Vec<Seen>,
    pub first: Option<u16>,
    pub reached: LaxReplay,
    pub refused: u32,
}

/// Of the bytes behind the head. A cut record is refused where it is reached.
pub fn survey(t: &LaxTween, bytes: &[u8]) -> Survey {
    let first = bytes.chunks_exact(RECORD).next().map(|record| u16::from_le_bytes([record[0], record[1]]));
    let mut survey = Survey { seen: Vec::new(), first, reached: begun(t), refused: 0 };
    for (place, record) in bytes.chunks(RECORD).enumerate() {
        let before = survey.reached;
        let heard = if record.len() < RECORD { Err(CUT) } else { heard(&before, record) };
        match (heard, read_record(record)) {
            (Ok((gap, reached)), Some(entry)) => {
                let (folds, step) = (reached.folds - before.folds, entry.event.step);
                survey.seen.push(Seen { place, gap, last: before.last, number: entry.number, folds, step });
                survey.reached = reached;
            }
            (Err(number), _) => {
                survey.refused = number;
                break;
            }
            (Ok(_), None) => unreachable!("what is heard can be read"),
        }
    }
    survey
}
