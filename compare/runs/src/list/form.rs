//! The form of the list: words of 32 bits, low byte first; which calls it has, and a record and the arguments
//! of a call in it.
use crate::input::Input;
use crate::rules::{TRACK_REFUSALS, TWEEN_REFUSALS, frames};
use crate::words::{LaxTrack, PLACES, Words};

pub const END: u32 = 0;
pub const TWEEN: u32 = 16;
pub const TRACK: u32 = 32;

/// Of a call that makes a record, and of one that is given a kind's word.
const NONE: &[u32] = &[];
const KIND: &[u32] = &[100];

/// The number of each call, by which numbers each call of its record can be refused, and by which it can be
/// itself.
pub const CALLS: [(u32, &str, &[u32], &[u32]); 32] = [
    (1, "easing apply", KIND, &[1, 2, 3]),
    (2, "easing eq", KIND, &[2, 3]),
    (3, "easing is_supplied", KIND, &[]),
    (4, "easing named", KIND, &[]),
    (17, "tween new", NONE, &[]),
    (18, "tween value", &TWEEN_REFUSALS, &[]),
    (19, "tween progress", &TWEEN_REFUSALS, &[]),
    (20, "tween eased_progress", &TWEEN_REFUSALS, &[]),
    (21, "tween snapshot", &TWEEN_REFUSALS, &[]),
    (22, "tween playback_duration", &TWEEN_REFUSALS, &[]),
    (23, "tween reset", &TWEEN_REFUSALS, &[]),
    (24, "tween seek", &TWEEN_REFUSALS, &[1]),
    (25, "tween reverse", &TWEEN_REFUSALS, &[]),
    (26, "tween pause", &TWEEN_REFUSALS, &[]),
    (27, "tween resume", &TWEEN_REFUSALS, &[]),
    (28, "tween update", &TWEEN_REFUSALS, &[5, 6, 7]),
    (29, "tween run", &TWEEN_REFUSALS, &[5, 6, 7, 12]),
    (33, "track new", NONE, &[]),
    (34, "track push", &TRACK_REFUSALS, &[9, 11]),
    (35, "track push_eased", &TRACK_REFUSALS, &[2, 3, 9, 11]),
    (36, "track looping", &TRACK_REFUSALS, &[11]),
    (37, "track value_at", &TRACK_REFUSALS, &[10]),
    (38, "track value", &TRACK_REFUSALS, &[10]),
    (39, "track values_at", &TRACK_REFUSALS, &[10, 12]),
    (40, "track update", &TRACK_REFUSALS, &[5, 6, 8]),
    (41, "track active_time", &TRACK_REFUSALS, &[]),
    (42, "track duration", &TRACK_REFUSALS, &[]),
    (43, "track playback_duration", &TRACK_REFUSALS, &[]),
    (44, "track progress", &TRACK_REFUSALS, &[]),
    (45, "track is_complete", &TRACK_REFUSALS, &[]),
    (46, "track reset", &TRACK_REFUSALS, &[]),
    (47, "track seek_to", &TRACK_REFUSALS, &[1]),
];

/// The head of a track, then the frames that it has.
pub fn track_words(t: &LaxTrack) -> Vec<u32> {
    let (places, head) = t.words().split_at(8 * PLACES);
    [head, &places[..8 * frames(t).len()]].concat()
}

/// The lengths of its lists, then its words without the record.
pub fn arguments(input: &Input) -> Vec<u32> {
    let mut input = input.clone();
    let record = match &input {
        Input::Tween(t, _) => t.words().len(),
        Input::Track(t, _) => t.words().len(),
        _ => 0,
    };
    let lengths: Vec<u32> = input.lengths().iter().map(|(_, length)| *length as u32).collect();
    let words: Vec<u32> = input.words().iter().skip(record).map(|(_, _, word)| **word).collect();
    [lengths, words].concat()
}
