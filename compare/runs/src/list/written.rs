//! The list as it is written: each case with what the rules and the Rust answer.
use super::answers::answer;
use super::form::{CALLS, END, TRACK, TWEEN, arguments, track_words};
use crate::input::{After, Input};
use crate::tally::{Section, Tally};
use crate::words::Words;

#[derive(Default)]
pub struct List {
    words: Vec<u32>,
    given: Vec<u32>,
    pub tally: Tally,
}

impl List {
    /// An entry: what it is and how many words it has, then the words.
    fn entry(&mut self, number: u32, words: &[u32]) {
        self.words.push(number + 256 * words.len() as u32);
        self.words.extend(words);
    }

    /// The record that the calls behind it are made on, where it is not the one before.
    fn give(&mut self, number: u32, record: Vec<u32>) {
        if self.given != record {
            self.entry(number, &record);
            self.given = record;
        }
    }

    /// A case: its arguments and its answer. Hands back the record after the call.
    pub fn add(&mut self, input: &Input) -> After {
        match input {
            Input::Tween(t, _) => self.give(TWEEN, t.words().to_vec()),
            Input::Track(t, _) => self.give(TRACK, track_words(t)),
            _ => {}
        }
        let (number, name, ..) = CALLS.iter().find(|(_, name, ..)| *name == input.name()).expect("a call");
        let (words, after) = answer(input);
        self.entry(*number, &[arguments(input), words.clone()].concat());
        self.tally.count(&[(Section::Call, name)], words_number(input, &words));
        after
    }

    pub fn bytes(&mut self) -> Vec<u8> {
        let cases = self.tally.inputs as u32;
        self.entry(END, &[cases]);
        self.words.iter().flat_map(|word| word.to_le_bytes()).collect()
    }
}

/// A new record has no number.
fn words_number(input: &Input, words: &[u32]) -> u32 {
    match input {
        Input::NewTween(..) | Input::NewTrack => 0,
        _ => words[0],
    }
}
