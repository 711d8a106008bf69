//! Inputs: random ones, and the edges of what the rules speak of.
mod easings;
mod floats;
mod logs;
mod lost;
mod ramps;
mod replays;
mod tracks;
mod tweens;

pub use floats::EDGES;
pub use logs::{LAST_NUMBERS, Log};
pub use lost::{TURNS, spacing};
pub use ramps::RampLog;
pub use replays::{WRITTEN, set_bits, set_number, written};
pub use tracks::FRAME_COUNTS;

/// A source of inputs. The same seed gives the same inputs.
pub struct Maker {
    state: u64,
}

impl Maker {
    /// For one case of a run.
    pub fn new(seed: u64, case: u64) -> Self {
        let mut maker = Self { state: seed };
        maker.state = maker.next() ^ case.wrapping_mul(0x9e37_79b9_7f4a_7c15);
        maker
    }

    /// splitmix64
    fn next(&mut self) -> u64 {
        self.state = self.state.wrapping_add(0x9e37_79b9_7f4a_7c15);
        let mut z = self.state;
        z = (z ^ (z >> 30)).wrapping_mul(0xbf58_476d_1ce4_e5b9);
        z = (z ^ (z >> 27)).wrapping_mul(0x94d0_49bb_1331_11eb);
        z ^ (z >> 31)
    }

    pub fn word(&mut self) -> u32 {
        (self.next() >> 32) as u32
    }

    /// From 0 to n - 1.
    pub fn below(&mut self, n: u32) -> u32 {
        ((u64::from(self.word()) * u64::from(n)) >> 32) as u32
    }

    /// One time in n.
    pub fn once_in(&mut self, n: u32) -> bool {
        self.below(n) == 0
    }

    pub fn pick<T: Copy>(&mut self, all: &[T]) -> T {
        all[self.below(all.len() as u32) as usize]
    }
}
