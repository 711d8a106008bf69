use super::Maker;
use std::sync::LazyLock;

/// Where a step begins or ceases to be lost, in spacings of the clock that it is added to. A sum that moves by k
/// shows the steps from k / 1.125 to k / 0.875; those above 4 are lost only where it passes a power of two. At 0.5
/// and at 4 the rounding turns.
pub static TURNS: LazyLock<Vec<f32>> = LazyLock::new(|| {
    let bounds = (1..=8u8).flat_map(|k| [1.125, 0.875].map(|part| f32::from(k) / part));
    [0.5, 4.0].into_iter().chain(bounds).collect()
});

/// To the next f32.
pub fn spacing(clock: f32) -> f32 {
    clock.next_up() - clock
}

impl Maker {
    /// Below max: of any size, up to eight floats below a power of two, or so small that an eighth of a step is
    /// rounded.
    pub fn clock(&mut self, max: f32) -> f32 {
        let any = if self.once_in(2) { self.part() * max } else { f32::from_bits(self.below(max.to_bits())) };
        let clock = match self.below(4) {
            0 => f32::from_bits((any.to_bits() >> 23 << 23).saturating_sub(1 + self.below(8))),
            1 => f32::from_bits(0x0100_0000 + self.below(0x0300_0000)),
            _ => any,
        };
        clock.min(max.next_down())
    }

    /// At a turn or beside one, or up to 10 spacings.
    pub fn nearly_lost(&mut self, clock: f32) -> f32 {
        let spacings = if self.once_in(4) { self.part() * 10.0 } else { self.pick(&TURNS) };
        self.near(spacings * spacing(clock))
    }
}
