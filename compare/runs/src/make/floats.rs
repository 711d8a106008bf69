use super::Maker;
use std::sync::LazyLock;

/// What the rules and the formulas speak of, and what floats have at their ends.
const MARKS: [f32; 27] = [
    0.0,
    f32::from_bits(0x007f_ffff),
    f32::MIN_POSITIVE,
    1e-9,
    f32::EPSILON,
    1e-6,
    0.02,
    0.1,
    0.25,
    1.0 / 2.75,
    0.5,
    2.0 / 2.75,
    2.5 / 2.75,
    1.0,
    1.6,
    2.0,
    3.0,
    1024.0,
    4096.0,
    65_535.0,
    65_536.0,
    524_288.0,
    8_388_608.0,
    16_777_215.0,
    16_777_216.0,
    33_554_432.0,
    f32::MAX,
];

/// The marks, the floats next to each, all of them negative too, the infinities, and NaN in four ways.
pub static EDGES: LazyLock<Vec<f32>> = LazyLock::new(|| {
    let mut edges: Vec<f32> =
        [0x7fc0_0000, 0xffc0_0000, 0x7f80_0001, 0x7fff_ffff].map(f32::from_bits).to_vec();
    for mark in MARKS {
        for near in [mark.to_bits().saturating_sub(1), mark.to_bits(), mark.to_bits() + 1] {
            edges.extend([f32::from_bits(near), -f32::from_bits(near)]);
        }
    }
    edges
});

impl Maker {
    pub fn edge(&mut self) -> f32 {
        self.pick(&EDGES)
    }

    pub fn any_float(&mut self) -> f32 {
        f32::from_bits(self.word())
    }

    /// Evenly from 0 to below 1.
    pub fn part(&mut self) -> f32 {
        (self.word() >> 8) as f32 / 16_777_216.0
    }

    /// A progress: mostly from 0 to 1, of any size there.
    pub fn progress(&mut self) -> f32 {
        match self.below(12) {
            0..5 => self.part(),
            5 => f32::from_bits(self.below(0x3f80_0001)),
            6 => (-24.0 * self.part()).exp2(),
            7 => 1.0 - (-24.0 * self.part()).exp2(),
            8 => self.below(65) as f32 / 64.0,
            9 => self.edge(),
            10 => self.near(0.5),
            _ => self.any_float(),
        }
    }

    /// From 0 to max: the ends, whole numbers, evenly, and of any size.
    pub fn up_to(&mut self, max: f32) -> f32 {
        let x = match self.below(8) {
            0 => 0.0,
            1 => max,
            2 => self.near(max),
            3 => self.below(21) as f32,
            4 | 5 => self.part() * max,
            6 => f32::from_bits(self.below(max.to_bits().max(1))),
            _ => max * (-24.0 * self.part()).exp2(),
        };
        if x <= max { x } else { max }
    }

    /// The same or a few floats away, on either side.
    pub fn near(&mut self, x: f32) -> f32 {
        f32::from_bits(x.to_bits().saturating_add(self.below(5)).saturating_sub(2))
    }

    /// A value within its limit, or the limit itself.
    pub fn value(&mut self) -> f32 {
        let size = match self.below(6) {
            0 => self.below(101) as f32,
            1 => self.up_to(16_777_216.0),
            _ => self.part() * self.pick(&[1.0, 10.0, 1000.0]),
        };
        if self.once_in(3) { -size } else { size }
    }

    /// One of the edges, or any float at all.
    pub fn odd(&mut self) -> f32 {
        if self.once_in(3) { self.any_float() } else { self.edge() }
    }
}
