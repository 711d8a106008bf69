use super::Maker;
use crate::rules::*;
use crate::words::{LaxEasing, LaxLoop};

impl Maker {
    /// Supplied and within its limits; every third has something in the words that are not looked at.
    pub fn easing(&mut self) -> LaxEasing {
        let kind = if self.once_in(3) { self.pick(&with_parameters()) } else { self.supplied() };
        let junk = self.once_in(3);
        let [a, b, c, d] = [0; 4].map(|_| if junk { self.odd() } else { 0.0 });
        let mut easing = LaxEasing { kind, a, b, c, d, count: if junk { self.word() } else { 0 } };
        let flat = kind == BEZIER && self.once_in(4);
        let own = parameters(kind);
        for (word, limit) in easing.floats_mut().into_iter().zip(own.floats) {
            *word = match limit {
                Limit::Size => self.size(),
                Limit::Finite if flat => self.end(),
                Limit::Finite => self.share(),
            };
        }
        if own.count.is_some() {
            easing.count = self.steps();
        }
        easing
    }

    fn supplied(&mut self) -> u32 {
        let easing = LaxEasing { kind: self.below(KINDS), ..LaxEasing::default() };
        if is_one_of_twelve(&easing) { self.supplied() } else { easing.kind }
    }

    /// A Bezier's x, a ratio or a strength: any finite number, mostly from 0 to 1.
    fn share(&mut self) -> f32 {
        match self.below(8) {
            0 => self.pick(&[0.0, 1.0, -0.0]),
            1 => self.near(1.0),
            2 => self.pick(&[0.25, 0.5, 0.75]),
            3 => Some(self.odd()).filter(|x| x.is_finite()).unwrap_or(0.5),
            _ => self.part(),
        }
    }

    /// A Bezier's x at an end of 0..1 or beyond, where its curve may be flat.
    fn end(&mut self) -> f32 {
        self.pick(&[0.0, -0.0, 1.0, -1.0, 2.0])
    }

    /// A Bezier's y or a power: at most 1,024 in size.
    fn size(&mut self) -> f32 {
        match self.below(8) {
            0 => self.pick(&[0.0, 1.0, -1.0, 1024.0, -1024.0, f32::from_bits(0x447f_ffff)]),
            1 => (self.part() - 0.5) * 2048.0,
            2 => Some(self.odd()).filter(|x| x.abs() <= 1024.0).unwrap_or(0.5),
            _ => self.part() * 3.0 - 1.0,
        }
    }

    fn steps(&mut self) -> u32 {
        match self.below(4) {
            0 => self.pick(&[0, 1, 2, 6, 65_535, 65_536]),
            1 => self.below(65_537),
            _ => self.below(30),
        }
    }

    /// Any kind, and beyond: the twelve, words that are none, parameters at their limits and beyond.
    pub fn odd_easing(&mut self) -> LaxEasing {
        let mut easing = self.easing();
        match self.below(4) {
            0 => easing.kind = self.below(KINDS + 2),
            1 => easing.kind = self.pick(&[KINDS, KINDS + 1, 100, u32::MAX]),
            2 => easing = LaxEasing { a: self.odd(), b: self.odd(), c: self.odd(), d: self.odd(), ..easing },
            _ => easing.count = self.odd_count(),
        }
        easing
    }

    pub fn odd_count(&mut self) -> u32 {
        let mark = self.pick(&[0u32, 1, 2, 5, 38, 64, 4_096, 65_535, 65_536, 16_777_216, u32::MAX]);
        if self.once_in(4) { self.word() } else { mark.wrapping_add(self.below(3)).wrapping_sub(1) }
    }

    /// A mode whose passes are within their limit, small as a rule.
    pub fn looping(&mut self) -> LaxLoop {
        let passes = match self.below(6) {
            0 => 65_535 - self.below(3),
            1 => self.below(65_536),
            2 => self.pick(&[4_095, 4_096, 4_097, 5_000]),
            _ => self.below(6),
        };
        LaxLoop { mode: self.below(5), passes }
    }

    pub fn odd_looping(&mut self) -> LaxLoop {
        LaxLoop { mode: self.below(6), passes: self.odd_count() }
    }
}
