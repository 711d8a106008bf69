use crate::ffi;
use crate::{Found, Refusal};

/// A curve from 0 to 1. The kinds of Sine, Expo and Elastic, `RoughEase`, `Wiggle` and `ExpoScale`
/// have a name and no curve: they are refused.
#[derive(Clone, Copy, Debug, PartialEq)]
pub enum Easing {
    /// `Linear`.
    Linear,
    /// `EaseInQuad`.
    EaseInQuad,
    /// `EaseOutQuad`.
    EaseOutQuad,
    /// `EaseInOutQuad`.
    EaseInOutQuad,
    /// `EaseInCubic`.
    EaseInCubic,
    /// `EaseOutCubic`.
    EaseOutCubic,
    /// `EaseInOutCubic`.
    EaseInOutCubic,
    /// `EaseInQuart`.
    EaseInQuart,
    /// `EaseOutQuart`.
    EaseOutQuart,
    /// `EaseInOutQuart`.
    EaseInOutQuart,
    /// `EaseInQuint`.
    EaseInQuint,
    /// `EaseOutQuint`.
    EaseOutQuint,
    /// `EaseInOutQuint`.
    EaseInOutQuint,
    /// `EaseInSine`.
    EaseInSine,
    /// `EaseOutSine`.
    EaseOutSine,
    /// `EaseInOutSine`.
    EaseInOutSine,
    /// `EaseInExpo`.
    EaseInExpo,
    /// `EaseOutExpo`.
    EaseOutExpo,
    /// `EaseInOutExpo`.
    EaseInOutExpo,
    /// `EaseInCirc`.
    EaseInCirc,
    /// `EaseOutCirc`.
    EaseOutCirc,
    /// `EaseInOutCirc`.
    EaseInOutCirc,
    /// `EaseInBack`.
    EaseInBack,
    /// `EaseOutBack`.
    EaseOutBack,
    /// `EaseInOutBack`.
    EaseInOutBack,
    /// `EaseInElastic`.
    EaseInElastic,
    /// `EaseOutElastic`.
    EaseOutElastic,
    /// `EaseInOutElastic`.
    EaseInOutElastic,
    /// `EaseInBounce`.
    EaseInBounce,
    /// `EaseOutBounce`.
    EaseOutBounce,
    /// `EaseInOutBounce`.
    EaseInOutBounce,
    /// The control points x1, y1, x2, y2; x is clamped to 0..1.
    CubicBezier(f32, f32, f32, f32),
    /// So many steps; 0 counts as 1.
    Steps(u32),
    /// Refused.
    RoughEase {
        /// Strength of the noise.
        strength: f32,
        /// Number of points.
        points: u32,
    },
    /// Slow in the middle.
    SlowMo {
        /// The part of the time that is slow.
        linear_ratio: f32,
        /// How much faster the edges are, less one.
        power: f32,
    },
    /// Refused.
    Wiggle {
        /// Number of wiggles.
        wiggles: u32,
    },
    /// 0 is a straight line, 1 is `EaseOutBounce`.
    CustomBounce {
        /// Strength of the bounce.
        strength: f32,
    },
    /// Refused.
    ExpoScale {
        /// Scale at the start.
        start: f32,
        /// Scale at the end.
        end: f32,
    },
}

impl Easing {
    /// The eased progress at `t`, which is clamped to 0..1, and the search behind it. Refused: 1
    /// where `t` is NaN, 2 for a kind without a curve, 3 for a parameter beyond its limit.
    ///
    /// ```
    /// use laxombiit::{Easing, Refusal};
    ///
    /// assert_eq!(Easing::EaseInQuad.apply(0.5)?.value, 0.25);
    /// assert_eq!(Easing::EaseInSine.apply(0.5), Err(Refusal::EasingNotSupplied));
    /// # Ok::<(), Refusal>(())
    /// ```
    pub fn apply(&self, t: f32) -> Result<Found, Refusal> {
        Found::of(|out| ffi::lax_easing_apply(&self.words(), t, out))
    }

    /// Whether `other` is the same kind with equal parameters. Unlike `==` this is the library's
    /// comparison, which refuses: 2, then 3, for either side.
    pub fn equals(&self, other: &Easing) -> Result<bool, Refusal> {
        let equal = Refusal::or_lent(|out| ffi::lax_easing_eq(&self.words(), &other.words(), out))?;
        Ok(equal != 0)
    }

    /// Whether the kind has a curve.
    pub fn is_supplied(&self) -> bool {
        Refusal::or_lent(|out| ffi::lax_easing_is_supplied(&self.words(), out)) == Ok(1)
    }

    /// The 38 names, with animato's parameters.
    pub fn all_named() -> [Easing; 38] {
        std::array::from_fn(|k| {
            let mut words = ffi::LaxEasing::default();
            ffi::lax_easing_named(k as u32, &mut words);
            Easing::from_words(words)
        })
    }

    pub(crate) fn words(&self) -> ffi::LaxEasing {
        let w = |kind, a, b, c, d, count| ffi::LaxEasing { kind, a, b, c, d, count };
        match *self {
            Easing::Linear => w(0, 0.0, 0.0, 0.0, 0.0, 0),
            Easing::EaseInQuad => w(1, 0.0, 0.0, 0.0, 0.0, 0),
            Easing::EaseOutQuad => w(2, 0.0, 0.0, 0.0, 0.0, 0),
            Easing::EaseInOutQuad => w(3, 0.0, 0.0, 0.0, 0.0, 0),
            Easing::EaseInCubic => w(4, 0.0, 0.0, 0.0, 0.0, 0),
            Easing::EaseOutCubic => w(5, 0.0, 0.0, 0.0, 0.0, 0),
            Easing::EaseInOutCubic => w(6, 0.0, 0.0, 0.0, 0.0, 0),
            Easing::EaseInQuart => w(7, 0.0, 0.0, 0.0, 0.0, 0),
            Easing::EaseOutQuart => w(8, 0.0, 0.0, 0.0, 0.0, 0),
            Easing::EaseInOutQuart => w(9, 0.0, 0.0, 0.0, 0.0, 0),
            Easing::EaseInQuint => w(10, 0.0, 0.0, 0.0, 0.0, 0),
            Easing::EaseOutQuint => w(11, 0.0, 0.0, 0.0, 0.0, 0),
            Easing::EaseInOutQuint => w(12, 0.0, 0.0, 0.0, 0.0, 0),
            Easing::EaseInSine => w(13, 0.0, 0.0, 0.0, 0.0, 0),
            Easing::EaseOutSine => w(14, 0.0, 0.0, 0.0, 0.0, 0),
            Easing::EaseInOutSine => w(15, 0.0, 0.0, 0.0, 0.0, 0),
            Easing::EaseInExpo => w(16, 0.0, 0.0, 0.0, 0.0, 0),
            Easing::EaseOutExpo => w(17, 0.0, 0.0, 0.0, 0.0, 0),
            Easing::EaseInOutExpo => w(18, 0.0, 0.0, 0.0, 0.0, 0),
            Easing::EaseInCirc => w(19, 0.0, 0.0, 0.0, 0.0, 0),
            Easing::EaseOutCirc => w(20, 0.0, 0.0, 0.0, 0.0, 0),
            Easing::EaseInOutCirc => w(21, 0.0, 0.0, 0.0, 0.0, 0),
            Easing::EaseInBack => w(22, 0.0, 0.0, 0.0, 0.0, 0),
            Easing::EaseOutBack => w(23, 0.0, 0.0, 0.0, 0.0, 0),
            Easing::EaseInOutBack => w(24, 0.0, 0.0, 0.0, 0.0, 0),
            Easing::EaseInElastic => w(25, 0.0, 0.0, 0.0, 0.0, 0),
            Easing::EaseOutElastic => w(26, 0.0, 0.0, 0.0, 0.0, 0),
            Easing::EaseInOutElastic => w(27, 0.0, 0.0, 0.0, 0.0, 0),
            Easing::EaseInBounce => w(28, 0.0, 0.0, 0.0, 0.0, 0),
            Easing::EaseOutBounce => w(29, 0.0, 0.0, 0.0, 0.0, 0),
            Easing::EaseInOutBounce => w(30, 0.0, 0.0, 0.0, 0.0, 0),
            Easing::CubicBezier(a, b, c, d) => w(31, a, b, c, d, 0),
            Easing::Steps(n) => w(32, 0.0, 0.0, 0.0, 0.0, n),
            Easing::RoughEase { strength, points } => w(33, strength, 0.0, 0.0, 0.0, points),
            Easing::SlowMo { linear_ratio, power } => w(34, linear_ratio, power, 0.0, 0.0, 0),
            Easing::Wiggle { wiggles } => w(35, 0.0, 0.0, 0.0, 0.0, wiggles),
            Easing::CustomBounce { strength } => w(36, strength, 0.0, 0.0, 0.0, 0),
            Easing::ExpoScale { start, end } => w(37, start, end, 0.0, 0.0, 0),
        }
    }

    pub(crate) fn from_words(w: ffi::LaxEasing) -> Easing {
        match w.kind {
            0 => Easing::Linear,
            1 => Easing::EaseInQuad,
            2 => Easing::EaseOutQuad,
            3 => Easing::EaseInOutQuad,
            4 => Easing::EaseInCubic,
            5 => Easing::EaseOutCubic,
            6 => Easing::EaseInOutCubic,
            7 => Easing::EaseInQuart,
            8 => Easing::EaseOutQuart,
            9 => Easing::EaseInOutQuart,
            10 => Easing::EaseInQuint,
            11 => Easing::EaseOutQuint,
            12 => Easing::EaseInOutQuint,
            13 => Easing::EaseInSine,
            14 => Easing::EaseOutSine,
            15 => Easing::EaseInOutSine,
            16 => Easing::EaseInExpo,
            17 => Easing::EaseOutExpo,
            18 => Easing::EaseInOutExpo,
            19 => Easing::EaseInCirc,
            20 => Easing::EaseOutCirc,
            21 => Easing::EaseInOutCirc,
            22 => Easing::EaseInBack,
            23 => Easing::EaseOutBack,
            24 => Easing::EaseInOutBack,
            25 => Easing::EaseInElastic,
            26 => Easing::EaseOutElastic,
            27 => Easing::EaseInOutElastic,
            28 => Easing::EaseInBounce,
            29 => Easing::EaseOutBounce,
            30 => Easing::EaseInOutBounce,
            31 => Easing::CubicBezier(w.a, w.b, w.c, w.d),
            32 => Easing::Steps(w.count),
            33 => Easing::RoughEase { strength: w.a, points: w.count },
            34 => Easing::SlowMo { linear_ratio: w.a, power: w.b },
            35 => Easing::Wiggle { wiggles: w.count },
            36 => Easing::CustomBounce { strength: w.a },
            37 => Easing::ExpoScale { start: w.a, end: w.b },
            kind => unreachable!("the library answers kinds 0 to 37, not {kind}"),
        }
    }
}
