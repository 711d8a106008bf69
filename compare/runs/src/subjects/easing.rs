use crate::calls::*;
use crate::difference::{Difference, answered, must};
use crate::meaning;
use crate::rules;
use crate::search;
use crate::subjects::found;
use crate::words::*;
use oracle::Easing;

#[derive(Clone)]
pub enum EasingCall {
    Apply(LaxEasing, f32),
    Eq(LaxEasing, LaxEasing),
    IsSupplied(LaxEasing),
    Named(u32),
}

use EasingCall::*;

impl EasingCall {
    pub fn name(&self) -> &'static str {
        match self {
            Apply(..) => "easing apply",
            Eq(..) => "easing eq",
            IsSupplied(_) => "easing is_supplied",
            Named(_) => "easing named",
        }
    }

    /// The number of the answer, where it is the expected one.
    pub fn check(&self) -> Result<u32, Difference> {
        let name = self.name();
        Ok(match self {
            Apply(e, t) => self.apply(e, *t)?,
            Eq(x, y) => answered(name, easing_eq(x, y), equal(x, y))?.number,
            IsSupplied(e) => answered(name, easing_is_supplied(e), supplied(e))?.number,
            Named(place) => answered(name, easing_named(*place), named(*place))?.number,
        })
    }

    fn apply(&self, e: &LaxEasing, t: f32) -> Result<u32, Difference> {
        let (name, expected) = (self.name(), applied(e, t));
        let ours = answered(name, easing_apply(e, t), found(expected, || search::of_easing(e, t)))?;
        let same = || search::value(e, t).is_none_or(|value| value.to_bits() == expected.value.to_bits());
        must(&format!("{name}: the search written again is the Rust's"), expected.number != 0 || same())?;
        Ok(ours.number)
    }
}

pub fn applied(e: &LaxEasing, t: f32) -> LaxValue {
    match rules::apply_refused(e, t) {
        0 => LaxValue { number: 0, value: meaning::easing(e).apply(t) },
        number => LaxValue { number, value: 0.0 },
    }
}

pub fn equal(x: &LaxEasing, y: &LaxEasing) -> LaxFlag {
    match rules::eq_refused(x, y) {
        0 => LaxFlag { number: 0, flag: (meaning::easing(x) == meaning::easing(y)).into() },
        number => LaxFlag { number, flag: 0 },
    }
}

pub fn supplied(e: &LaxEasing) -> LaxFlag {
    match rules::is_supplied_refused(e) {
        0 => LaxFlag { number: 0, flag: (!rules::is_one_of_twelve(e)).into() },
        number => LaxFlag { number, flag: 0 },
    }
}

pub fn named(place: u32) -> LaxEasingAnswer {
    match rules::named_refused(place) {
        0 => {
            let easing = meaning::easing_words(&Easing::all_named()[place as usize]);
            LaxEasingAnswer { number: 0, easing }
        }
        number => LaxEasingAnswer { number, easing: LaxEasing::default() },
    }
}
