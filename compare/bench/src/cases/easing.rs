use super::{BEZIER_BAR, Case, is_circ, name_of};
use crate::ffi::lax_easing_apply;
use crate::inputs::MANY;
use crate::meaning::easing_words;
use crate::rules::is_one_of_twelve;
use crate::side::Valued;
use crate::words::FoundPlace;
use crate::{inputs, rust, side};
use oracle::Easing;
use std::hint::black_box;

const PLAIN_BAR: f64 = 2.5;

/// The supplied kinds, with the parameters of `all_named`.
pub fn cases() -> Vec<Case> {
    let supplied = Easing::all_named().iter().filter(|easing| !is_one_of_twelve(&easing_words(easing)));
    supplied.map(apply).collect()
}

/// Of a kind without parameters, and of `CubicBezier`.
fn bar(easing: &Easing) -> Option<f64> {
    match easing {
        Easing::CubicBezier(..) => Some(BEZIER_BAR),
        easing if is_circ(easing) => None,
        Easing::Steps(_) | Easing::SlowMo { .. } | Easing::CustomBounce { .. } => None,
        _ => Some(PLAIN_BAR),
    }
}

fn apply(easing: &'static Easing) -> Case {
    let progresses = inputs::below(1.0, MANY);
    let (words, same) = (easing_words(easing), progresses.clone());
    Case {
        name: format!("apply, {}", name_of(easing)),
        bar: bar(easing),
        answers: MANY as f64,
        size: 1,
        ours: side::filling(MANY, move |answers| {
            let (easing, mut out) = (black_box(&words), FoundPlace::default());
            for (answer, t) in answers.iter_mut().zip(&progresses) {
                let number = lax_easing_apply(easing, *t, &mut out);
                *answer = Valued { number, value: out.value };
            }
        }),
        rust: side::filling(MANY, move |answers| {
            let easing = black_box(easing);
            for (answer, t) in answers.iter_mut().zip(&same) {
                *answer = rust::apply(easing, *t);
            }
        }),
    }
}
