use super::{KINDS, Limit, first, is_one_of_twelve, parameters};
use crate::words::LaxEasing;

pub fn easing_unknown(e: &LaxEasing) -> bool {
    e.kind >= KINDS
}

pub fn breaks_parameter(e: &LaxEasing) -> bool {
    let own = parameters(e.kind);
    let breaks = |(x, limit): (f32, &Limit)| !x.is_finite() || (*limit == Limit::Size && x.abs() > 1024.0);
    let breaks_count = own.count.as_ref().is_some_and(|range| !range.contains(&e.count));
    e.floats().into_iter().zip(own.floats).any(breaks) || breaks_count
}

/// What an easing must be inside a record.
pub fn easing_fits(e: &LaxEasing) -> bool {
    !is_one_of_twelve(e) && !breaks_parameter(e)
}

pub fn apply_refused(e: &LaxEasing, t: f32) -> u32 {
    first(&[
        (100, &|| easing_unknown(e)),
        (1, &|| t.is_nan()),
        (2, &|| is_one_of_twelve(e)),
        (3, &|| breaks_parameter(e)),
    ])
}

pub fn eq_refused(x: &LaxEasing, y: &LaxEasing) -> u32 {
    first(&[
        (100, &|| easing_unknown(x) || easing_unknown(y)),
        (2, &|| is_one_of_twelve(x) || is_one_of_twelve(y)),
        (3, &|| breaks_parameter(x) || breaks_parameter(y)),
    ])
}

pub fn is_supplied_refused(e: &LaxEasing) -> u32 {
    first(&[(100, &|| easing_unknown(e))])
}

pub fn named_refused(place: u32) -> u32 {
    first(&[(100, &|| place >= KINDS)])
}
