use crate::ffi;
use crate::Refusal;

/// A value, and the search behind it. `CubicBezier` alone searches: for the place on its curve whose
/// x is `t`. Where nothing is searched the value is settled and both counts are 0: every other kind,
/// `t` of 0 or 1, a first or a last frame's value, a duration of 0.
///
/// ```
/// use laxombiit::{Easing, Found};
///
/// let steep = Easing::CubicBezier(1.0, 0.0, 0.0, 1.0);
/// let found = steep.apply(0.45).unwrap();
/// assert_eq!(found, Found { value: 0.17653541, settled: false, xs: 16, derivatives: 6 });
/// ```
#[derive(Clone, Copy, Debug, PartialEq)]
pub struct Found {
    /// The value itself.
    pub value: f32,
    /// Whether the last x that was evaluated met the tolerance, 1e-6. It is no bound on the error of
    /// the value: where the curve is steep, the value may be off by far more than 1e-6.
    pub settled: bool,
    /// Evaluations of x, at most 16.
    pub xs: u32,
    /// Evaluations of its derivative, at most 6.
    pub derivatives: u32,
}

impl Found {
    /// What the call puts into the place that it is lent.
    pub(crate) fn of(call: impl FnOnce(&mut ffi::LaxFound) -> u32) -> Result<Found, Refusal> {
        let w = Refusal::or_lent(call)?;
        Ok(Found { value: w.value, settled: w.settled != 0, xs: w.xs, derivatives: w.derivatives })
    }
}
