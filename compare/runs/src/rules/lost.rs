/// The sum in f32 is still the old number, or lies above it by what differs from `add` by more than an eighth of
/// `add`, the eighth in f32 too.
///
/// The differences are in 64 bits. Those that come near the eighth are between numbers within a factor of two,
/// and so exact, here as in f32; no rounding brings the others near it.
pub fn is_lost(old: f32, add: f32) -> bool {
    let sum = old + add;
    let moved = f64::from(sum) - f64::from(old);
    let off = (moved - f64::from(add)).abs();
    let eighth = (f64::from(add) / 8.0) as f32;
    sum == old || off > f64::from(eighth)
}
