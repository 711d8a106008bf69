use laxombiit::{Refusal, Track};

/// Moves on by a step and what is carried. What elapsed did not grow by is carried to the next call.
pub fn advance(track: &mut Track, step: f32, carry: &mut f32) -> Result<bool, Refusal> {
    let (due, before) = (step + *carry, track.elapsed());
    let running = match track.update(due) {
        Err(Refusal::StepLost) => true,
        answer => answer?,
    };
    *carry = due - (track.elapsed() - before);
    Ok(running)
}
