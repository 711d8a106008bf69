//! Both in a stream of calls, in turn, and the least of each.
use crate::inside_sqrt;
use std::hint::black_box;
use std::time::Instant;

/// As many as the bench draws, so that no branch is learnt by heart.
const MANY: usize = 100_000;
const ROUNDS: u32 = 200;

#[inline(never)]
fn own_sqrt(x: f32) -> f32 {
    x.sqrt()
}

/// The places of a circular curve, 1 - y * y, by a step that never comes back to a place.
fn operands() -> Vec<f32> {
    (0..MANY).map(|k| (k as f64 * 0.618_033_988_75).fract() as f32).map(|y| 1.0 - y * y).collect()
}

fn stored(root: impl Fn(f32) -> f32, operands: &[f32], answers: &mut [f32]) {
    for (answer, &x) in answers.iter_mut().zip(operands) {
        *answer = root(x);
    }
    black_box(answers);
}

fn summed(root: impl Fn(f32) -> f32, operands: &[f32]) {
    black_box(operands.iter().fold(0.0, |sum, &x| sum + root(x)));
}

/// The least time of one root, in nanoseconds, of ours and of the processor's own.
fn least(mut ours: impl FnMut(), mut own: impl FnMut()) -> (f64, f64) {
    let time = |pass: &mut dyn FnMut()| {
        let began = Instant::now();
        pass();
        began.elapsed().as_nanos() as f64 / MANY as f64
    };
    (0..ROUNDS)
        .fold((f64::INFINITY, f64::INFINITY), |(a, b), _| (a.min(time(&mut ours)), b.min(time(&mut own))))
}

pub fn print() {
    let (operands, mut answers, mut same) = (operands(), vec![0.0; MANY], vec![0.0; MANY]);
    let ours = |x| inside_sqrt(x);
    let kept = least(|| stored(ours, &operands, &mut answers), || stored(own_sqrt, &operands, &mut same));
    let sums = least(|| summed(ours, &operands), || summed(own_sqrt, &operands));
    for (what, (ours, own)) in [("stored", kept), ("summed", sums)] {
        println!("root: answers {what}: {ours:.2} ns, the processor's own {own:.2}, ratio {:.2}", ours / own);
    }
}
