//! Rounds of both sides in turn, and the least of each.
use crate::cases::Case;
use crate::side::Side;
use std::time::{Duration, Instant};

/// A round takes about as long as is said, or one pass. Rounds are short, and each case comes again in every
/// sweep, so that other work on the machine leaves some of them alone.
pub struct Plan {
    pub sweeps: u32,
    rounds: u32,
    round: Duration,
}

pub const STEADY: Plan = Plan { sweeps: 5, rounds: 20, round: Duration::from_micros(500) };
pub const QUICK: Plan = Plan { sweeps: 1, rounds: 5, round: Duration::from_micros(100) };

/// The least times so far, in nanoseconds.
pub struct Row {
    pub case: Case,
    pub ours: f64,
    pub rust: f64,
}

impl Row {
    pub fn new(case: Case) -> Self {
        Self { case, ours: f64::INFINITY, rust: f64::INFINITY }
    }

    /// The rounds of one sweep.
    pub fn measure(&mut self, plan: &Plan) -> Result<(), String> {
        let Case { name, answers, ours, rust, .. } = &mut self.case;
        let (our_passes, rust_passes) = (passes(&mut **ours, plan), passes(&mut **rust, plan));
        for _ in 0..plan.rounds {
            self.ours = self.ours.min(pass_time(&mut **ours, our_passes) / *answers);
            self.rust = self.rust.min(pass_time(&mut **rust, rust_passes) / *answers);
            let (our_sum, rust_sum) = (ours.sum(), rust.sum());
            if our_sum != rust_sum {
                return Err(format!(
                    "{name}: the answers differ, checksums {our_sum:016x} and {rust_sum:016x}"
                ));
            }
        }
        Ok(())
    }
}

/// How many passes make a round. The first pass warms up.
fn passes(side: &mut dyn Side, plan: &Plan) -> u32 {
    side.pass();
    let once = pass_time(side, 1).min(pass_time(side, 1)).max(1.0);
    (plan.round.as_nanos() as f64 / once).ceil() as u32
}

fn pass_time(side: &mut dyn Side, passes: u32) -> f64 {
    let began = Instant::now();
    for _ in 0..passes {
        side.pass();
    }
    began.elapsed().as_nanos() as f64 / f64::from(passes)
}
