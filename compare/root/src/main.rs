//! The square root inside the library, which no call of it shows, beside the processor's own. See compare/README.md.
#[path = "../../runs/src/cores.rs"]
mod cores;
mod times;

use cores::on_all_cores;
use std::process::ExitCode;
use std::sync::Mutex;
use std::sync::atomic::{AtomicU32, Ordering};

unsafe extern "C" {
    safe fn inside_sqrt(x: f32) -> f32;
    safe fn inside_guess(n: u64) -> u64;
}

fn main() -> ExitCode {
    if let Some(x) = first_difference() {
        let (ours, own) = (inside_sqrt(x), x.sqrt());
        eprintln!(
            "root: of {x:e}, {:08x}: {ours:e}, {:08x}; the processor has {own:e}, {:08x}",
            x.to_bits(),
            ours.to_bits(),
            own.to_bits()
        );
        return ExitCode::FAILURE;
    }
    println!("root: {} floats, 0 to 1 and -0: 0 differences", u64::from(ONE) + 2);
    let turns = turns();
    println!(
        "root: {} operands: {} with no turn, {} with one, {} with more, at most {}",
        turns.operands,
        turns.none,
        turns.one,
        turns.operands - turns.none - turns.one,
        turns.most
    );
    times::print();
    ExitCode::SUCCESS
}

/// The bits of 1, the last float that has a root here.
const ONE: u32 = 0x3f80_0000;
const BLOCK: u32 = 1 << 20;

fn is_same(bits: u32) -> bool {
    let x = f32::from_bits(bits);
    inside_sqrt(x).to_bits() == x.sqrt().to_bits()
}

/// Of every float from 0 to 1, and of -0.
fn first_difference() -> Option<f32> {
    let (next, found) = (AtomicU32::new(0), Mutex::new(None::<u32>));
    let work = || loop {
        let first = next.fetch_add(BLOCK, Ordering::Relaxed);
        if first > ONE || found.lock().unwrap().is_some() {
            return;
        }
        if let Some(bits) = (first..ONE.min(first + BLOCK - 1) + 1).find(|&bits| !is_same(bits)) {
            let mut least = found.lock().unwrap();
            *least = Some(least.map_or(bits, |before| before.min(bits)));
        }
    };
    on_all_cores(work, |seconds| eprintln!("root: {seconds} s"));
    let minus_zero = (!is_same((-0.0_f32).to_bits())).then_some((-0.0_f32).to_bits());
    found.into_inner().unwrap().or(minus_zero).map(f32::from_bits)
}

struct Turns {
    operands: u64,
    none: u64,
    one: u64,
    most: u64,
}

/// Of the loops that go from the guess to the nearest root, for every n that a float leads to: a significand of
/// 24 binary digits with 23 or 24 zeros behind it. They make as many as the guess is off.
fn turns() -> Turns {
    let mut turns = Turns { operands: 0, none: 0, one: 0, most: 0 };
    for significand in 0x80_0000..0x100_0000_u64 {
        for n in [significand << 23, significand << 24] {
            let off = inside_guess(n).abs_diff(nearest_root(n));
            turns.operands += 1;
            turns.none += u64::from(off == 0);
            turns.one += u64::from(off == 1);
            turns.most = turns.most.max(off);
        }
    }
    turns
}

/// No root of a whole number is half way between two.
fn nearest_root(n: u64) -> u64 {
    let below = n.isqrt();
    below + u64::from(n > below * below + below)
}
