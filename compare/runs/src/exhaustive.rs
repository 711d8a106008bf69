//! Every f32 from 0 to 1, for each supplied kind at the parameters of `all_named`. A kind that is done is
//! noted in a file, with the hashes of the archive and of the sources, and is left out the next time.
use crate::calls::easing_apply;
use crate::compared;
use crate::cores::on_all_cores;
use crate::difference::same;
use crate::meaning::{self, name};
use crate::rules::is_one_of_twelve;
use crate::search;
use crate::subjects::found;
use crate::words::{LaxEasing, LaxFound, LaxValue};
use oracle::Easing;
use std::fs::{self, OpenOptions};
use std::io::Write;
use std::sync::atomic::{AtomicU32, AtomicU64, Ordering::Relaxed};

const DONE: &str = concat!(env!("CARGO_MANIFEST_DIR"), "/../../target/exhaustive.txt");
const ONE: u32 = 0x3f80_0000;
/// How many floats a thread takes at a time.
const PIECE: u32 = 1 << 20;

/// Whether all kinds, or the one that is named, agree.
pub fn run(only: Option<&str>) -> bool {
    println!("{}", compared());
    let named = Easing::all_named().iter().filter(|easing| !is_one_of_twelve(&meaning::easing_words(easing)));
    let chosen: Vec<&Easing> = named.filter(|easing| only.is_none_or(|only| only == name(easing))).collect();
    let agreeing = chosen.iter().filter(|easing| agrees(easing)).count();
    let (kinds, calls) = (chosen.len(), chosen.len() as u64 * u64::from(ONE + 1));
    println!("exhaustive: {kinds} kinds, {calls} calls, {} kinds with differences", kinds - agreeing);
    kinds > 0 && agreeing == kinds
}

fn agrees(easing: &Easing) -> bool {
    let found = format!("{}: {} calls, 0 differences", name(easing), ONE + 1);
    let line = format!("{}; {found}", compared());
    if fs::read_to_string(DONE).unwrap_or_default().lines().any(|done| done == line) {
        println!("{found}, done earlier");
        return true;
    }
    let first = first_difference(easing);
    if first == u32::MAX {
        println!("{found}");
        note(&line);
    } else {
        show(easing, first);
    }
    first == u32::MAX
}

fn note(line: &str) {
    let file = OpenOptions::new().create(true).append(true).open(DONE);
    if let Err(error) = file.and_then(|mut file| writeln!(file, "{line}")) {
        eprintln!("{DONE}: {error}");
    }
}

/// What the Rust says, and the search written again.
fn expected(easing: &Easing, words: &LaxEasing, t: f32) -> LaxFound {
    found(LaxValue { number: 0, value: easing.apply(t) }, || search::of_easing(words, t))
}

fn show(easing: &Easing, bits: u32) {
    let (words, t) = (meaning::easing_words(easing), f32::from_bits(bits));
    println!("{}: difference at 0x{bits:08x} ({t:?})", name(easing));
    println!("    ours:     {}", shown(easing_apply(&words, t)));
    println!("    expected: {}", shown(expected(easing, &words, t)));
}

fn shown(found: LaxFound) -> String {
    let LaxFound { number, value, settled, xs, derivatives } = found;
    let search = format!("settled {settled}, {xs} x, {derivatives} derivatives");
    format!("number {number}, 0x{:08x} ({value:?}), {search}", value.to_bits())
}

/// The bits of the least t whose answers differ; u32::MAX where there is none.
fn first_difference(easing: &Easing) -> u32 {
    let (next, first) = (AtomicU64::new(0), AtomicU32::new(u32::MAX));
    let work = || {
        while let Ok(piece) = u32::try_from(next.fetch_add(u64::from(PIECE), Relaxed))
            && piece <= ONE
        {
            first.fetch_min(first_in(easing, piece), Relaxed);
        }
    };
    let part = || (next.load(Relaxed) * 100 / u64::from(ONE)).min(100);
    on_all_cores(work, |seconds| eprintln!("{}, {seconds} s: {} %", name(easing), part()));
    first.into_inner()
}

fn first_in(easing: &Easing, from: u32) -> u32 {
    let words = meaning::easing_words(easing);
    let differs = |bits: &u32| {
        let t = f32::from_bits(*bits);
        same("easing apply", &easing_apply(&words, t), &expected(easing, &words, t)).is_err()
    };
    (from..=ONE.min(from + PIECE - 1)).find(differs).unwrap_or(u32::MAX)
}
