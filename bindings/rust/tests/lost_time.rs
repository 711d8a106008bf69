//! The figures of docs/MANUAL.md about lost time: each is worked out by the library's calls, and the manual is
//! searched for it as it came out. And the manual's lines for a carry, which are those of carry/mod.rs.
mod carry;

use carry::advance;
use laxombiit::event_log::{replay, write_head, write_record, Event};
use laxombiit::{Easing, Keyframe, Loop, Refusal, Track, Tween, TweenState};

const MANUAL: &str = include_str!("../../../docs/MANUAL.md");
const LIMIT: f32 = 16_777_216.0;
const STEP: f32 = 0.02;

fn said(words: &str) {
    assert!(MANUAL.contains(words), "docs/MANUAL.md does not say: {words}");
}

/// As the manual writes numbers, with so many places.
fn commas(x: impl Into<f64>, places: usize) -> String {
    let text = format!("{:.places$}", x.into());
    let (whole, rest) = text.split_at(text.find('.').unwrap_or(text.len()));
    let digits: Vec<char> = whole.chars().collect();
    let groups: Vec<String> = digits.rchunks(3).rev().map(|three| three.iter().collect()).collect();
    groups.join(",") + rest
}

fn endless(elapsed: f32) -> Track {
    let frames = [(0.0, 0.0), (1.0, 8.0)].map(|(time, value)| Keyframe::new(time, value, Easing::Linear));
    Track::from_parts(&frames, elapsed, Loop::Forever, 0, false).unwrap()
}

fn is_lost(elapsed: f32, step: f32) -> bool {
    match endless(elapsed).update(step) {
        Ok(_) => false,
        Err(refusal) => {
            assert_eq!(refusal, Refusal::StepLost);
            true
        }
    }
}

/// So many numbers further on.
fn after(x: f32, numbers: u32) -> f32 {
    f32::from_bits(x.to_bits() + numbers)
}

fn distance(x: f32) -> f32 {
    after(x, 1) - x
}

#[test]
fn rows_of_0_02() {
    let rows = [
        (1.0, ""),
        (2048.0, " (34 min)"),
        (32_768.0, " (9 h)"),
        (65_536.0, " (18 h)"),
        (131_072.0, " (36 h)"),
        (262_144.0, " (3 d)"),
        (524_288.0, " (6 d)"),
        (8_388_608.0, " (97 d)"),
    ];
    for (from, told) in rows {
        let grown = (from + STEP) - from;
        let lost = is_lost(from, STEP);
        for elapsed in [after(from, 1), 1.5 * from, after(1.5 * from, 1)] {
            let mut track = endless(elapsed);
            assert_eq!(track.update(STEP).is_err(), lost);
            assert_eq!((elapsed + STEP) - elapsed, grown);
            assert_eq!(track.elapsed() - elapsed, if lost { 0.0 } else { grown });
        }
        let (from, distance) = (commas(from, 0), distance(from));
        let is = if lost { "refused 6" } else { "accepted" };
        said(&format!("| {from} s{told} | {distance} s | {} s | {grown} s | {is} |", 4.0 * distance));
    }
}

/// Numbers of every size, half of them at a row's end, and steps of half a distance to sixteen.
#[test]
fn four_distances() {
    let mut state: u64 = 1;
    let mut random = |below: u32| {
        state = state.wrapping_mul(6_364_136_223_846_793_005).wrapping_add(1_442_695_040_888_963_407);
        (state >> 33) as u32 % below
    };
    let mut few = [0; 2];
    for _ in 0..400_000 {
        let elapsed = f32::from_bits(random(LIMIT.to_bits()) | [0, 0x007f_fff0][random(2) as usize]);
        let part = f32::from_bits(1f32.to_bits() | random(1 << 23));
        let step = distance(elapsed) * part * [0.5, 1.0, 2.0, 4.0, 8.0][random(5) as usize];
        let sum = elapsed + step;
        if sum > LIMIT {
            continue;
        }
        let lost = is_lost(elapsed, step);
        assert!(!lost || step < 4.0 * distance(sum), "{elapsed:e} + {step:e}");
        let off = (f64::from(sum) - f64::from(elapsed) - f64::from(step)).abs();
        assert!(lost || step < 2f32.powi(-123) || off <= f64::from(step) / 8.0, "{elapsed:e} + {step:e}");
        if elapsed >= 1.0 {
            let distances = f64::from(step / distance(elapsed));
            let in_row = distance(sum) == distance(elapsed);
            assert!(lost || distances >= 8.0 / 9.0);
            assert!(!in_row || lost == ((distances.round() - distances).abs() > distances / 8.0));
            few[lost as usize] += 1;
        }
    }
    assert!(few[0] > 10_000 && few[1] > 10_000);
    assert!(!is_lost(65_536.0, 1.0 / 60.0));
}

/// The last numbers before a power of two.
fn last_before(row: f32) -> impl Iterator<Item = f32> {
    (1..=64).rev().map(move |back| f32::from_bits(row.to_bits() - back))
}

/// Every number of the first row; of the others up to the limit some, and the last.
fn refused_from(from: f32, step: f32) {
    let mut track = endless(from);
    for _ in 0..1 << 23 {
        assert_eq!(track.update(step), Err(Refusal::StepLost));
        track.update(distance(from)).unwrap();
    }
    assert_eq!(track.elapsed(), 2.0 * from);
    let mut row = 2.0 * from;
    while row < LIMIT {
        let some = (0..1 << 23).step_by(4099).map(|place| after(row, place));
        assert!(some.chain(last_before(2.0 * row)).all(|elapsed| is_lost(elapsed, step)));
        row *= 2.0;
    }
    assert!(is_lost(LIMIT, step));
}

/// Every number of a row whose sum is in the row: the track goes through it by the step itself, once from each of the
/// numbers that such a step leaves out.
fn accepted_in(row: f32, step: f32) {
    let grown = (row + step) - row;
    for offset in 0..(grown / distance(row)) as u32 {
        let mut track = endless(after(row, offset));
        while track.elapsed() + step < 2.0 * row {
            let before = track.elapsed();
            track.update(step).unwrap();
            assert_eq!(track.elapsed() - before, grown);
        }
    }
}

/// Below `from` the sums that pass a power of two, and the rows in which a step is less than four distances; the
/// others are never refused.
fn refused_before(from: f32, step: f32) -> Vec<f32> {
    let mut row = 1.0;
    let mut found = Vec::new();
    while row < from {
        if step < 4.0 * distance(row) {
            accepted_in(row, step);
        }
        row *= 2.0;
        found.extend(last_before(row).filter(|&elapsed| is_lost(elapsed, step)));
    }
    found
}

/// How many steps from 0 on are accepted, and the elapsed then.
fn accepted_from_0(step: f32) -> (u32, f32) {
    let mut track = endless(0.0);
    let mut taken = 0;
    while track.update(step).is_ok() {
        taken += 1;
    }
    assert!(is_lost(track.elapsed(), step));
    (taken, track.elapsed())
}

fn row_of_step(told: &str, seconds: f64, from: f32) {
    let step = seconds as f32;
    refused_from(from, step);
    let before: Vec<String> = refused_before(from, step).into_iter().map(|x| commas(x, 3) + " s").collect();
    let (taken, elapsed) = accepted_from_0(step);
    let due = f64::from(taken) * seconds;
    let figures = [
        told.into(),
        commas(from, 0) + " s",
        before.join(", "),
        commas(taken, 0),
        commas(due, 2) + " s",
        commas(elapsed, 3) + " s",
        commas(due - f64::from(elapsed), 2) + " s",
    ];
    said(&format!("| {} |", figures.join(" | ")));
}

#[test]
fn where_0_01_is_refused() {
    row_of_step("0.01 s", 0.01, 32_768.0);
}

#[test]
fn where_a_60th_is_refused() {
    row_of_step("1/60 s", 1.0 / 60.0, 262_144.0);
}

#[test]
fn where_0_02_is_refused() {
    row_of_step("0.02 s", 0.02, 65_536.0);
    let (taken, elapsed) = accepted_from_0(STEP);
    let due = commas(0.02 * f64::from(taken), 1);
    let (taken, elapsed) = (commas(taken, 0), commas(elapsed, 3));
    said(&format!("{taken} steps, {due} s of the pump's time, shows {elapsed} s and then refuses"));
}

#[test]
fn where_0_1_is_refused() {
    row_of_step("0.1 s", 0.1, 524_288.0);
}

/// An eighth of 5 · 2^-149 is rounded up to 2^-149.
#[test]
fn an_eighth_is_rounded() {
    let elapsed = 2f32.powi(-125) + 2f32.powi(-148);
    let mut track = endless(elapsed);
    assert_eq!(track.update(f32::from_bits(5)), Ok(true));
    assert_eq!(track.elapsed() - elapsed, f32::from_bits(6));
}

#[test]
fn the_manual_has_the_lines_of_the_carry() {
    said(&format!("```rust\n{}```\n", include_str!("carry/mod.rs")));
    said(&format!("```c\n{}```\n", include_str!("../../c/carry.h")));
}

#[test]
fn a_carry_keeps_the_time() {
    let (mut track, mut carry) = (endless(0.0), 0.0);
    let (mut refused, mut furthest) = (0, 0.0_f64);
    let of = |x: f32| f64::from(x);
    for taken in 1..=26_000_000 {
        let before = track.elapsed();
        advance(&mut track, STEP, &mut carry).unwrap();
        refused += (track.elapsed() == before) as u32;
        furthest = furthest.max((of(track.elapsed()) - f64::from(taken) * of(STEP)).abs());
    }
    let due = 26e6 * of(STEP);
    let off = (of(track.elapsed()) + of(carry) - due).abs();
    said(&format!("in 26,000,000 steps of which {} were refused, ends {off:.3} s off", commas(refused, 0)));
    said(&format!("which is {:.3} s short of 520,000 s itself", 520_000.0 - due));
    said(&format!("at no time further off than {:.3} s", (1000.0 * furthest).ceil() / 1000.0));
}

#[test]
fn refused_steps_alone_do_not() {
    let (mut track, mut kept) = (endless(0.0), 0.0);
    for _ in 0..26_000_000 {
        kept += STEP;
        if track.update(kept).is_ok() {
            kept = 0.0;
        }
    }
    let off = f64::from(track.elapsed()) + f64::from(kept) - 520_000.0;
    said(&format!("The same track is then {} s off", commas(off.abs(), 0)));
}

/// Other refusals are handed on, and the carry stays.
#[test]
fn a_carry_beside_other_refusals() {
    let (mut track, mut carry) = (endless(LIMIT), 0.5);
    assert_eq!(advance(&mut track, 3.5, &mut carry), Err(Refusal::ElapsedTooLong));
    assert_eq!(advance(&mut track, f32::INFINITY, &mut carry), Err(Refusal::StepTooLong));
    assert_eq!((track.elapsed(), carry), (LIMIT, 0.5));
    assert_eq!((advance(&mut track, 0.25, &mut carry), carry), (Ok(true), 0.75));
    let mut track = endless(8_388_608.0);
    carry = 0.0;
    assert_eq!((advance(&mut track, 7.5, &mut carry), carry), (Ok(true), -0.5));
    assert_eq!((advance(&mut track, 0.25, &mut carry), carry), (Ok(true), -0.25));
    assert_eq!(track.elapsed(), 8_388_616.0);
}

#[test]
fn a_carry_at_a_power_of_two_and_at_the_end() {
    let (step, before) = (1.0 / 60.0, f32::from_bits(65_536f32.to_bits() - 3));
    let (mut track, mut carry) = (endless(before), 0.0);
    assert_eq!((advance(&mut track, step, &mut carry), track.elapsed()), (Ok(true), before));
    assert_eq!((advance(&mut track, step, &mut carry), track.elapsed() > before), (Ok(true), true));
    let (mut once, mut carry) = (endless(0.75), 0.0);
    once.looping(Loop::Once).unwrap();
    assert_eq!((advance(&mut once, 0.5, &mut carry), carry), (Ok(false), 0.25));
    assert_eq!((advance(&mut once, 0.5, &mut carry), carry), (Ok(false), 0.75));
}

/// A tween with a carry, and the folds that it made.
struct Carried {
    tween: Tween,
    carry: f32,
    folds: u32,
}

impl Carried {
    fn new(duration: f32) -> Carried {
        let tween = Tween { duration, looping: Loop::Forever, ..Tween::new(0.0, 8.0) };
        Carried { tween, carry: 0.0, folds: 0 }
    }

    /// What was handed over, where it was accepted.
    fn advance(&mut self, step: f32) -> Option<f32> {
        let (due, before) = (step + self.carry, self.tween.elapsed);
        let answer = self.tween.update(due);
        assert!(matches!(answer, Ok(_) | Err(Refusal::StepLost)));
        let folds = answer.map_or(0, |update| update.folds);
        self.carry = due - (self.tween.elapsed + folds as f32 * self.tween.duration - before);
        self.folds += folds;
        answer.is_ok().then_some(due)
    }

    fn time(&self) -> f64 {
        let passes = f64::from(self.folds) * f64::from(self.tween.duration);
        passes + f64::from(self.tween.elapsed) + f64::from(self.carry)
    }
}

/// A log of what was accepted gives the tween back.
#[test]
fn a_tween_of_a_day_with_a_carry() {
    let mut day = Carried::new(86_400.0);
    let begun = day.tween;
    let accepted: Vec<f32> = (0..5_000_000).filter_map(|_| day.advance(STEP)).collect();
    assert!(accepted.len() < 5_000_000 && day.folds == 1);
    said("in 5,000,000 steps, came to 5,000,000 times that f32 exactly");
    assert_eq!(day.time(), 5e6 * f64::from(STEP));
    let reached = replay(begun, &log_of(&accepted), &mut vec![0; accepted.len()]).unwrap();
    assert_eq!((reached.tween, reached.folds), (day.tween, 1));
}

#[test]
fn tweens_of_520_000_s() {
    let row = |step: &str, duration: &str, folds: u32, elapsed: f32| {
        let unit = if elapsed == 0.0 { "" } else { " s" };
        said(&format!("| {step} | {duration} | {} | {elapsed}{unit} |", commas(folds, 0)));
    };
    for (told, step, duration, told_duration) in
        [("1 tick of 20 ms", 1.0, 50.0, "50 ticks"), ("0.02 s", STEP, 1.0, "1 s")]
    {
        let mut tween = Carried::new(duration).tween;
        let (mut values, mut folds) = ([0.0; 1000], [0; 1000]);
        let mut made = 0;
        for _ in 0..26_000 {
            tween.run(&[step; 1000], &mut values, &mut folds).unwrap();
            made += folds.iter().sum::<u32>();
        }
        row(told, told_duration, made, tween.elapsed);
    }
    let mut carried = Carried::new(1.0);
    assert!((0..26_000_000).all(|_| carried.advance(STEP).is_some()));
    row("0.02 s, with [a carry](#what-to-carry)", "1 s", carried.folds, carried.tween.elapsed);
    let due = 26e6 * f64::from(STEP);
    said(&format!("26,000,000 times the f32 next to it are {} s", commas(due, 4)));
    assert_eq!(carried.time(), due);
}

/// Up to a duration of 65,535 s: 0.02 s is four distances at every sum below 65,536 s.
#[test]
fn short_tweens_refuse_no_step_of_0_02() {
    said(
        "with a duration and a delay of up to 65,535 s and scale 1, a step of 0.02 s is four distances or more",
    );
    assert!(STEP >= 4.0 * distance(65_535.0));
    let mut tween = Carried::new(65_535.0).tween;
    for back in 1..1000 {
        tween.elapsed = f32::from_bits(65_535f32.to_bits() - back);
        let mut idle =
            Tween { delay: 65_535.0, state: TweenState::Idle, delay_elapsed: tween.elapsed, ..tween };
        assert!(tween.update(STEP).is_ok() && idle.update(STEP).is_ok());
    }
    tween.duration = 65_536.0;
    tween.elapsed = f32::from_bits(65_536f32.to_bits() - 2);
    assert_eq!(tween.update(STEP), Err(Refusal::StepLost));
}

/// The last steps of 262,144 s; each sum is exact.
#[test]
fn steps_of_a_64th() {
    said("exact for 16,777,216 steps, 262,144 s or 3 days at 1/64 s, and the next step is refused with 6");
    let step = 1.0 / 64.0;
    let mut track = endless(0.0);
    for elapsed in [0.0, 65_535.0, 131_071.0, 262_143.0] {
        track.update(elapsed - track.elapsed()).unwrap();
        for taken in 1..=64 {
            track.update(step).unwrap();
            assert_eq!(track.elapsed(), elapsed + taken as f32 * step);
        }
    }
    assert_eq!((track.elapsed() / step, track.update(step)), (LIMIT, Err(Refusal::StepLost)));
}

/// As the manual says how, twice a thousand passes.
#[test]
fn passes_of_an_endless_track() {
    let (mut track, mut passes) = (endless(0.0), 0);
    for taken in 1..=128_000 {
        track.update(1.0 / 64.0).unwrap();
        if taken % 64_000 == 0 {
            assert_eq!(track.active_time(), Ok(0.0));
            passes += track.loop_count();
            track.reset().unwrap();
        }
    }
    assert_eq!(passes, 2000);
}

fn log_of(steps: &[f32]) -> Vec<u8> {
    let mut log = vec![0; 5 + 8 * steps.len()];
    let mut written = write_head(&mut log).unwrap();
    for &step in steps {
        written = write_record(&mut log, written, Event::Step(step)).unwrap();
    }
    log
}

/// Up to 0.5.0 the second step was accepted, and counted as 0.03125 s.
#[test]
fn a_log_of_before() {
    said("`reached` has the tween as it stood before the first of them.");
    let long = Carried::new(LIMIT).tween;
    let stopped = replay(long, &log_of(&[262_144.0, STEP, 1.0]), &mut [0; 3]).unwrap_err();
    assert_eq!((stopped.place, stopped.refusal), (1, Refusal::StepLost));
    assert_eq!(stopped.reached.tween, Tween { elapsed: 262_144.0, ..long });
}
