//! Draws each easing that has a curve, with its parameters in `all_named`, from the library's answers: NAME.svg in
//! the folder that the first argument names. The files have the same bytes each time.
use std::path::Path;
use std::{env, fs, io};

use laxombiit::{Easing, Refusal};

/// A power of two, so that each t is exact.
const SAMPLES: u32 = 128;

/// Lengths are in tenths of a pixel. A progress from 0 to 1 is 100 pixels on both axes; the curve may go 0.2 beyond.
const UNIT: f32 = 1000.0;
const LEFT: f32 = 300.0;
const TOP: f32 = 300.0;

fn main() -> io::Result<()> {
    let folder = env::args().nth(1).expect("curves FOLDER");
    for easing in Easing::all_named().iter().filter(|e| e.is_supplied()) {
        let name = name(easing);
        let picture = picture(&name, &path(easing).expect("a kind with a curve"));
        fs::write(Path::new(&folder).join(name + ".svg"), picture)?;
    }
    Ok(())
}

/// The kind without its parameters.
fn name(easing: &Easing) -> String {
    format!("{easing:?}").chars().take_while(|c| c.is_alphanumeric()).collect()
}

/// The line through the samples. Steps jumps where a step begins, and is level up to the next sample.
fn path(easing: &Easing) -> Result<String, Refusal> {
    let mut path = format!("M{} {}", across(0.0), up(easing.apply(0.0)?.value));
    for k in 1..=SAMPLES {
        let t = k as f32 / SAMPLES as f32;
        let (x, y) = (across(t), up(easing.apply(t)?.value));
        path += &match easing {
            Easing::Steps(_) => format!("V{y}H{x}"),
            _ => format!("L{x} {y}"),
        };
    }
    Ok(path)
}

fn across(t: f32) -> i32 {
    (LEFT + UNIT * t).round() as i32
}

fn up(value: f32) -> i32 {
    (TOP + UNIT * (1.0 - value)).round() as i32
}

/// The unit square in grey, the curve in one colour, no ground: for light and dark pages.
fn picture(name: &str, path: &str) -> String {
    format!(
        r##"<svg xmlns="http://www.w3.org/2000/svg" width="160" height="160" viewBox="0 0 1600 1600" fill="none">
<title>{name}</title>
<rect x="{LEFT}" y="{TOP}" width="{UNIT}" height="{UNIT}" stroke="#888888" stroke-width="10"/>
<path d="{path}" stroke="#e8590c" stroke-width="24" stroke-linejoin="round" stroke-linecap="round"/>
</svg>
"##
    )
}
