//! A ramp as text.
use crate::meaning::{self, name};
use crate::rules::parameters;
use crate::words::{LaxEasing, LaxLoop, LaxTween};
use oracle::Loop;

/// Each name with its value; how a float is written is the caller's matter.
pub fn settings(t: &LaxTween, float: fn(f32) -> String) -> [(&'static str, String); 7] {
    [
        ("start", float(t.start)),
        ("end", float(t.end)),
        ("duration", float(t.duration)),
        ("delay", float(t.delay)),
        ("scale", float(t.time_scale)),
        ("mode", mode(&t.looping)),
        ("easing", easing(&t.easing, float)),
    ]
}

fn mode(words: &LaxLoop) -> String {
    let looping = meaning::looping(words);
    match looping {
        Loop::Times(passes) | Loop::PingPongTimes(passes) => format!("{} {passes}", name(&looping)),
        _ => name(&looping),
    }
}

fn easing(words: &LaxEasing, float: fn(f32) -> String) -> String {
    let own = parameters(words.kind);
    let floats = words.floats().into_iter().take(own.floats.len()).map(float);
    let count = own.count.is_some().then(|| words.count.to_string());
    let name = name(&meaning::easing(words));
    [name].into_iter().chain(floats).chain(count).collect::<Vec<String>>().join(" ")
}
