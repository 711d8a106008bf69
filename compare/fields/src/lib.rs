//! The sources say `derive(serde::Serialize, serde::Deserialize)` where the feature `serde` is on. This
//! crate stands under that name. It serialises nothing: what its second derive writes stands in the
//! module of the item, so that it sees the private fields of `Tween` and `KeyframeTrack`, and no line
//! of the sources has to change.
use proc_macro::{TokenStream, TokenTree};

#[proc_macro_derive(Serialize, attributes(serde))]
pub fn serialize(_: TokenStream) -> TokenStream {
    TokenStream::new()
}

#[proc_macro_derive(Deserialize, attributes(serde))]
pub fn deserialize(item: TokenStream) -> TokenStream {
    let code = match name_of(item).as_deref() {
        Some("Tween") => TWEEN,
        Some("KeyframeTrack") => TRACK,
        _ => "",
    };
    code.parse().expect("the code below is Rust")
}

fn name_of(item: TokenStream) -> Option<String> {
    let mut tokens = item.into_iter();
    tokens.find(|token| matches!(token, TokenTree::Ident(word) if word.to_string() == "struct"))?;
    tokens.next().map(|name| name.to_string())
}

const TWEEN: &str = "
impl Tween<f32> {
    #[allow(clippy::too_many_arguments)]
    pub fn of_fields(start: f32, end: f32, duration: f32, easing: Easing, delay: f32, time_scale: f32,
        looping: Loop, elapsed: f32, delay_elapsed: f32, state: TweenState, loop_count: u32,
        ping_pong_reverse: bool) -> Self {
        Self { start, end, duration, easing, delay, time_scale, looping, elapsed, delay_elapsed, state,
            loop_count, ping_pong_reverse }
    }
    pub fn of_builder(start: f32, end: f32, duration: f32, easing: Easing, delay: f32, time_scale: f32,
        looping: Loop) -> Self {
        Self::from_builder(start, end, duration, easing, delay, time_scale, looping)
    }
}
";

const TRACK: &str = "
impl KeyframeTrack<f32> {
    pub fn of_fields(frames: Vec<Keyframe<f32>>, elapsed: f32, looping: Loop, loop_count: u32,
        complete: bool) -> Self {
        Self { frames, elapsed, looping, loop_count, complete }
    }
    pub fn passes_made(&self) -> u32 { self.loop_count }
    pub fn marked_complete(&self) -> bool { self.complete }
    pub fn time_in_pass(&self) -> f32 { self.active_time() }
}
";
