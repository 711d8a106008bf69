//! The records and answers of the C interface, as include/laxombiit.h has them, and the words that they
//! are made of.
use std::mem::size_of;
use std::slice;

#[derive(Clone, Copy, PartialEq)]
pub enum Kind {
    Whole,
    Float,
}

pub use Kind::{Float, Whole};

/// The name and the kind of each word, in order.
pub type Layout = Vec<(String, Kind)>;

/// # Safety
/// Every field is one word of 32 bits or has this trait, so that there is no padding.
pub unsafe trait Words: Copy {
    fn layout() -> Layout;

    fn words(&self) -> &[u32] {
        unsafe { slice::from_raw_parts((self as *const Self).cast(), size_of::<Self>() / 4) }
    }

    fn words_mut(&mut self) -> &mut [u32] {
        unsafe { slice::from_raw_parts_mut((self as *mut Self).cast(), size_of::<Self>() / 4) }
    }
}

fn named(words: &[(&str, Kind)]) -> Layout {
    words.iter().map(|(name, kind)| (name.to_string(), *kind)).collect()
}

fn under(name: &str, inner: Layout) -> Layout {
    inner.into_iter().map(|(word, kind)| (format!("{name}.{word}"), kind)).collect()
}

#[repr(C)]
#[derive(Clone, Copy, Debug, Default)]
pub struct LaxEasing {
    pub kind: u32,
    pub a: f32,
    pub b: f32,
    pub c: f32,
    pub d: f32,
    pub count: u32,
}

impl LaxEasing {
    pub fn floats(&self) -> [f32; 4] {
        [self.a, self.b, self.c, self.d]
    }

    pub fn floats_mut(&mut self) -> [&mut f32; 4] {
        [&mut self.a, &mut self.b, &mut self.c, &mut self.d]
    }
}

unsafe impl Words for LaxEasing {
    fn layout() -> Layout {
        named(&[("kind", Whole), ("a", Float), ("b", Float), ("c", Float), ("d", Float), ("count", Whole)])
    }
}

#[repr(C)]
#[derive(Clone, Copy, Debug, Default)]
pub struct LaxLoop {
    pub mode: u32,
    pub passes: u32,
}

unsafe impl Words for LaxLoop {
    fn layout() -> Layout {
        named(&[("mode", Whole), ("passes", Whole)])
    }
}

#[repr(C)]
#[derive(Clone, Copy, Debug, Default)]
pub struct LaxTween {
    pub start: f32,
    pub end: f32,
    pub duration: f32,
    pub easing: LaxEasing,
    pub delay: f32,
    pub time_scale: f32,
    pub looping: LaxLoop,
    pub elapsed: f32,
    pub delay_elapsed: f32,
    pub state: u32,
    pub loop_count: u32,
    pub ping_pong_reverse: u32,
}

unsafe impl Words for LaxTween {
    fn layout() -> Layout {
        let mut layout = named(&[("start", Float), ("end", Float), ("duration", Float)]);
        layout.extend(under("easing", LaxEasing::layout()));
        layout.extend(named(&[("delay", Float), ("time_scale", Float)]));
        layout.extend(under("looping", LaxLoop::layout()));
        layout.extend(named(&[("elapsed", Float), ("delay_elapsed", Float), ("state", Whole)]));
        layout.extend(named(&[("loop_count", Whole), ("ping_pong_reverse", Whole)]));
        layout
    }
}

#[repr(C)]
#[derive(Clone, Copy, Debug, Default)]
pub struct LaxKeyframe {
    pub time: f32,
    pub value: f32,
    pub easing: LaxEasing,
}

impl LaxKeyframe {
    pub fn new(time: f32, value: f32, easing: LaxEasing) -> LaxKeyframe {
        LaxKeyframe { time, value, easing }
    }
}

unsafe impl Words for LaxKeyframe {
    fn layout() -> Layout {
        let mut layout = named(&[("time", Float), ("value", Float)]);
        layout.extend(under("easing", LaxEasing::layout()));
        layout
    }
}

pub const PLACES: usize = 64;

#[repr(C)]
#[derive(Clone, Copy)]
pub struct LaxTrack {
    pub frames: [LaxKeyframe; PLACES],
    pub count: u32,
    pub elapsed: f32,
    pub looping: LaxLoop,
    pub loop_count: u32,
    pub complete: u32,
}

impl Default for LaxTrack {
    fn default() -> Self {
        let frames = [LaxKeyframe::default(); PLACES];
        Self { frames, count: 0, elapsed: 0.0, looping: LaxLoop::default(), loop_count: 0, complete: 0 }
    }
}

unsafe impl Words for LaxTrack {
    fn layout() -> Layout {
        let mut layout = Layout::new();
        for place in 0..PLACES {
            layout.extend(under(&format!("frames[{place}]"), LaxKeyframe::layout()));
        }
        layout.extend(named(&[("count", Whole), ("elapsed", Float)]));
        layout.extend(under("looping", LaxLoop::layout()));
        layout.extend(named(&[("loop_count", Whole), ("complete", Whole)]));
        layout
    }
}

/// What a call writes into a place that it is lent, and its whole answer: the number, then the place.
macro_rules! answer {
    ($name:ident, $place:ident { $($word:ident: $type:ty, $kind:expr;)* }) => {
        #[repr(C)]
        #[derive(Clone, Copy, Default)]
        pub struct $place {
            $(pub $word: $type,)*
        }

        unsafe impl Words for $place {
            fn layout() -> Layout {
                named(&[$((stringify!($word), $kind),)*])
            }
        }

        #[repr(C)]
        #[derive(Clone, Copy, Default)]
        pub struct $name {
            pub number: u32,
            $(pub $word: $type,)*
        }

        impl $name {
            pub fn of((number, place): (u32, $place)) -> Self {
                Self { number, $($word: place.$word,)* }
            }
        }

        unsafe impl Words for $name {
            fn layout() -> Layout {
                [named(&[("number", Whole)]), $place::layout()].concat()
            }
        }
    };
}

answer!(LaxValue, ValuePlace { value: f32, Float; });
answer!(LaxFound, FoundPlace {
    value: f32, Float;
    settled: u32, Whole;
    xs: u32, Whole;
    derivatives: u32, Whole;
});
answer!(LaxFlag, FlagPlace { flag: u32, Whole; });
answer!(LaxSnapshot, SnapshotPlace {
    elapsed: f32, Float;
    delay_elapsed: f32, Float;
    state: u32, Whole;
    loop_count: u32, Whole;
    ping_pong_reverse: u32, Whole;
});

#[repr(C)]
#[derive(Clone, Copy, Default)]
pub struct UpdatedPlace {
    pub folds: u32,
    pub running: u32,
}

unsafe impl Words for UpdatedPlace {
    fn layout() -> Layout {
        named(&[("folds", Whole), ("running", Whole)])
    }
}

/// The answer of a call that changes a record: the number, words of its own, and the record afterwards.
macro_rules! changed {
    ($name:ident { $($word:ident,)* } $part:ident: $record:ty) => {
        #[repr(C)]
        #[derive(Clone, Copy, Default)]
        pub struct $name {
            pub number: u32,
            $(pub $word: u32,)*
            pub $part: $record,
        }

        unsafe impl Words for $name {
            fn layout() -> Layout {
                let words = named(&[("number", Whole), $((stringify!($word), Whole),)*]);
                [words, under(stringify!($part), <$record>::layout())].concat()
            }
        }
    };
}

changed!(LaxEasingAnswer {} easing: LaxEasing);
changed!(LaxChanged {} tween: LaxTween);
changed!(LaxUpdated { folds, running, } tween: LaxTween);
changed!(LaxTrackChanged {} track: LaxTrack);
changed!(LaxTrackUpdated { running, } track: LaxTrack);

#[repr(C)]
#[derive(Clone, Copy, Debug, Default)]
pub struct LaxEvent {
    pub kind: u32,
    pub step: f32,
}

unsafe impl Words for LaxEvent {
    fn layout() -> Layout {
        named(&[("kind", Whole), ("step", Float)])
    }
}

/// How far a call came: steps taken or values written, and how many of the values are not settled.
#[repr(C)]
#[derive(Clone, Copy)]
pub struct CountedPlace {
    pub count: u64,
    pub unsettled: u64,
}

/// How far a replay came, beside its tween.
#[repr(C)]
#[derive(Clone, Copy, PartialEq)]
pub struct ReplayPlace {
    pub missing: u64,
    pub folds: u64,
    pub last: u64,
    pub done: u64,
}

#[derive(Clone, Copy)]
pub struct LaxLogged {
    pub written: usize,
    pub number: u32,
}

#[derive(Clone, Copy)]
pub struct LaxReplay {
    pub missing: u64,
    pub folds: u64,
    pub last: u32,
    pub tween: LaxTween,
}

#[derive(Clone, Copy)]
pub struct LaxReplayed {
    pub done: usize,
    pub number: u32,
    pub reached: LaxReplay,
}

#[derive(Clone, Copy)]
pub struct LaxRun {
    pub done: usize,
    pub unsettled: usize,
    pub number: u32,
    pub tween: LaxTween,
}

#[derive(Clone, Copy)]
pub struct LaxFilled {
    pub filled: usize,
    pub unsettled: usize,
    pub number: u32,
}

const _: () = {
    assert!(size_of::<LaxEasing>() == 24);
    assert!(size_of::<LaxTween>() == 72);
    assert!(size_of::<LaxKeyframe>() == 32);
    assert!(size_of::<LaxTrack>() == 2072);
    assert!(size_of::<FoundPlace>() == 16);
    assert!(size_of::<SnapshotPlace>() == 20);
    assert!(size_of::<UpdatedPlace>() == 8);
    assert!(size_of::<CountedPlace>() == 16);
    assert!(size_of::<LaxEvent>() == 8);
    assert!(size_of::<ReplayPlace>() == 32);
};
