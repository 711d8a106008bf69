use super::{Maker, WRITTEN, written};
use crate::audit::settings;
use crate::log::{HEAD, RECORD};
use crate::rules::*;
use crate::words::{LaxEasing, LaxEvent, LaxLoop, LaxTween};

/// A ramp, its text, and a log as words; the log comes as a file or through a pipe.
pub struct RampLog {
    pub made: &'static str,
    pub ramp: LaxTween,
    pub text: String,
    pub log: Vec<u32>,
    pub piped: bool,
}

/// What a text need not say.
const USUAL: [(&str, &str); 4] = [("delay", "0"), ("scale", "1"), ("mode", "Once"), ("easing", "Linear")];

/// Numbers of records at which a part of the log ends, or the numbers begin again.
const LENGTHS: [u32; 6] = [8_191, 8_192, 8_193, 16_384, 65_537, 70_000];

const WORDS: &str = "start end duration delay scale mode easing Once Times PingPongTimes Linear CubicBezier \
    Steps EaseInSine RoughEase Start #  . - -1 1e5 nan 4294967296 340282366920938463463374607431768211456 \
    00000000000000000000000000000000000000000000000000000000000000001";

impl Maker {
    /// Just reset. One in 12 has settings that may be beyond their limits.
    fn ramp(&mut self) -> LaxTween {
        let t = if self.once_in(2) { self.whole_tween() } else { self.tween() };
        just_reset(if self.once_in(12) { self.odd_settings(t) } else { t })
    }

    /// One or two, but none that has no text.
    fn odd_settings(&mut self, t: LaxTween) -> LaxTween {
        let mut t = t;
        for _ in 0..1 + self.below(2) {
            match self.below(8) {
                0 => t.start = self.odd_number(),
                1 => t.end = self.odd_number(),
                2 => t.duration = self.odd_number(),
                3 => t.delay = self.odd_number(),
                4 => t.time_scale = self.odd_number(),
                5 => t.looping = LaxLoop { mode: self.below(5), ..self.odd_looping() },
                6 => t.easing.kind = self.below(KINDS),
                _ => t.easing.count = self.odd_count(),
            }
        }
        let [a, b, c, d] = t.easing.floats().map(finite);
        LaxTween { easing: LaxEasing { a, b, c, d, ..t.easing }, ..t }
    }

    fn odd_number(&mut self) -> f32 {
        finite(self.odd())
    }

    /// As it was written, with lists that overflow, of more than one part, or damaged otherwise.
    pub fn ramp_log(&mut self) -> RampLog {
        let ramp = self.ramp();
        let logged = if tween_refused(&ramp) == 0 { ramp } else { just_reset(self.whole_tween()) };
        let calls = self.calls(&logged);
        let (made, log) = match self.below(200) {
            0 => ("audit, a long log", self.long_log()),
            1..12 => (WRITTEN, written(&calls)),
            12..16 => ("audit, any bytes", self.any_bytes()),
            16..36 => ("audit, much lost and repeated", self.thinned(&logged)),
            _ => self.damaged(&written(&calls), 0),
        };
        RampLog { made, ramp, text: self.ramp_text(&ramp), log, piped: self.once_in(8) }
    }

    /// Behind a good head, as a rule.
    fn any_bytes(&mut self) -> Vec<u32> {
        let head = if self.once_in(4) { Vec::new() } else { written(&[]) };
        [head, self.some_bytes(60)].concat()
    }

    /// Each record is lost or repeated one time in four.
    fn thinned(&mut self, t: &LaxTween) -> Vec<u32> {
        let count = 60 + self.below(200);
        let log = written(&self.calls_of(t, count));
        self.thin(&log)
    }

    fn thin(&mut self, log: &[u32]) -> Vec<u32> {
        let records =
            log[HEAD..].chunks(RECORD).flat_map(|record| record.repeat(self.pick(&[0, 1, 1, 1, 1, 1, 2, 3])));
        let records: Vec<u32> = records.collect();
        [&log[..HEAD], &records].concat()
    }

    /// Whole steps, few of which any ramp refuses.
    fn long_log(&mut self) -> Vec<u32> {
        let count = self.pick(&LENGTHS) + self.below(2);
        let event = |maker: &mut Self| match maker.below(1_000) {
            0 => LaxEvent { kind: RESET, step: 0.0 },
            1..4 => LaxEvent { kind: PAUSE, step: 0.0 },
            4..30 => LaxEvent { kind: RESUME, step: 0.0 },
            _ => LaxEvent { kind: STEP, step: maker.below(5) as f32 },
        };
        let events: Vec<LaxEvent> = (0..count).map(|_| event(self)).collect();
        let log = written(&events);
        match self.below(4) {
            0 => log,
            1 => self.thin(&log),
            _ => self.damaged(&log, 0).1,
        }
    }

    /// A setting to a line, in any order, among blanks and comments.
    fn ramp_text(&mut self, t: &LaxTween) -> String {
        let mut settings = settings(t, |x| x.to_string()).to_vec();
        settings.retain(|(name, value)| !USUAL.contains(&(name, value)) || self.once_in(2));
        for place in (1..settings.len()).rev() {
            settings.swap(place, self.place(place + 1));
        }
        let line = |(name, value): (&str, String)| {
            let above = self.pick(&["", "", "", "\n", "# a ramp\n", " \t\r\n"]);
            let before = self.pick(&["", "", "", " ", "\t"]);
            let between = self.pick(&[" ", " ", "  ", "\t"]);
            let behind = self.pick(&["", "", "", " ", "\r", "# so", " # end 3"]);
            format!("{above}{before}{name}{between}{}{behind}\n", value.replace(' ', between))
        };
        let text: String = settings.into_iter().map(line).collect();
        if self.once_in(4) { text.trim_end().into() } else { text }
    }

    /// Once or twice.
    pub fn damaged_text(&mut self, text: &[u8]) -> Vec<u8> {
        let mut text = text.to_vec();
        for _ in 0..1 + self.below(2) {
            match self.below(8) {
                0..3 => self.change_text(&mut text),
                3..5 => text = self.parted(&text, |byte| *byte == b'\n'),
                5..7 => text = self.parted(&text, u8::is_ascii_whitespace),
                _ => text.truncate(self.place(text.len() + 1)),
            }
        }
        text
    }

    /// A byte is changed, new or gone.
    fn change_text(&mut self, text: &mut Vec<u8>) {
        let byte = if self.once_in(2) { self.byte() as u8 } else { self.pick(b"0123456789.-+# \t\r\nOTabn") };
        let place = self.place(text.len() + 1);
        match (text.get_mut(place), self.below(3)) {
            (Some(here), 0) => *here = byte,
            (Some(_), 1) => drop(text.remove(place)),
            _ => text.insert(place, byte),
        }
    }

    /// One of the lines or of the words is doubled, swapped, gone, cut or another.
    fn parted(&mut self, text: &[u8], ends: impl Fn(&u8) -> bool) -> Vec<u8> {
        let mut parts: Vec<Vec<u8>> = text.split_inclusive(ends).map(<[u8]>::to_vec).collect();
        if parts.is_empty() {
            return Vec::new();
        }
        let [one, other] = [(); 2].map(|_| self.place(parts.len()));
        match self.below(5) {
            0 => parts.insert(other, parts[one].clone()),
            1 => parts.swap(one, other),
            2 => drop(parts.remove(one)),
            3 => {
                let end = self.place(parts[one].len() + 1);
                parts[one].truncate(end);
            }
            _ => {
                let words: Vec<&str> = WORDS.split(' ').collect();
                parts[one] = format!("{}{}", self.pick(&words), self.pick(&[" ", "\n"])).into_bytes();
            }
        }
        parts.concat()
    }
}

/// 0 where a text has no word for it.
fn finite(x: f32) -> f32 {
    if x.is_finite() { x } else { 0.0 }
}

fn just_reset(t: LaxTween) -> LaxTween {
    let state = if t.delay > 0.0 { IDLE } else { RUNNING };
    LaxTween { elapsed: 0.0, delay_elapsed: 0.0, state, loop_count: 0, ping_pong_reverse: 0, ..t }
}
