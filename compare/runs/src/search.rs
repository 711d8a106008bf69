//! How the search of a Bezier curve goes: the rule book's sentence written again, apart from the library,
//! with counters, since the Rust does not tell. Only for words that the rules accept.
use crate::meaning;
use crate::rules::{BEZIER, frames};
use crate::words::{LaxEasing, LaxTrack, LaxTween};

/// Whether the last x evaluated met the tolerance, and how many x and derivatives were evaluated.
pub struct Search {
    pub settled: bool,
    pub xs: u32,
    pub derivatives: u32,
}

const NONE: Search = Search { settled: true, xs: 0, derivatives: 0 };
const TOLERANCE: f32 = 1e-6;

/// Of an easing at t. No other kind searches, nor does a Bezier at 0 and at 1.
pub fn of_easing(e: &LaxEasing, t: f32) -> Search {
    place(e, t).map_or(NONE, |(_, search)| search)
}

/// Of a tween's value and of its eased progress. At duration 0 the progress is 1, where nothing is searched.
pub fn of_tween(t: &LaxTween) -> Search {
    of_easing(&t.easing, meaning::tween(t).progress())
}

/// Of a track's sample. Before the first frame and from the last on there is no interval.
pub fn of_track(t: &LaxTrack, secs: f32) -> Search {
    let interval = frames(t).windows(2).find(|pair| pair[0].time <= secs && secs < pair[1].time);
    let Some([frame, next]) = interval else { return NONE };
    let span = (next.time - frame.time).max(f32::EPSILON);
    of_easing(&frame.easing, (secs - frame.time) / span)
}

/// The value at the place that was found, where there was a search. It has to be the Rust's, or the counts
/// would be those of another search.
pub fn value(e: &LaxEasing, t: f32) -> Option<f32> {
    place(e, t).map(|(u, _)| cubic(e.b, e.d, u))
}

fn place(e: &LaxEasing, t: f32) -> Option<(f32, Search)> {
    let t = t.clamp(0.0, 1.0);
    if e.kind != BEZIER || t == 0.0 || t == 1.0 {
        return None;
    }
    let [x1, x2] = [e.a, e.c].map(|x| x.clamp(0.0, 1.0));
    let mut curve = Counted { x1, x2, xs: 0, derivatives: 0 };
    let (u, settled) = curve.newton(t).map_or_else(|| curve.bisection(t), |u| (u, true));
    Some((u, Search { settled, xs: curve.xs, derivatives: curve.derivatives }))
}

/// The curve's x, each evaluation counted.
struct Counted {
    x1: f32,
    x2: f32,
    xs: u32,
    derivatives: u32,
}

impl Counted {
    fn x(&mut self, u: f32) -> f32 {
        self.xs += 1;
        cubic(self.x1, self.x2, u)
    }

    fn derivative(&mut self, u: f32) -> f32 {
        self.derivatives += 1;
        let [a, b, c] = coefficients(self.x1, self.x2);
        (3.0 * a * u + 2.0 * b) * u + c
    }

    /// "up to 6 Newton steps from u = t, left on a derivative below 1e-6 in size"
    fn newton(&mut self, t: f32) -> Option<f32> {
        let mut u = t;
        for _ in 0..6 {
            let miss = self.x(u) - t;
            if miss.abs() < TOLERANCE {
                return Some(u);
            }
            let derivative = self.derivative(u);
            if derivative.abs() < TOLERANCE {
                return None;
            }
            u = (u - miss / derivative).clamp(0.0, 1.0);
        }
        None
    }

    /// "then up to 10 bisections, again from u = t"; at the last u no x is evaluated.
    fn bisection(&mut self, t: f32) -> (f32, bool) {
        let (mut low, mut high, mut u) = (0.0, 1.0, t);
        for _ in 0..10 {
            let x = self.x(u);
            if (x - t).abs() < TOLERANCE {
                return (u, true);
            }
            (low, high) = if x < t { (u, high) } else { (low, u) };
            u = (low + high) * 0.5;
        }
        (u, false)
    }
}

fn coefficients(p1: f32, p2: f32) -> [f32; 3] {
    let c = 3.0 * p1;
    let b = 3.0 * (p2 - p1) - c;
    [1.0 - c - b, b, c]
}

fn cubic(p1: f32, p2: f32, u: f32) -> f32 {
    let [a, b, c] = coefficients(p1, p2);
    ((a * u + b) * u + c) * u
}
