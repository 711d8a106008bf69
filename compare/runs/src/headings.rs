//! Under which headings of the tally an input is counted.
use crate::input::Input;
use crate::log::RECORD;
use crate::rules::STEP;
use crate::subjects::{EasingCall, LogCall, ReplayCall, TrackCall, TweenCall, records_in};
use crate::tally::{Heading, Section};

pub fn headings(made: &'static str, input: &Input) -> Vec<Heading> {
    let mut all = vec![(Section::Call, input.name()), (Section::Made, made)];
    if let Input::Track(t, _) = input {
        all.push((Section::Frames, frame_count(t.count)));
    }
    all.extend(argument(input).map(|x| (Section::Argument, class(x))));
    match (input, &input.lengths()[..]) {
        (Input::Log(LogCall::Record { buffer, written, .. }), _) => {
            all.push((Section::Written, written_length(*written, buffer.len())));
        }
        (Input::Replay(ReplayCall::Log { log, gaps, .. }), _) => {
            all.push((Section::List, output(records_in(log.len()), *gaps, *gaps)));
        }
        (Input::Replay(ReplayCall::On { records, gaps, .. }), _) => {
            all.push((Section::List, output(records.len() / RECORD, *gaps, *gaps)));
        }
        (Input::Tween(..) | Input::Track(..), [(_, given), rest @ ..]) => {
            let least = rest.iter().map(|(_, length)| *length).min().unwrap_or(0);
            let most = rest.iter().map(|(_, length)| *length).max().unwrap_or(0);
            all.push((Section::List, output(*given, least, most)));
        }
        _ => {}
    }
    all
}

fn frame_count(count: u32) -> &'static str {
    match count {
        0 => "0",
        1 => "1",
        2 => "2",
        3..63 => "3 to 62",
        63 => "63",
        64 => "64",
        _ => "count above 64",
    }
}

fn argument(input: &Input) -> Option<f32> {
    match input {
        Input::Easing(EasingCall::Apply(_, x))
        | Input::Tween(_, TweenCall::Seek(x) | TweenCall::Update(x))
        | Input::Track(_, TrackCall::Push(x, _) | TrackCall::PushEased(x, _, _))
        | Input::Track(_, TrackCall::ValueAt(x) | TrackCall::Update(x) | TrackCall::SeekTo(x)) => Some(*x),
        Input::Log(LogCall::Record { event, .. }) if event.kind == STEP => Some(event.step),
        _ => None,
    }
}

fn class(x: f32) -> &'static str {
    match x {
        _ if x.is_nan() => "NaN",
        _ if x.is_infinite() => "infinite",
        _ if x == 0.0 && x.is_sign_negative() => "-0",
        _ if x == 0.0 => "+0",
        _ if x.is_subnormal() => "subnormal",
        _ if x < 0.0 => "negative",
        _ if x <= 1.0 => "above 0, to 1",
        _ if x <= 16_777_216.0 => "above 1, to 16,777,216",
        _ => "above 16,777,216",
    }
}

fn output(given: usize, least: usize, most: usize) -> &'static str {
    match () {
        _ if given == 0 => "empty list",
        _ if least < given => "output too short",
        _ if most > given => "output longer than the list",
        _ => "output as long as the list",
    }
}

fn written_length(written: usize, buffer: usize) -> &'static str {
    match written {
        _ if written > buffer => "beyond the buffer",
        0..3 => "0 to 2",
        3..5 => "3 or 4",
        5 => "5",
        _ if written % 8 != 5 => "records not whole",
        _ if written == buffer => "records to the buffer's end",
        _ => "records, and bytes behind them",
    }
}
