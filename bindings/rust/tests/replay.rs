//! Event logs that the library reads back, beside a reader that shares nothing with it and the tween's own
//! calls.
mod log;

use laxombiit::event_log::{replay, replay_on, Event, Replay, Stopped};
use laxombiit::{Loop, Refusal, Tween};
use log::{record, written};

/// A log with these numbers, and with steps that the writer refuses too.
fn numbered(records: &[(u16, Event)]) -> Vec<u8> {
    let mut log = b"PEL\x01\0".to_vec();
    for &(number, event) in records {
        let (kind, step) = match event {
            Event::Step(step) => (1, step),
            Event::Pause => (2, 0.0),
            Event::Resume => (3, 0.0),
            Event::Reset => (4, 0.0),
        };
        log.extend(number.to_le_bytes());
        log.extend([kind, 0]);
        log.extend(step.to_le_bytes());
    }
    log
}

fn begun(tween: Tween) -> Replay {
    Replay { tween, last: None, missing: 0, folds: 0 }
}

/// The event, done by the tween's own call; its folds.
fn done(tween: &mut Tween, event: Event) -> Result<u32, Refusal> {
    match event {
        Event::Step(step) => tween.update(step).map(|update| update.folds),
        Event::Pause => tween.pause().map(|()| 0),
        Event::Resume => tween.resume().map(|()| 0),
        Event::Reset => tween.reset().map(|()| 0),
    }
}

/// One record by the rules: what is missing before it.
fn heard(reached: &mut Replay, bytes: &[u8]) -> Result<u16, Refusal> {
    let (number, event) = record(bytes).ok_or(Refusal::WrongRecord)?;
    let ahead = reached.last.map_or(1, |last| (65_536 + u32::from(number) - u32::from(last)) % 65_536);
    if ahead == 0 {
        return Ok(65_535);
    }
    let folds = done(&mut reached.tween, event)?;
    reached.last = Some(number);
    reached.missing = reached.missing.saturating_add(u64::from(ahead - 1));
    reached.folds = reached.folds.saturating_add(u64::from(folds));
    Ok((ahead - 1) as u16)
}

type Answer = (Result<Replay, Stopped>, Vec<u16>);

/// Whole records by the rules, and the lent list afterwards.
fn heard_on(mut reached: Replay, records: &[u8], mut gaps: Vec<u16>) -> Answer {
    for (place, bytes) in records.chunks(8).enumerate() {
        match heard(&mut reached, bytes) {
            Ok(gap) => gaps[place] = gap,
            Err(refusal) => return (Err(Stopped { place, refusal, reached }), gaps),
        }
    }
    (Ok(reached), gaps)
}

/// A log by the rules, and the lent list afterwards.
fn heard_log(tween: Tween, log: &[u8], gaps: Vec<u16>) -> Answer {
    let reached = begun(tween);
    let refusal = if !log.starts_with(b"PEL") {
        Refusal::WrongMark
    } else if !log[3..].starts_with(&[1, 0]) {
        Refusal::UnknownVersion
    } else if log.len() % 8 != 5 {
        Refusal::WrongLength
    } else {
        return heard_on(reached, &log[5..], gaps);
    };
    (Err(Stopped { place: 0, refusal, reached }), gaps)
}

fn replayed(tween: Tween, log: &[u8], mut gaps: Vec<u16>) -> Answer {
    (replay(tween, log, &mut gaps), gaps)
}

fn replayed_on(reached: Replay, records: &[u8], mut gaps: Vec<u16>) -> Answer {
    (replay_on(reached, records, &mut gaps), gaps)
}

/// One pass a second.
fn pump() -> Tween {
    Tween { looping: Loop::Times(60_000), ..Tween::new(0.0, 8.0) }
}

const STEP: Event = Event::Step(1.0);

/// Gaps, repeats and a wrap, and each kind of event.
fn spotted_log() -> Vec<u8> {
    let records = [
        (700, STEP),
        (701, Event::Pause),
        (701, STEP),
        (701, Event::Resume),
        (703, Event::Resume),
        (65_535, Event::Step(512.0)),
        (0, Event::Step(0.02)),
        (0, Event::Reset),
        (513, Event::Step(0.25)),
        (514, Event::Reset),
        (515, STEP),
    ];
    numbered(&records)
}

#[test]
fn gaps_and_repeats() {
    let (reached, gaps) = replayed(pump(), &spotted_log(), vec![7; 13]);
    assert_eq!(gaps, [0, 0, 65_535, 65_535, 1, 64_831, 0, 65_535, 512, 0, 0, 7, 7]);
    let reached = reached.unwrap();
    assert_eq!((reached.missing, reached.folds, reached.last), (65_344, 514, Some(515)));
    assert_eq!((reached.tween.loop_count, reached.tween.elapsed), (1, 0.0));
}

#[test]
fn a_log_is_replayed() {
    let events = [Event::Step(0.02), Event::Pause, Event::Resume, Event::Step(-0.0), Event::Step(2.5)];
    let (reached, gaps) = replayed(pump(), &written(&events), vec![7; 5]);
    let mut tween = pump();
    let folds: u32 = events.iter().map(|&event| done(&mut tween, event).unwrap()).sum();
    assert_eq!((reached, gaps), (Ok(Replay { tween, last: Some(4), missing: 0, folds: 2 }), vec![0; 5]));
    assert_eq!(folds, 2);
    assert_eq!(replayed(pump(), b"PEL\x01\0", vec![7]), (Ok(begun(pump())), vec![7]));
}

/// A loss of 65,535 looks like a repeat, and a longer one like a shorter one.
#[test]
fn losses() {
    let all = written(&[STEP; 66_100]);
    for (lost, gap) in [(0, 0), (1, 1), (512, 512), (65_534, 65_534), (65_536, 0), (66_048, 512)] {
        let log = [&all[..21], &all[21 + 8 * lost..][..16]].concat();
        let (reached, gaps) = replayed(pump(), &log, vec![7; 4]);
        assert_eq!(gaps, [0, 0, gap, 0]);
        let reached = reached.unwrap();
        assert_eq!((reached.missing, reached.folds), (u64::from(gap), 4));
    }
    let log = [&all[..21], &all[21 + 8 * 65_535..][..16]].concat();
    let (reached, gaps) = replayed(pump(), &log, vec![7; 4]);
    assert_eq!(gaps, [0, 0, 65_535, 0]);
    assert_eq!((reached.unwrap().missing, reached.unwrap().folds), (0, 3));
}

/// A number below n, by turns.
fn turn(seed: &mut u32, n: usize) -> usize {
    *seed = seed.wrapping_mul(1_664_525).wrapping_add(1_013_904_223);
    (*seed >> 16) as usize % n
}

/// A history of calls: what was accepted, and the tween and the folds that it left.
fn history(mut tween: Tween, seed: &mut u32) -> (Vec<Event>, Tween, u64) {
    let steps = [0.0, 0.02, 0.25, 1.0, 3.7, 600.0, 4097.0, 1e-30, 1e9];
    let (mut accepted, mut folds) = (Vec::new(), 0);
    for _ in 0..turn(seed, 60) {
        let event = match turn(seed, 12) {
            0 => Event::Pause,
            1 | 2 => Event::Resume,
            3 => Event::Reset,
            _ => Event::Step(steps[turn(seed, steps.len())]),
        };
        if let Ok(more) = done(&mut tween, event) {
            accepted.push(event);
            folds += u64::from(more);
        }
    }
    (accepted, tween, folds)
}

#[test]
fn a_run_is_replayed() {
    let mut seed = 3;
    let modes = [Loop::Once, Loop::Times(700), Loop::Forever, Loop::PingPong, Loop::PingPongTimes(40)];
    for round in 0..2000 {
        let looping = modes[round % modes.len()];
        let (delay, time_scale) = ([0.0, 0.5, 2.0][turn(&mut seed, 3)], [1.0, 0.3, 4.0][turn(&mut seed, 3)]);
        let first = Tween { duration: 1.5, delay, time_scale, looping, ..Tween::new(3.0, 8.0) };
        let (events, tween, folds) = history(first, &mut seed);
        let last = events.len().checked_sub(1).map(|last| last as u16);
        let answer = replayed(first, &written(&events), vec![7; events.len()]);
        let expected = Replay { tween, last, missing: 0, folds };
        assert_eq!(answer, (Ok(expected), vec![0; events.len()]), "{first:?} {events:?}");
    }
}

#[test]
fn the_first_refusal_of_a_log_counts() {
    let log = written(&[Event::Pause]);
    let broken = Tween { elapsed: 2.0, ..pump() };
    let no_version = [b"PEL\x02\0".as_slice(), &[0; 3]].concat();
    let cases = [
        (broken, b"PE".as_slice(), Refusal::RecordBreaksLimit),
        (pump(), b"", Refusal::WrongMark),
        (pump(), b"PE", Refusal::WrongMark),
        (pump(), b"PeL\x02\0", Refusal::WrongMark),
        (pump(), b"PEL", Refusal::UnknownVersion),
        (pump(), b"PEL\x01", Refusal::UnknownVersion),
        (pump(), &no_version, Refusal::UnknownVersion),
        (pump(), &log[..6], Refusal::WrongLength),
        (pump(), &log[..12], Refusal::WrongLength),
        (pump(), &log, Refusal::OutputTooShort),
    ];
    for (tween, log, refusal) in cases {
        let stopped = Stopped { place: 0, refusal, reached: begun(tween) };
        assert_eq!(replayed(tween, log, vec![]), (Err(stopped), vec![]), "{log:?}");
    }
    let many = [log.as_slice(), &log[5..], &log[5..]].concat();
    let stopped = Stopped { place: 0, refusal: Refusal::OutputTooShort, reached: begun(pump()) };
    assert_eq!(replayed(pump(), &many, vec![7; 2]), (Err(stopped), vec![7; 2]));
}

#[test]
fn a_part_is_refused() {
    let log = written(&[Event::Pause; 2]);
    let far = Replay { tween: Tween { elapsed: 2.0, ..pump() }, last: Some(0), missing: 3, folds: 4 };
    let cases = [
        (&log[5..20], 9, Refusal::WrongLength),
        (&log[5..6], 0, Refusal::WrongLength),
        (&log[5..21], 1, Refusal::OutputTooShort),
    ];
    for (records, room, refusal) in cases {
        let stopped = Stopped { place: 0, refusal, reached: far };
        assert_eq!(replayed_on(far, records, vec![7; room]), (Err(stopped), vec![7; room]));
    }
    // the repeat passes, and the call that follows looks at the tween
    let stopped = Stopped { place: 1, refusal: Refusal::RecordBreaksLimit, reached: far };
    assert_eq!(replayed_on(far, &log[5..], vec![7; 2]), (Err(stopped), vec![65_535, 7]));
    assert_eq!(replayed_on(far, &[], vec![]), (Ok(far), vec![]));
}

/// In each of the ways that a record can be wrong: as a repeat, as the next one, and behind a gap.
#[test]
fn a_wrong_record_stops() {
    let step = |bits: u32| [[1, 0, 1, 0], bits.to_le_bytes()].concat();
    let floats =
        [f32::NAN, -f32::NAN, f32::INFINITY, f32::NEG_INFINITY, -1.0, -0.0, -1e-45].map(f32::to_bits);
    let mut wrong: Vec<Vec<u8>> = floats.map(step).to_vec();
    for (kind, zero, bits) in
        [(0, 0, 0), (5, 0, 0), (255, 0, 0), (1, 1, 0), (2, 128, 0), (2, 0, 1), (3, 0, 1), (4, 0, 1 << 31)]
    {
        wrong.push([[1, 0, kind, zero], u32::to_le_bytes(bits)].concat());
    }
    for mut bytes in wrong {
        for number in [0, 1, 9] {
            bytes[0] = number;
            let log = [written(&[STEP]).as_slice(), &bytes, &bytes].concat();
            let (answer, gaps) = replayed(pump(), &log, vec![7; 4]);
            let stopped = answer.unwrap_err();
            assert_eq!((stopped.place, stopped.refusal), (1, Refusal::WrongRecord), "{bytes:?}");
            assert_eq!((stopped.reached.folds, stopped.reached.missing), (1, 0));
            assert_eq!((stopped.reached.last, stopped.reached.tween.loop_count), (Some(0), 1));
            assert_eq!(gaps, [0, 7, 7, 7]);
        }
    }
}

/// Behind a gap, which does not count then.
#[test]
fn the_tween_stops_a_replay() {
    let slow = Tween { duration: 16_777_216.0, ..pump() };
    let counted = Tween { looping: Loop::Times(4), loop_count: 16_777_216, ..pump() };
    let cases = [
        (pump(), STEP, Event::Step(16_777_218.0), Refusal::StepTooLong),
        (slow, Event::Step(8_388_608.0), Event::Step(0.25), Refusal::StepLost),
        (pump(), STEP, Event::Step(4097.0), Refusal::TooManyFolds),
        (counted, STEP, Event::Pause, Refusal::RecordBreaksLimit),
    ];
    for (first, event, refused, refusal) in cases {
        let log = numbered(&[(9, event), (522, refused), (523, STEP)]);
        let mut tween = first;
        let folds = u64::from(done(&mut tween, event).unwrap());
        let reached = Replay { tween, last: Some(9), missing: 0, folds };
        let stopped = Stopped { place: 1, refusal, reached };
        assert_eq!(replayed(first, &log, vec![7; 4]), (Err(stopped), vec![0, 7, 7, 7]));
        assert_eq!(done(&mut tween, refused), Err(refusal));
    }
}

#[test]
fn sums_stay_at_the_most() {
    let log = numbered(&[(513, Event::Step(512.0)), (1026, Event::Step(512.0))]);
    for below in [1023, 1024, 1025] {
        let most = u64::MAX - below;
        let reached = Replay { tween: pump(), last: Some(0), missing: most, folds: most };
        let (answer, gaps) = replayed_on(reached, &log[5..], vec![7; 2]);
        let sum = most.saturating_add(1024);
        assert_eq!((answer.unwrap().missing, answer.unwrap().folds), (sum, sum));
        assert_eq!(gaps, [512, 512]);
    }
}

/// At each cut, and record by record.
#[test]
fn parts_come_to_the_whole() {
    let mut wrong = spotted_log();
    wrong[5 + 8 * 6 + 3] = 1;
    for log in [spotted_log(), wrong] {
        let count = (log.len() - 5) / 8;
        let whole = replayed(pump(), &log, vec![7; count]);
        for cut in 0..=count {
            let mut gaps = vec![7; count];
            let begun = replay(pump(), &log[..5 + 8 * cut], &mut gaps);
            let answer = begun.and_then(|begun| {
                let on = replay_on(begun, &log[5 + 8 * cut..], &mut gaps[cut..]);
                on.map_err(|stopped| Stopped { place: cut + stopped.place, ..stopped })
            });
            assert_eq!((answer, gaps), whole, "cut at {cut}");
        }
        let mut answer = Ok(begun(pump()));
        let mut gaps = vec![7; count];
        for (place, bytes) in log[5..].chunks(8).enumerate() {
            let Ok(reached) = answer else { break };
            let on = replay_on(reached, bytes, &mut gaps[place..]);
            answer = on.map_err(|stopped| Stopped { place, ..stopped });
        }
        assert_eq!((answer, gaps), whole);
    }
}

/// Each bit turned round, and each length.
#[test]
fn damaged_logs() {
    let whole = spotted_log();
    for bit in 0..8 * whole.len() {
        let mut log = whole.clone();
        log[bit / 8] ^= 1 << (bit % 8);
        assert_eq!(replayed(pump(), &log, vec![7; 12]), heard_log(pump(), &log, vec![7; 12]), "bit {bit}");
    }
    for length in 0..whole.len() {
        let log = &whole[..length];
        assert_eq!(replayed(pump(), log, vec![7; 12]), heard_log(pump(), log, vec![7; 12]), "{length} bytes");
    }
}

#[test]
fn what_stopped_is_said() {
    let stopped = replay(pump(), &written(&[Event::Pause]), &mut []).unwrap_err();
    assert_eq!(stopped.to_string(), "after 0 records: refused 12: a lent output is shorter than what is to fill it");
}
