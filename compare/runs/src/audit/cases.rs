//! What the program is run on, and what it has to do there.
use super::program::{Ended, Folder, run};
use super::report::report;
use super::{Files, Wrong};
use crate::make::{Maker, RampLog};
use crate::rules;
use crate::subjects::bytes;
use crate::tally::{Section, Tally};
use std::fs;

/// The column of the ramps that are unreadable.
const UNREADABLE: u32 = 100;
const UNREADABLE_OUTPUT: &str = "end unreadable\n";

/// Lines whose zeros may have either sign.
const ZEROS: [&str; 3] = ["tween elapsed -0", "tween delay_elapsed -0", "tween value -0"];

/// A log, damaged as a rule: every line has to be the expected one.
pub fn log(seed: u64, place: u64, folder: &Folder, tally: &mut Tally) -> Result<(), Wrong> {
    let RampLog { made, ramp, text, log, piped } = Maker::new(seed, place).ramp_log();
    let files = Files { ramp: text.into_bytes(), log: bytes(&log) };
    let (ended, log_name) = folder.audit(place, &files, piped)?;
    let (output, number) = report(&ramp, &files.log, piped);
    tally.count(&[(Section::Made, made)], number);
    let is_empty = log.is_empty() && rules::tween_refused(&ramp) == 0;
    let errors = if is_empty { format!("{log_name}: the log is empty\n") } else { String::new() };
    let expected = Ended { output, errors, normally: true };
    let ours = Ended { output: with_plain_zeros(&ended.output), ..ended };
    if ours == expected { Ok(()) } else { Err(files.wrong(made, &ours, &expected)) }
}

fn with_plain_zeros(output: &str) -> String {
    let plain = |line: &str| if ZEROS.contains(&line) { line.replace("-0", "0") } else { line.into() };
    output.split('\n').map(plain).collect::<Vec<String>>().join("\n")
}

/// A damaged ramp: the program ends as it should, and what it understood is again a ramp, the same one.
pub fn ramp(seed: u64, place: u64, folder: &Folder, tally: &mut Tally) -> Result<(), Wrong> {
    let mut maker = Maker::new(seed, place);
    let RampLog { text, log, .. } = maker.ramp_log();
    let files = Files { ramp: maker.damaged_text(text.as_bytes()), log: bytes(&log) };
    let (ended, _) = folder.audit(place, &files, false)?;
    let Some(number) = end_number(&ended) else {
        return Err(files.wrong("ramp, damaged text", &ended, &unreadable()));
    };
    tally.count(&[(Section::Made, "ramp, damaged text")], number);
    if number == UNREADABLE {
        return Ok(());
    }
    let understood = Files { ramp: ramp_in(&ended.output).into_bytes(), log: files.log.clone() };
    let (again, _) = folder.audit(place, &understood, false)?;
    if again == ended { Ok(()) } else { Err(files.wrong("ramp, as it was understood", &ended, &again)) }
}

/// 0, the refusal's number, or the one of the unreadable; nothing where the program did not end as it should.
fn end_number(ended: &Ended) -> Option<u32> {
    if is_unreadable(ended) {
        return Some(UNREADABLE);
    }
    let is_number = |word: &str| word.parse::<u64>().is_ok();
    let last = ended.output.lines().last().filter(|_| ended.normally)?;
    match last.split(' ').collect::<Vec<_>>()[..] {
        ["end", "ok"] => Some(0),
        ["end", "gaps", gaps, "repeats", repeats, "first", first] => {
            [gaps, repeats, first].into_iter().all(is_number).then_some(0)
        }
        ["end", "refused", number] => number.parse().ok(),
        _ => None,
    }
}

/// With one line on standard error, in which nothing of a file can reach a terminal as an order.
fn is_unreadable(ended: &Ended) -> bool {
    let line = ended.errors.strip_suffix('\n');
    let is_plain = line.is_some_and(|line| line.bytes().all(|byte| (0x20..0x7f).contains(&byte)));
    ended.normally && ended.output == UNREADABLE_OUTPUT && is_plain
}

fn unreadable() -> Ended {
    Ended { output: UNREADABLE_OUTPUT.into(), errors: "any one line".into(), normally: true }
}

fn ramp_in(output: &str) -> String {
    let settings = output.lines().filter_map(|line| line.strip_prefix("ramp "));
    settings.map(|line| format!("{line}\n")).collect()
}

/// Files that are not there, that are none, that are empty or too long; and too few or too many arguments.
pub fn odd_arguments(folder: &Folder) -> Result<(), Wrong> {
    let [good, empty, long, none, here] = ["good", "empty", "long", "none", ""].map(|name| folder.path(name));
    let ramp = "start 0\nend 8\nduration 1\n";
    fs::write(&good, ramp)?;
    fs::write(&empty, "")?;
    fs::write(&long, format!("{ramp}{}", "#".repeat(65_536 - ramp.len())))?;
    let calls = [
        vec![],
        vec![&good],
        vec![&good, &good, &good],
        vec![&none, &good],
        vec![&good, &none],
        vec![&here, &good],
        vec![&empty, &good],
        vec![&long, &good],
    ];
    for arguments in calls {
        let ended = run(&arguments, &[])?;
        if !is_unreadable(&ended) {
            return Err(Files::default().wrong(&format!("{arguments:?}"), &ended, &unreadable()));
        }
    }
    Ok(())
}
