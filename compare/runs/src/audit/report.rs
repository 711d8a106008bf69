//! The report that the program has to print.
use super::decimal::shown;
use super::ramp::settings;
use super::survey::{Seen, Survey, survey};
use crate::log::HEAD;
use crate::meaning::{self, name};
use crate::refusals::explained;
use crate::rules;
use crate::subjects::TweenCall;
use crate::words::LaxTween;
use std::cmp::Reverse;

/// How many records of a kind are listed.
const LISTED: usize = 20;
const MOST: usize = 5;
const REPEAT: u16 = 65_535;

const BEHIND: &str = "answer behind a gap, a repeat or a lost beginning the tween and its folds are the \
    replay's: the pump's may differ";
const UNSEEN: &str = "answer the numbers can't show a loss of exactly 65536 records in one place, or of a \
    multiple of it, nor any behind the last record";

/// With the number of the refusal, 0 for none. Of a pipe the length is not known: a cut record is then
/// refused behind the others, and not before them.
pub fn report(t: &LaxTween, log: &[u8], piped: bool) -> (String, u32) {
    let ramp = settings(t, shown).map(|(name, value)| format!("ramp {name} {value}")).to_vec();
    let whole = if piped { &log[..log.len() - log.len().saturating_sub(HEAD) % 8] } else { log };
    let (lines, number) = match rules::replay_refused(t, whole, usize::MAX) {
        0 => {
            let found = survey(t, &log[HEAD..]);
            (found.lines(), found.refused)
        }
        number => (vec![format!("refused {}", explained(number)), format!("end refused {number}")], number),
    };
    ([ramp, lines].concat().iter().map(|line| format!("{line}\n")).collect(), number)
}

impl Survey {
    fn lines(&self) -> Vec<String> {
        let [gaps, repeats, many] = [
            self.of(|one| one.gap > 0 && one.gap != REPEAT),
            self.of(|one| one.gap == REPEAT),
            self.of(|one| one.folds > 1),
        ];
        [
            self.records(),
            listed(&gaps, gap_line, "gap and more such records"),
            vec![format!("gaps {}", gaps.len()), format!("missing {} by the numbers", self.reached.missing)],
            listed(&repeats, repeat_line, "repeat and more such records"),
            vec![format!("repeats {}", repeats.len()), format!("folds {}", self.reached.folds)],
            self.most(),
            self.stopped(),
            tween_lines(&self.reached.tween),
            self.answers(&many, &gaps, &repeats),
            vec![self.end(gaps.len(), repeats.len())],
        ]
        .concat()
    }

    fn of(&self, is: fn(&Seen) -> bool) -> Vec<&Seen> {
        self.seen.iter().filter(|one| is(one)).collect()
    }

    /// The number of the last record is 0 where none was read.
    fn records(&self) -> Vec<String> {
        let ends = self.first.zip(self.seen.last());
        let numbers = ends.map(|(first, last)| format!("numbers {first} to {}", last.number));
        [format!("records {}", self.seen.len())].into_iter().chain(numbers).collect()
    }

    /// Of equals the earlier comes first.
    fn most(&self) -> Vec<String> {
        let mut most = self.of(|one| one.folds > 0);
        most.sort_by_key(|one| Reverse(one.folds));
        let line =
            |one: &&Seen| format!("most folds {}, record {}, step {}", one.folds, one.place, shown(one.step));
        most.iter().take(MOST).map(line).collect()
    }

    fn stopped(&self) -> Vec<String> {
        let line = || format!("stopped at record {}: {}", self.seen.len(), explained(self.refused));
        if self.refused == 0 { Vec::new() } else { vec![line()] }
    }

    fn answers(&self, many: &[&Seen], gaps: &[&Seen], repeats: &[&Seen]) -> Vec<String> {
        if self.seen.is_empty() {
            return self.none(true, "no record was replayed");
        }
        let counted_on = gaps.is_empty() && repeats.is_empty();
        [
            self.none(many.is_empty(), "no update that was replayed made more than one pass"),
            self.passes(many, &[gaps, repeats].concat()),
            said_where(self.begins_late(), &format!("answer {}", self.before_first())),
            listed(gaps, missing_line, "answer and more such gaps, of which nothing can be known"),
            listed(repeats, twice_line, "answer and more such repeats, of which the numbers can't tell"),
            self.none(counted_on, "no gap in the numbers from the first record to the last"),
            said_where(!counted_on || self.begins_late(), BEHIND),
            vec![UNSEEN.into()],
        ]
        .concat()
    }

    /// Those before every loss that the numbers show or may hide are the pump's own.
    fn passes(&self, many: &[&Seen], losses: &[&Seen]) -> Vec<String> {
        let is_sure = |one: &Seen| !self.begins_late() && losses.iter().all(|loss| loss.place > one.place);
        let line = |one: &Seen| if is_sure(one) { made_line(one) } else { behind_line(one) };
        listed(many, line, "answer and more updates of more than one pass in the replay")
    }

    fn begins_late(&self) -> bool {
        self.first.is_some_and(|number| number != 0)
    }

    /// What was not found, and how far that holds.
    fn none(&self, holds: bool, what: &str) -> Vec<String> {
        let until = if self.refused == 0 { "" } else { ", up to where the replay stopped" };
        said_where(holds, &format!("answer {what}{until}"))
    }

    fn before_first(&self) -> String {
        let first = self.first.unwrap_or_default();
        format!("the first record has the number {first} and not 0: what came before it is not in this log")
    }

    fn end(&self, gaps: usize, repeats: usize) -> String {
        let first = self.first.unwrap_or_default();
        match (self.refused, gaps, repeats, first) {
            (0, 0, 0, 0) => "end ok".into(),
            (0, ..) => format!("end gaps {gaps} repeats {repeats} first {first}"),
            (number, ..) => format!("end refused {number}"),
        }
    }
}

fn said_where(holds: bool, line: &str) -> Vec<String> {
    if holds { vec![line.into()] } else { Vec::new() }
}

fn listed(all: &[&Seen], line: impl Fn(&Seen) -> String, more: &str) -> Vec<String> {
    let rest = all.len().saturating_sub(LISTED);
    let lines = all.iter().take(LISTED).map(|one| line(one));
    lines.chain(said_where(rest > 0, &format!("{more}: {rest}"))).collect()
}

fn gap_line(one: &Seen) -> String {
    let Seen { gap, place, number, last, .. } = one;
    format!("gap {gap} missing by the numbers before record {place}: number {number} follows {last}")
}

fn repeat_line(one: &Seen) -> String {
    format!("repeat record {}: again number {}", one.place, one.number)
}

fn made_line(one: &Seen) -> String {
    let Seen { folds, place, step, .. } = one;
    let made = format!("the {folds} passes of record {place} were made, by its step of {} s", shown(*step));
    format!("answer as far as the log shows, {made}: the numbers show no loss before it")
}

fn behind_line(one: &Seen) -> String {
    let Seen { folds, place, step, .. } = one;
    let makes =
        format!("the replay makes {folds} passes at record {place}, by its step of {} s", shown(*step));
    format!("answer {makes}: the pump's may differ, by what is missing before it or may be")
}

fn missing_line(one: &Seen) -> String {
    let records = if one.gap == 1 { "record is" } else { "records are" };
    let what = format!("by the numbers {} {records} missing before record {}", one.gap, one.place);
    format!("answer {what}, or 65536 more, and so on: what was done there can't be known")
}

fn twice_line(one: &Seen) -> String {
    let either =
        "by the numbers it was written twice, or 65535 records are missing, or 65536 more, and so on";
    let told = "they can't tell which, and it was not replayed";
    format!("answer record {} repeats the number before it: {either}: {told}", one.place)
}

/// A zero of either sign is 0.
fn tween_lines(t: &LaxTween) -> Vec<String> {
    let float = |x: f32| if x == 0.0 { "0".into() } else { shown(x) };
    let value = TweenCall::Value.read(t);
    let value = if value.number == 0 { float(value.value) } else { format!("refused {}", value.number) };
    vec![
        format!("tween state {}", name(meaning::tween(t).state())),
        format!("tween elapsed {}", float(t.elapsed)),
        format!("tween delay_elapsed {}", float(t.delay_elapsed)),
        format!("tween loop_count {}", t.loop_count),
        format!("tween reversed {}", if t.ping_pong_reverse == 0 { "no" } else { "yes" }),
        format!("tween value {value}"),
    ]
}
