//! How many inputs of each kind were tried, accepted, and refused by each number.
use crate::refusals::REFUSALS;
use std::collections::BTreeMap;
use std::fmt;

#[derive(Clone, Copy, PartialEq, Eq, PartialOrd, Ord)]
pub enum Section {
    Call,
    Made,
    Frames,
    Argument,
    List,
    Written,
}

pub type Heading = (Section, &'static str);

/// 0 for an accepted call, and the number of each refusal.
fn numbers() -> impl Iterator<Item = u32> {
    [0].into_iter().chain(REFUSALS.iter().map(|refusal| refusal.number))
}

#[derive(Default)]
pub struct Tally {
    rows: BTreeMap<Heading, BTreeMap<u32, u64>>,
    pub inputs: u64,
}

impl Tally {
    pub fn count(&mut self, headings: &[Heading], number: u32) {
        assert!(numbers().any(|own| own == number), "{number} is no refusal's number");
        for heading in headings {
            *self.rows.entry(*heading).or_default().entry(number).or_default() += 1;
        }
        self.inputs += 1;
    }

    pub fn counted(&self, heading: Heading, number: u32) -> u64 {
        self.rows.get(&heading).and_then(|row| row.get(&number)).copied().unwrap_or(0)
    }

    pub fn add(&mut self, other: Tally) {
        for (heading, counts) in other.rows {
            let row = self.rows.entry(heading).or_default();
            counts.into_iter().for_each(|(number, count)| *row.entry(number).or_default() += count);
        }
        self.inputs += other.inputs;
    }
}

impl fmt::Display for Tally {
    fn fmt(&self, f: &mut fmt::Formatter) -> fmt::Result {
        let mut above = None;
        for ((section, name), counts) in &self.rows {
            if above != Some(*section) {
                head(f, *section)?;
                above = Some(*section);
            }
            write!(f, "{name:<34}{:>11}", counts.values().sum::<u64>())?;
            for number in numbers() {
                let width = if number == 0 { 11 } else { 9 };
                let count = counts.get(&number).map_or("-".into(), u64::to_string);
                write!(f, "{count:>width$}")?;
            }
            writeln!(f)?;
        }
        Ok(())
    }
}

fn head(f: &mut fmt::Formatter, section: Section) -> fmt::Result {
    let title = match section {
        Section::Call => "call",
        Section::Made => "how the record was made",
        Section::Frames => "frames of the track",
        Section::Argument => "float argument",
        Section::List => "lent list",
        Section::Written => "written length of the log",
    };
    write!(f, "\n{title:<34}{:>11}{:>11}", "tried", "accepted")?;
    for number in numbers().skip(1) {
        write!(f, "{number:>9}")?;
    }
    writeln!(f)
}
