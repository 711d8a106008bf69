//! Tries inputs, counts them, and stops at the first that shows a difference.
use crate::difference::Difference;
use crate::headings::headings;
use crate::input::{After, Input};
use crate::parts::in_parts;
use crate::shrink::shrink;
use crate::tally::Tally;

pub struct Found {
    input: Input,
    difference: Difference,
}

pub type Tried<T> = Result<T, Box<Found>>;

#[derive(Default)]
pub struct Runner {
    tally: Tally,
}

impl Runner {
    /// The record after the call, where the answer is the expected one.
    pub fn check(&mut self, made: &'static str, input: Input) -> Tried<After> {
        match input.check() {
            Ok((number, after)) => {
                self.tally.count(&headings(made, &input), number);
                Ok(after)
            }
            Err(difference) => {
                self.tally.inputs += 1;
                Err(Box::new(Found { input, difference }))
            }
        }
    }
}

/// Runs the parts on all cores, prints what was tried, and says whether all agreed.
pub fn run(parts: u64, part: impl Fn(u64, &mut Runner) -> Tried<()> + Sync) -> bool {
    let (tally, found) = in_parts(parts, |place, tally| {
        let mut runner = Runner::default();
        let tried = part(place, &mut runner);
        tally.add(runner.tally);
        tried
    });
    println!("{tally}");
    let agreed = found.is_none();
    if let Some(found) = found {
        report(*found);
    }
    let differences = if agreed { "0 differences" } else { "1 difference, and stopped there" };
    println!("compare: {} inputs, {differences}", tally.inputs);
    agreed
}

fn report(found: Found) {
    let show = |title: &str, mut input: Input, difference: &Difference| {
        println!("{title}: {}", difference.what);
        println!("    ours:     {}\n    expected: {}", difference.ours, difference.expected);
        println!("{}", input.show());
    };
    show("difference", found.input.clone(), &found.difference);
    let (input, difference) = shrink(found.input, found.difference);
    show("the smallest input found", input, &difference);
}
