//! One side of a case: the calls that are timed, and the checksum of their answers.

pub trait Side {
    /// One pass over the inputs.
    fn pass(&mut self);

    /// Of the answers of the last pass.
    fn sum(&self) -> u64;
}

pub trait Answer: Copy {
    fn bits(self) -> u64;
}

impl Answer for f32 {
    /// A zero of either sign counts as +0.
    fn bits(self) -> u64 {
        if self == 0.0 { 0 } else { self.to_bits().into() }
    }
}

impl Answer for u8 {
    fn bits(self) -> u64 {
        self.into()
    }
}

impl Answer for u16 {
    fn bits(self) -> u64 {
        self.into()
    }
}

impl Answer for Option<f32> {
    fn bits(self) -> u64 {
        self.map_or(u64::MAX, f32::bits)
    }
}

/// What a call answered: its number, and the value in the lent place.
#[derive(Clone, Copy, Default)]
pub struct Valued {
    pub number: u32,
    pub value: f32,
}

impl Answer for Valued {
    /// A refusal's number stands above the value, so that it shows.
    fn bits(self) -> u64 {
        self.value.bits() | u64::from(self.number) << 32
    }
}

/// What is looked at of an updated tween.
#[derive(Clone, Copy, Default)]
pub struct Stepped {
    pub number: u32,
    pub running: u32,
    pub elapsed: f32,
}

impl Answer for Stepped {
    fn bits(self) -> u64 {
        self.elapsed.bits() | u64::from(self.number << 1 | self.running) << 32
    }
}

struct Filling<A, F> {
    answers: Vec<A>,
    fill: F,
}

impl<A: Answer, F: FnMut(&mut [A])> Side for Filling<A, F> {
    fn pass(&mut self) {
        (self.fill)(&mut self.answers)
    }

    fn sum(&self) -> u64 {
        self.answers.iter().fold(0, |sum: u64, answer| sum.wrapping_mul(31).wrapping_add(answer.bits()))
    }
}

/// A side whose pass fills so many answers.
pub fn filling<A, F>(count: usize, fill: F) -> Box<dyn Side>
where
    A: Answer + Default + 'static,
    F: FnMut(&mut [A]) + 'static,
{
    Box::new(Filling { answers: vec![A::default(); count], fill })
}
