//! What is lent to a call, between guards that no call may reach.
use crate::difference::{Difference, same_places};

/// Places before and behind.
const GUARD: usize = 16;
const GUARD_BYTE: u8 = 0xa5;

pub struct Lent<T> {
    places: Vec<T>,
}

impl<T: Copy + PartialEq + From<u8> + Into<u32>> Lent<T> {
    pub fn new(list: &[T]) -> Self {
        let guard = [T::from(GUARD_BYTE); GUARD];
        Self { places: [&guard, list, &guard].concat() }
    }

    pub fn list(&mut self) -> &mut [T] {
        let end = self.places.len() - GUARD;
        &mut self.places[GUARD..end]
    }

    /// `what` is its name in the call.
    pub fn same(&self, call: &str, what: &str, expected: &[T]) -> Result<(), Difference> {
        let guard = [T::from(GUARD_BYTE); GUARD];
        let (before, rest) = self.places.split_at(GUARD);
        let (list, behind) = rest.split_at(rest.len() - GUARD);
        same_places(&format!("{call}: before the {what}"), before, &guard)?;
        same_places(&format!("{call}: {what}"), list, expected)?;
        same_places(&format!("{call}: behind the {what}"), behind, &guard)
    }
}
