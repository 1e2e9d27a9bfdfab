//! The one comparison of lists that the tests use: where two lists differ first, and how.

use std::fmt::{Debug, Display, Formatter, Result};

/// The first difference of two lists. An entry that one list does not have is `None`.
#[derive(Debug, PartialEq, Eq)]
pub struct Difference<T> {
    pub place: usize,
    pub expected: Option<T>,
    pub found: Option<T>,
}

impl<T: Debug> Display for Difference<T> {
    fn fmt(&self, f: &mut Formatter) -> Result {
        write!(f, "entry {}: expected {:?}, found {:?}", self.place, self.expected, self.found)
    }
}

/// The first place at which the lists differ, in an entry or in their length; `None` where they are equal.
pub fn difference<T: Copy + PartialEq>(expected: &[T], found: &[T]) -> Option<Difference<T>> {
    let longer = expected.len().max(found.len());
    (0..longer)
        .map(|place| (place, expected.get(place).copied(), found.get(place).copied()))
        .find_map(|(place, expected, found)| (expected != found).then_some(Difference { place, expected, found }))
}

/// A list as a message shows it: its first entries.
pub struct Shown<'a, T>(pub &'a [T]);

impl<T: Debug> Display for Shown<'_, T> {
    fn fmt(&self, f: &mut Formatter) -> Result {
        let most = 40.min(self.0.len());
        write!(f, "{:?}", &self.0[..most])?;
        if most < self.0.len() {
            write!(f, " and {} more", self.0.len() - most)?;
        }
        Ok(())
    }
}
