//! Lists lent to the library. Each lies between two guards of garbage in a larger list. One that is written to is garbage at first too, so
//! that a write outside the lent part, or a read that counts on zeros, shows.

use crate::compare::{difference, Difference};
use crate::random::Random;
use std::fmt::Debug;

/// How many entries stand before a lent part, and how many after it.
pub const GUARD: usize = 9;

/// The kinds of entries that lent lists have.
pub trait Entry: Copy + PartialEq + Debug {
    fn garbage(random: &mut Random) -> Self;
}

impl Entry for u8 {
    fn garbage(random: &mut Random) -> u8 {
        random.byte()
    }
}

impl Entry for u16 {
    fn garbage(random: &mut Random) -> u16 {
        random.colour()
    }
}

impl Entry for u32 {
    fn garbage(random: &mut Random) -> u32 {
        random.word()
    }
}

impl Entry for i32 {
    fn garbage(random: &mut Random) -> i32 {
        random.word() as i32
    }
}

pub struct Lent<T> {
    before: Vec<T>,
    now: Vec<T>,
}

impl<T: Entry> Lent<T> {
    /// A list of `length` entries of garbage.
    pub fn new(random: &mut Random, length: usize) -> Lent<T> {
        let before: Vec<T> = (0..length + 2 * GUARD).map(|_| T::garbage(random)).collect();
        Lent { now: before.clone(), before }
    }

    /// A list of these entries, for a function that only reads it.
    pub fn holding(random: &mut Random, entries: &[T]) -> Lent<T> {
        let guard = |random: &mut Random| [(); GUARD].map(|()| T::garbage(random));
        let before = [&guard(random)[..], entries, &guard(random)].concat();
        Lent { now: before.clone(), before }
    }

    /// The part that is lent.
    pub fn lend(&mut self) -> &mut [T] {
        let end = self.now.len() - GUARD;
        &mut self.now[GUARD..end]
    }

    /// The first entry, guards included, that differs where the lent part should be `written` and then what stood there.
    pub fn difference(&self, written: &[T]) -> Option<Difference<T>> {
        let mut expected = self.before.clone();
        expected[GUARD..GUARD + written.len()].copy_from_slice(written);
        difference(&expected, &self.now)
    }

    /// Puts another value at an entry, guards included, as a wrong function might.
    pub fn damage(&mut self, random: &mut Random, place: usize) {
        let old = self.now[place];
        while self.now[place] == old {
            self.now[place] = T::garbage(random);
        }
    }

    /// Puts the entry back that `written` or the garbage has there.
    pub fn mend(&mut self, written: &[T], place: usize) {
        self.now[place] = match place.checked_sub(GUARD).and_then(|i| written.get(i)) {
            Some(&entry) => entry,
            None => self.before[place],
        };
    }

    /// How many entries there are, guards included.
    pub fn places(&self) -> usize {
        self.now.len()
    }
}
