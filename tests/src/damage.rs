//! Shows that a comparison can fail: an answer with one entry damaged is told from the right one.

use crate::cases::Cases;
use crate::lent::{Entry, Lent};
use crate::nettlestair::{Opened, State, Turned};
use crate::random::Random;

/// Damages each entry of one list by turns: the difference is reported, and none before it or after it was mended.
pub fn each_place<O, T: Entry>(
    random: &mut Random,
    cases: &mut Cases,
    out: &mut O,
    list: impl Fn(&mut O) -> &mut Lent<T>,
    written: &[T],
    difference: impl Fn(&O) -> Option<String>,
) {
    for place in 0..list(out).places() {
        assert_eq!(difference(out), None);
        list(out).damage(random, place);
        let said = difference(out).expect("a damaged entry is reported");
        assert!(said.contains(&format!("entry {place}:")), "damage at {place}, and reported was: {said}");
        list(out).mend(written, place);
        cases.ran();
    }
}

/// An answer by value as its 32-bit parts: all of it but `served`.
pub trait Parts {
    fn parts(&mut self) -> Vec<&mut u32>;
}

impl Parts for State {
    fn parts(&mut self) -> Vec<&mut u32> {
        let outlines = self.outlines.iter_mut().flat_map(|outline| [&mut outline.cycle, &mut outline.handed]);
        outlines.chain([&mut self.length]).collect()
    }
}

impl Parts for Opened {
    fn parts(&mut self) -> Vec<&mut u32> {
        [&mut self.number].into_iter().chain(self.state.parts()).collect()
    }
}

impl Parts for Turned {
    fn parts(&mut self) -> Vec<&mut u32> {
        let own = [&mut self.count, &mut self.cycle].into_iter().chain(&mut self.places);
        own.chain(self.state.parts()).collect()
    }
}

/// Changes one binary digit of one part of an answer.
pub fn one_part(random: &mut Random, answer: &mut impl Parts) {
    let mut parts = answer.parts();
    let part = random.below(parts.len());
    *parts[part] ^= 1 << random.below(32);
}
