//! Turns at the cutter (document 02, k), by queues of iterators: for the outlines of one tracing each over the corners that are still to come;
//! for lists that change from turn to turn each over the places of the stretch that are still to come.

use super::outlines::Outlines;
use crate::compare::Shown;
use std::collections::VecDeque;
use std::fmt::{Display, Formatter};
use std::ops::RangeFrom;
use std::slice::Iter;

/// "Up to eight outlines are open at the cutter".
const ROOM: usize = 8;

/// "A turn hands out up to 16 further corners of one open outline".
const A_TURN: usize = 16;

/// What a turn hands out: the cycle, and its corners. None where none is open.
pub type HandedOut = Option<(u32, Vec<u32>)>;

/// The number of an opening while these cycles are open: "new 22 (cycle not below the count), new 23 (already open), new 24 (eight open), in
/// that order".
fn number(open: impl Iterator<Item = u32>, cycle: u32, count: u32) -> u32 {
    let open: Vec<u32> = open.collect();
    let causes = [(22, cycle >= count), (23, open.contains(&cycle)), (24, open.len() >= ROOM)];
    causes.into_iter().find_map(|(number, holds)| holds.then_some(number)).unwrap_or(0)
}

/// The outlines of one tracing at the cutter: the open ones from the front to the back, each with the corners that are still to come.
pub struct Cutter<'a> {
    outlines: &'a Outlines,
    open: VecDeque<(u32, Iter<'a, u32>)>,
}

impl<'a> Cutter<'a> {
    pub fn of(outlines: &'a Outlines) -> Cutter<'a> {
        Cutter { outlines, open: VecDeque::new() }
    }

    /// The number of an opening. "A new one joins at the back."
    pub fn open(&mut self, cycle: u32) -> u32 {
        let number = number(self.cycles(), cycle, self.outlines.len() as u32);
        if number == 0 {
            self.open.push_back((cycle, self.outlines.cycle(cycle as usize).iter()));
        }
        number
    }

    /// "The outline at the front is served; if more is due it goes to the back, else it closes and its place serves again."
    pub fn turn(&mut self) -> HandedOut {
        let (cycle, mut corners) = self.open.pop_front()?;
        let handed_out = corners.by_ref().take(A_TURN).copied().collect();
        if !corners.as_slice().is_empty() {
            self.open.push_back((cycle, corners));
        }
        Some((cycle, handed_out))
    }

    /// The open cycles from the front to the back.
    pub fn cycles(&self) -> impl Iterator<Item = u32> + '_ {
        self.open.iter().map(|&(cycle, _)| cycle)
    }
}

/// The lists and the count that are lent for a turn.
#[derive(Clone, Debug, Default, PartialEq, Eq)]
pub struct Lists {
    pub corners: Vec<u32>,
    pub ends: Vec<u32>,
    pub count: u32,
}

impl Lists {
    /// Lists of stretches with so many corners each, which are all unlike and not 0.
    pub fn of_lengths(lengths: &[usize]) -> Lists {
        let (mut corners, mut ends) = (vec![], vec![]);
        for &length in lengths {
            let begin = corners.len() as u32;
            corners.extend((begin..begin + length as u32).map(|place| (place + 1).wrapping_mul(0x9E37_79B1)));
            ends.push(corners.len() as u32);
        }
        Lists { corners, count: ends.len() as u32, ends }
    }

    /// The corners of a cycle's stretch.
    pub fn cycle(&self, cycle: u32) -> &[u32] {
        let ends = self.ends.get(..self.count as usize).unwrap_or(&self.ends);
        let before = (cycle as usize).checked_sub(1).and_then(|before| ends.get(before));
        let begin = before.map_or(0, |&begin| begin as usize);
        ends.get(cycle as usize).and_then(|&end| self.corners.get(begin..end as usize)).unwrap_or(&[])
    }
}

impl Display for Lists {
    fn fmt(&self, f: &mut Formatter) -> std::fmt::Result {
        write!(f, "count {}, ends {}, corners {}", self.count, Shown(&self.ends), Shown(&self.corners))
    }
}

/// Open outlines, from the front to the back: the cycle, and the places of its stretch that are still to come.
#[derive(Clone, Debug, Default, PartialEq, Eq)]
pub struct Queue {
    pub open: VecDeque<(u32, RangeFrom<usize>)>,
}

impl Queue {
    /// The number of an opening.
    pub fn open(&mut self, cycle: u32, count: u32) -> u32 {
        let number = number(self.open.iter().map(|(cycle, _)| *cycle), cycle, count);
        if number == 0 {
            self.open.push_back((cycle, 0..));
        }
        number
    }

    /// "That number is the smaller of 16 and the corners still due, which are those of the cycle's stretch in the lists lent for this turn less
    /// those already handed out, and none below zero."
    pub fn turn(&mut self, lists: &Lists) -> HandedOut {
        let (cycle, mut places) = self.open.pop_front()?;
        let stretch = lists.cycle(cycle);
        let handed_out = places.by_ref().take(A_TURN).map_while(|place| stretch.get(place)).copied().collect();
        if stretch.get(places.start).is_some() {
            self.open.push_back((cycle, places));
        }
        Some((cycle, handed_out))
    }
}

#[cfg(test)]
mod tests {
    use super::super::regions::Regions;
    use super::*;
    use crate::figures::FIGURE_5B;

    #[test]
    fn figure_5b() {
        let outlines = Outlines::of(&Regions::of(2, &FIGURE_5B));
        let mut cutter = Cutter::of(&outlines);
        assert_eq!(cutter.turn(), None);
        assert_eq!([2, 0, 2, 3].map(|cycle| cutter.open(cycle)), [0, 0, 23, 22]);
        assert_eq!(cutter.turn(), Some((2, vec![1026, 1028, 2052, 2050])));
        assert_eq!(cutter.open(2), 0);
        assert_eq!(cutter.turn(), Some((0, vec![0, 4, 1028, 1026, 514, 513, 1025, 1026, 2050, 2048])));
        assert_eq!(cutter.turn(), Some((2, vec![1026, 1028, 2052, 2050])));
        assert_eq!(cutter.turn(), None);
    }

    /// A stretch of 33 corners takes three turns, one of 16 a single turn, one of none a turn too.
    #[test]
    fn by_turns() {
        let lists = Lists::of_lengths(&[33, 16, 0]);
        let mut queue = Queue::default();
        assert_eq!([0, 1, 2, 0, 3].map(|cycle| queue.open(cycle, 3)), [0, 0, 0, 23, 22]);
        let corners = |cycle: u32, places: std::ops::Range<usize>| Some((cycle, lists.cycle(cycle)[places].to_vec()));
        assert_eq!(queue.turn(&lists), corners(0, 0..16));
        assert_eq!(queue.open, [(1, 0..), (2, 0..), (0, 16..)]);
        assert_eq!(queue.turn(&lists), corners(1, 0..16));
        assert_eq!(queue.turn(&lists), corners(2, 0..0));
        assert_eq!(queue.turn(&lists), corners(0, 16..32));
        assert_eq!(queue.open, [(0, 32..)]);
        assert_eq!(queue.turn(&lists), corners(0, 32..33));
        assert_eq!(queue.turn(&lists), None);
    }

    /// The stretch is that of the lists lent for the turn, be it shorter than what was handed out.
    #[test]
    fn other_lists() {
        let [long, longer, short] = [[40], [50], [9]].map(|lengths| Lists::of_lengths(&lengths));
        let mut queue = Queue::default();
        queue.open(0, 1);
        assert_eq!(queue.turn(&long), Some((0, long.corners[..16].to_vec())));
        assert_eq!(queue.turn(&longer), Some((0, longer.corners[16..32].to_vec())));
        assert_eq!(queue.turn(&short), Some((0, vec![])));
        assert_eq!(queue.turn(&long), None);
        for (handed, given) in [(15, 9), (23, 1), (24, 0), (25, 0), (u32::MAX, 0)] {
            queue.open.push_back((0, handed as usize..));
            let handed_out = queue.turn(&Lists::of_lengths(&[24])).expect("one is open").1;
            assert_eq!((handed_out.len(), queue.open.len()), (given, 0));
        }
    }

    #[test]
    fn numbers_in_order() {
        let mut queue = Queue::default();
        assert_eq!([0, 1, 2, 3, 4, 5, 6, 7].map(|cycle| queue.open(cycle, 8)), [0; 8]);
        let full = queue.clone();
        assert_eq!([(8, 9), (7, 8), (7, 7), (8, 8)].map(|(cycle, count)| queue.open(cycle, count)), [24, 23, 22, 22]);
        assert_eq!(queue, full);
    }
}
