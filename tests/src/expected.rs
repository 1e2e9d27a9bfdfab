//! What numbering, tracing and the two functions of cutting orders should answer and write for a block list, and what openings and turns at
//! the cutter should answer, by the model.

use crate::calls::Expected;
use crate::model::areas::areas;
use crate::model::blocks::{number, paint, Blocks};
use crate::model::cutting_orders::{is_every_region_once, Surrounding};
use crate::model::outlines::Outlines;
use crate::model::regions::Regions;
use crate::model::serving::{Lists, Queue};
use crate::nettlestair::{Numbered, OpenOutline, Opened, State, Traced, Turned, Written};
use std::cell::OnceCell;

/// The needs of the label, work, owner, end, corner and area lists. n above 8 is refused before any need, and gets those of one
/// pixel.
pub fn needs(n: u32, blocks: usize) -> [usize; 6] {
    let pixels = if n > 8 { 1 } else { 1 << (2 * n) };
    [blocks, 2 * pixels, pixels, pixels, 4 * pixels, pixels]
}

/// The needs of the label, work and order lists of the least order.
pub fn order_needs(n: u32, blocks: usize) -> [usize; 3] {
    let [labels, work, ..] = needs(n, blocks);
    [labels, work, blocks]
}

/// A block list as the model sees it: its number by causes 1 to 7 and, where that is 0, its regions, which of them surrounds which, their
/// outlines and the areas of these.
pub struct Model {
    pub number: u32,
    needs: [usize; 6],
    labels: Vec<u32>,
    pub regions: Option<Regions>,
    surrounding: OnceCell<Surrounding>,
    outlines: OnceCell<Outlines>,
    areas: OnceCell<Vec<i32>>,
}

impl Model {
    pub fn of(n: u32, blocks: &Blocks) -> Model {
        let number = number(n, &blocks.codes, &blocks.levels, &blocks.colours);
        let regions = (number == 0).then(|| Regions::of(n, &paint(n, blocks)));
        let labels = regions.as_ref().map(|r| r.labels(blocks)).unwrap_or_default();
        let (surrounding, outlines, areas) = (OnceCell::new(), OnceCell::new(), OnceCell::new());
        Model { number, needs: needs(n, blocks.len()), labels, regions, surrounding, outlines, areas }
    }

    /// The answer of numbering with lists of these lengths: "1, 2, then per block in list order 3, 4, 5, then 6, 7, 8".
    pub fn numbering(&self, lengths: [usize; 2]) -> Expected<Numbered, 2, 0> {
        let number = self.number_with(&lengths, &self.needs);
        match &self.regions {
            Some(regions) if number == 0 => Expected {
                answer: Numbered { number, regions: regions.count },
                lists: [self.labels.clone(), vec![0; self.needs[1]]],
                areas: [],
            },
            _ => Expected { answer: Numbered { number, regions: 0 }, lists: [vec![], vec![]], areas: [] },
        }
    }

    /// The answer of judging an order with lists of these lengths: "1 to 7, then 8 for these lists, then new 19 (the given order is not
    /// every region once), then new 20 (a region stands before one it surrounds)". Past 8 it writes the labels and zeros, "refusals 19 and
    /// 20 included".
    pub fn judging(&self, order: &[u32], lengths: [usize; 2]) -> Expected<u32, 2, 0> {
        let number = self.number_with(&lengths, &self.needs);
        match &self.regions {
            Some(regions) if number == 0 => {
                let answer = if !is_every_region_once(regions.count, order) {
                    19
                } else if !self.surrounding().is_inside_out(order) {
                    20
                } else {
                    0
                };
                Expected { answer, lists: [self.labels.clone(), vec![0; self.needs[1]]], areas: [] }
            }
            _ => Expected { answer: number, lists: [vec![], vec![]], areas: [] },
        }
    }

    /// The answer of the least order with lists of these lengths.
    pub fn least_order(&self, lengths: [usize; 3]) -> Expected<Written, 3, 0> {
        let [labels, work, ..] = self.needs;
        match self.number_with(&lengths, &[labels, work, labels]) {
            0 => {
                let order = self.surrounding().least_order();
                Expected {
                    answer: Written { number: 0, count: order.len() as u32 },
                    lists: [self.labels.clone(), vec![0; work], order],
                    areas: [],
                }
            }
            number => Expected { answer: Written { number, count: 0 }, lists: [const { Vec::new() }; 3], areas: [] },
        }
    }

    /// Which region surrounds which; a refused list has none.
    pub fn surrounding(&self) -> &Surrounding {
        self.surrounding.get_or_init(|| self.regions.as_ref().map(Surrounding::of).unwrap_or_default())
    }

    /// The answer of tracing with lists of these lengths.
    pub fn tracing(&self, lengths: [usize; 6]) -> Expected<Traced, 5, 1> {
        let number = self.number_with(&lengths, &self.needs);
        match &self.regions {
            Some(regions) if number == 0 => {
                let Outlines { owners, ends, corners } = self.outlines().clone();
                let counts = [regions.count, ends.len() as u32, corners.len() as u32];
                Expected {
                    answer: Traced { number, regions: counts[0], cycles: counts[1], corners: counts[2] },
                    lists: [self.labels.clone(), vec![0; self.needs[1]], owners, ends, corners],
                    areas: [self.areas().to_vec()],
                }
            }
            _ => Expected {
                answer: Traced { number, regions: 0, cycles: 0, corners: 0 },
                lists: [const { Vec::new() }; 5],
                areas: [vec![]],
            },
        }
    }

    /// The outlines of the regions; a refused list has none.
    pub fn outlines(&self) -> &Outlines {
        self.outlines.get_or_init(|| self.regions.as_ref().map(Outlines::of).unwrap_or_default())
    }

    /// The areas of the outlines.
    fn areas(&self) -> &[i32] {
        self.areas.get_or_init(|| areas(self.outlines()))
    }

    fn number_with(&self, lengths: &[usize], needs: &[usize]) -> u32 {
        let short = lengths.iter().zip(needs).any(|(length, need)| length < need);
        match self.number {
            0 if short => 8,
            number => number,
        }
    }
}

/// The open outlines of a state: those in the first `length` of its places, and all eight where the length is above that.
pub fn queue(state: &State) -> Queue {
    let open = state.outlines.iter().take(state.length as usize);
    Queue { open: open.map(|outline| (outline.cycle, outline.handed as usize..)).collect() }
}

/// The state with these open outlines, and 0 everywhere else.
pub fn state(queue: &Queue) -> State {
    let mut state = State { length: queue.open.len() as u32, ..State::default() };
    for (place, (cycle, to_come)) in state.outlines.iter_mut().zip(&queue.open) {
        *place = OpenOutline { cycle: *cycle, handed: to_come.start as u32 };
    }
    state
}

/// The answer of an opening: a refusal leaves the "state unchanged".
pub fn opened(before: State, cycle: u32, count: u32) -> Opened {
    let mut queue = queue(&before);
    match queue.open(cycle, count) {
        0 => Opened { number: 0, state: state(&queue) },
        number => Opened { number, state: before },
    }
}

/// The answer of a turn: "the answer's unused places are 0", and "None open" is said "with count, cycle and places 0 and the state
/// unchanged".
pub fn turned(before: State, lists: &Lists) -> Turned {
    let mut queue = queue(&before);
    let mut places = [0; 16];
    match queue.turn(lists) {
        Some((cycle, corners)) => {
            places[..corners.len()].copy_from_slice(&corners);
            Turned { served: true, count: corners.len() as u32, cycle, places, state: state(&queue) }
        }
        None => Turned { served: false, count: 0, cycle: 0, places, state: before },
    }
}
