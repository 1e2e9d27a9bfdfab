//! Calls of the library with lent lists full of garbage, and what the lists must hold afterwards.

use crate::compare::difference;
use crate::lent::{Entry, Lent};
use crate::model::blocks::Blocks;
use crate::model::orders::{in_block_order, in_rows};
use crate::model::pgm::Read;
use crate::model::restoring::{restoring_needs, Given};
use crate::model::serving::Lists;
use crate::model::touching_up::Speck;
use crate::nettlestair::{self, Numbered, Picture, State, Traced, Turned, Written};
use crate::random::Random;
use std::fmt::{Debug, Display};
use std::hint::black_box;

/// The answer of a refusal: "number, counts 0".
const fn refused(number: u32) -> Written {
    Written { number, count: 0 }
}

/// A function that writes a block list, after a call.
pub struct BlocksOut {
    pub written: Written,
    pub codes: Lent<u32>,
    pub levels: Lent<u8>,
    pub colours: Lent<u16>,
}

impl BlocksOut {
    /// Lends lists of the given lengths for codes, levels and colours to `function`.
    fn of(
        random: &mut Random,
        lengths: [usize; 3],
        function: impl FnOnce(&mut [u32], &mut [u8], &mut [u16]) -> Written,
    ) -> BlocksOut {
        let mut codes = Lent::new(random, lengths[0]);
        let mut levels = Lent::new(random, lengths[1]);
        let mut colours = Lent::new(random, lengths[2]);
        let written = function(codes.lend(), levels.lend(), colours.lend());
        BlocksOut { written, codes, levels, colours }
    }

    /// The blocks written.
    pub fn blocks(&mut self) -> Blocks {
        let count = self.written.count as usize;
        Blocks {
            codes: self.codes.lend()[..count].to_vec(),
            levels: self.levels.lend()[..count].to_vec(),
            colours: self.colours.lend()[..count].to_vec(),
        }
    }

    /// What differs from an acceptance with these blocks: the answer or an entry, also one that should be as it was.
    pub fn difference(&self, blocks: &Blocks) -> Option<String> {
        self.differs(Written { number: 0, count: blocks.len() as u32 }, blocks)
    }

    /// What differs from a refusal with this number.
    pub fn difference_from_refusal(&self, number: u32) -> Option<String> {
        self.differs(refused(number), &Blocks::default())
    }

    /// What differs from what the model answers: blocks, or the number of a refusal.
    pub fn difference_from_model(&self, expected: &Result<Blocks, u32>) -> Option<String> {
        match expected {
            Ok(blocks) => self.difference(blocks),
            Err(number) => self.difference_from_refusal(*number),
        }
    }

    fn differs(&self, written: Written, blocks: &Blocks) -> Option<String> {
        answer(written, self.written)
            .or_else(|| self.codes.difference(&blocks.codes).map(|d| format!("codes, {d}")))
            .or_else(|| self.levels.difference(&blocks.levels).map(|d| format!("levels, {d}")))
            .or_else(|| self.colours.difference(&blocks.colours).map(|d| format!("colours, {d}")))
    }
}

/// Raster to blocks, with lists of the given lengths.
pub fn blocks_from_raster(random: &mut Random, n: u32, raster: &[u16], lengths: [usize; 3]) -> BlocksOut {
    let before = raster.to_vec();
    let out = BlocksOut::of(random, lengths, |codes, levels, colours| {
        nettlestair::blocks_from_raster(n, black_box(raster), codes, levels, colours)
    });
    unchanged("raster", &before, black_box(raster));
    out
}

/// One block list laid over another, with lists of the given lengths.
pub fn overlay(random: &mut Random, n: u32, first: &Blocks, second: &Blocks, lengths: [usize; 3]) -> BlocksOut {
    handed_in(first, |a| {
        handed_in(second, |b| {
            BlocksOut::of(random, lengths, |codes, levels, colours| {
                nettlestair::overlay(
                    n, &a.codes, &a.levels, &a.colours, &b.codes, &b.levels, &b.colours, codes, levels, colours,
                )
            })
        })
    })
}

/// One pixel of a block list's image touched up, with new lists of the given lengths.
pub fn touch_up(random: &mut Random, n: u32, blocks: &Blocks, speck: Speck, lengths: [usize; 3]) -> BlocksOut {
    let Speck { x, y, colour } = speck;
    handed_in(blocks, |Blocks { codes, levels, colours }| {
        BlocksOut::of(random, lengths, |new_codes, new_levels, new_colours| {
            nettlestair::touch_up(n, codes, levels, colours, x, y, colour, new_codes, new_levels, new_colours)
        })
    })
}

/// The dial from its outlines, after a call: the block list, and the work list.
pub struct RestoredOut {
    n: u32,
    pub blocks: BlocksOut,
    pub work: Lent<u32>,
}

impl RestoredOut {
    /// What differs from what the model answers: blocks, or the number of a refusal. The entries that the work list needs "are 0 after
    /// acceptance and after 18".
    pub fn difference_from_model(&self, expected: &Result<Blocks, u32>) -> Option<String> {
        let [.., work] = restoring_needs(self.n);
        let zeros = vec![0; if matches!(expected, Ok(_) | Err(18)) { work } else { 0 }];
        let in_work = || self.work.difference(&zeros).map(|d| format!("work, {d}"));
        self.blocks.difference_from_model(expected).or_else(in_work)
    }
}

/// The dial from its outlines, with code, level, colour and work lists of the given lengths.
pub fn blocks_from_outlines(random: &mut Random, n: u32, given: &Given, lengths: [usize; 4]) -> RestoredOut {
    let [codes, levels, colours, work] = lengths;
    let mut work = Lent::new(random, work);
    let before = given.clone();
    let blocks = BlocksOut::of(random, [codes, levels, colours], |codes, levels, colours| {
        let Given { regions, cycles, corner_count, owners, ends, corners, colours: region_colours } = black_box(given);
        nettlestair::blocks_from_outlines(
            n,
            *regions,
            *cycles,
            *corner_count,
            owners,
            ends,
            corners,
            region_colours,
            codes,
            levels,
            colours,
            work.lend(),
        )
    });
    unchanged("owners", &before.owners, black_box(&given.owners));
    unchanged("ends", &before.ends, black_box(&given.ends));
    unchanged("corners", &before.corners, black_box(&given.corners));
    unchanged("region colours", &before.colours, black_box(&given.colours));
    RestoredOut { n, blocks, work }
}

/// A function that writes one list, after a call.
pub struct Out<T> {
    pub written: Written,
    pub list: Lent<T>,
}

impl<T: Entry> Out<T> {
    /// Lends a list of the given length to `function`.
    pub fn of(random: &mut Random, length: usize, function: impl FnOnce(&mut [T]) -> Written) -> Out<T> {
        let mut list = Lent::new(random, length);
        let written = function(list.lend());
        Out { written, list }
    }

    /// What differs from an acceptance with these entries.
    pub fn difference(&self, entries: &[T]) -> Option<String> {
        self.differs(Written { number: 0, count: entries.len() as u32 }, entries)
    }

    /// What differs from a refusal with this number.
    pub fn difference_from_refusal(&self, number: u32) -> Option<String> {
        self.differs(refused(number), &[])
    }

    fn differs(&self, written: Written, entries: &[T]) -> Option<String> {
        answer(written, self.written).or_else(|| self.list.difference(entries).map(|d| d.to_string()))
    }

    /// What differs from what the model answers: entries, or the number of a refusal.
    pub fn difference_from_model(&self, expected: &Result<Vec<T>, u32>) -> Option<String> {
        match expected {
            Ok(entries) => self.difference(entries),
            Err(number) => self.difference_from_refusal(*number),
        }
    }
}

/// Blocks to raster, with a raster of the given length.
pub fn raster_from_blocks(random: &mut Random, n: u32, blocks: &Blocks, length: usize) -> Out<u16> {
    handed_in(blocks, |Blocks { codes, levels, colours }| {
        Out::of(random, length, |raster| nettlestair::raster_from_blocks(n, codes, levels, colours, raster))
    })
}

/// A way to rearrange a raster: its name, the library's function, and the order that it gives by the model.
pub struct Way {
    pub name: &'static str,
    function: fn(u32, &[u16], &mut [u16]) -> Written,
    pub order: fn(u32, &[u16]) -> Vec<u16>,
}

pub const TO_BLOCK_ORDER: Way =
    Way { name: "to block order", function: nettlestair::to_block_order, order: in_block_order };
pub const FROM_BLOCK_ORDER: Way =
    Way { name: "from block order", function: nettlestair::from_block_order, order: in_rows };

impl Way {
    /// Rearranges a source, with a target of the given length.
    pub fn call(&self, random: &mut Random, n: u32, source: &[u16], length: usize) -> Out<u16> {
        let before = source.to_vec();
        let out = Out::of(random, length, |target| (self.function)(n, black_box(source), target));
        unchanged("source", &before, black_box(source));
        out
    }
}

/// The reader of pictures, after a call.
pub struct PictureOut {
    pub picture: Picture,
    pub raster: Lent<u16>,
}

impl PictureOut {
    /// Lends a raster of the given length.
    pub fn call(random: &mut Random, bytes: &[u8], length: usize) -> PictureOut {
        let before = bytes.to_vec();
        let mut raster = Lent::new(random, length);
        let picture = nettlestair::read_pgm(black_box(bytes), raster.lend());
        unchanged("bytes", &before, black_box(bytes));
        PictureOut { picture, raster }
    }

    /// What differs: the answer or an entry, also one that should be as it was.
    pub fn difference(&self, expected: &Read) -> Option<String> {
        let Read { number, n, maxval, ref samples } = *expected;
        answer(Picture { number, n, maxval, count: samples.len() as u32 }, self.picture)
            .or_else(|| self.raster.difference(samples).map(|d| format!("raster, {d}")))
    }
}

/// A function over a block list, after a call: what it answered, and the lists of 32-bit numbers it was lent, with their names. Those of
/// areas, which have a sign, stand apart.
pub struct Called<A, const LISTS: usize, const AREAS: usize> {
    pub answer: A,
    names: [&'static str; LISTS],
    pub lists: [Lent<u32>; LISTS],
    pub areas: [Lent<i32>; AREAS],
}

/// What such a function should answer and write. It writes nothing where it refuses, but for labels and zeros with 19 and 20.
pub struct Expected<A, const LISTS: usize, const AREAS: usize> {
    pub answer: A,
    pub lists: [Vec<u32>; LISTS],
    pub areas: [Vec<i32>; AREAS],
}

impl<A: Copy + PartialEq + Debug, const LISTS: usize, const AREAS: usize> Called<A, LISTS, AREAS> {
    /// What differs: the answer or an entry, also one that should be as it was.
    pub fn difference(&self, expected: &Expected<A, LISTS, AREAS>) -> Option<String> {
        let mut lists = self.names.iter().zip(&self.lists).zip(&expected.lists);
        let mut areas = self.areas.iter().zip(&expected.areas);
        answer(expected.answer, self.answer)
            .or_else(|| {
                lists.find_map(|((name, list), written)| Some(format!("{name}, {}", list.difference(written)?)))
            })
            .or_else(|| areas.find_map(|(list, written)| Some(format!("areas, {}", list.difference(written)?))))
    }
}

/// Numbering, after a call. It is lent no list of areas.
pub type NumberOut = Called<Numbered, 2, 0>;

/// The judging of an order, after a call.
pub type CheckOrderOut = Called<u32, 2, 0>;

/// The least order, after a call. The order is the third list.
pub type LeastOrderOut = Called<Written, 3, 0>;

/// Tracing, after a call. It is lent one list of areas.
pub type TraceOut = Called<Traced, 5, 1>;

/// Numbering, with a label list and a work list of the given lengths.
pub fn number(random: &mut Random, n: u32, blocks: &Blocks, lengths: [usize; 2]) -> NumberOut {
    let mut lists = lengths.map(|length| Lent::new(random, length));
    let [labels, work] = lists.each_mut().map(Lent::lend);
    let answer = handed_in(blocks, |Blocks { codes, levels, colours }| {
        nettlestair::number(n, codes, levels, colours, labels, work)
    });
    NumberOut { answer, names: ["labels", "work"], lists, areas: [] }
}

/// The judging of an order, with a label list and a work list of the given lengths.
pub fn check_order(random: &mut Random, n: u32, blocks: &Blocks, order: &[u32], lengths: [usize; 2]) -> CheckOrderOut {
    let mut lists = lengths.map(|length| Lent::new(random, length));
    let [labels, work] = lists.each_mut().map(Lent::lend);
    let before = order.to_vec();
    let answer = handed_in(blocks, |Blocks { codes, levels, colours }| {
        nettlestair::check_order(n, codes, levels, colours, black_box(order), labels, work)
    });
    unchanged("order", &before, black_box(order));
    CheckOrderOut { answer, names: ["labels", "work"], lists, areas: [] }
}

/// The least order, with label, work and order lists of the given lengths.
pub fn least_order(random: &mut Random, n: u32, blocks: &Blocks, lengths: [usize; 3]) -> LeastOrderOut {
    let mut lists = lengths.map(|length| Lent::new(random, length));
    let [labels, work, order] = lists.each_mut().map(Lent::lend);
    let answer = handed_in(blocks, |Blocks { codes, levels, colours }| {
        nettlestair::least_order(n, codes, levels, colours, labels, work, order)
    });
    LeastOrderOut { answer, names: ["labels", "work", "order"], lists, areas: [] }
}

/// Tracing, with label, work, owner, end, corner and area lists of the given lengths.
pub fn trace(random: &mut Random, n: u32, blocks: &Blocks, lengths: [usize; 6]) -> TraceOut {
    let [labels, work, owners, ends, corners, areas] = lengths;
    let mut lists = [labels, work, owners, ends, corners].map(|length| Lent::new(random, length));
    let mut areas = Lent::new(random, areas);
    let [labels, work, owners, ends, corners] = lists.each_mut().map(Lent::lend);
    let answer = handed_in(blocks, |Blocks { codes, levels, colours }| {
        nettlestair::trace(n, codes, levels, colours, labels, work, owners, ends, corners, areas.lend())
    });
    TraceOut { answer, names: ["labels", "work", "owners", "ends", "corners"], lists, areas: [areas] }
}

/// A turn at the cutter, which leaves the lists and what stands around them as they were.
pub fn turn(random: &mut Random, state: State, lists: &Lists) -> Turned {
    let [mut corners, mut ends] = [&lists.corners, &lists.ends].map(|list| Lent::holding(random, list));
    let turned = nettlestair::turn(state, corners.lend(), ends.lend(), lists.count);
    for (name, list) in [("corners", black_box(corners)), ("ends", black_box(ends))] {
        agrees(format_args!("the {name} handed in"), list.difference(&[]).map(|d| d.to_string()));
    }
    turned
}

/// Hands a block list to a function, which leaves it as it was.
fn handed_in<A>(blocks: &Blocks, function: impl FnOnce(&Blocks) -> A) -> A {
    let before = blocks.clone();
    let answer = function(black_box(blocks));
    unchanged("codes", &before.codes, black_box(&blocks.codes));
    unchanged("levels", &before.levels, black_box(&blocks.levels));
    unchanged("colours", &before.colours, black_box(&blocks.colours));
    answer
}

/// Fails where there is a difference.
pub fn agrees(what: impl Display, difference: Option<String>) {
    if let Some(d) = difference {
        panic!("{what}: {d}");
    }
}

/// What differs in an answer.
pub fn answer<A: PartialEq + Debug>(expected: A, found: A) -> Option<String> {
    (expected != found).then(|| format!("answer: expected {expected:?}, found {found:?}"))
}

fn unchanged<T: Copy + PartialEq + Debug>(list: &str, before: &[T], after: &[T]) {
    agrees(format_args!("the {list} handed in"), difference(before, after).map(|d| d.to_string()));
}
