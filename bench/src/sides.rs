//! The two sides that are timed, and what is lent to both.

use crate::nettlestair::{Numbered, Opened, Picture, State, Traced, Turned, Written};
use crate::{nettlestair, plain};

/// A block list.
#[derive(Clone, Copy)]
pub struct Blocks<'a> {
    pub codes: &'a [u32],
    pub levels: &'a [u8],
    pub colours: &'a [u16],
}

impl<'a> Blocks<'a> {
    /// Code, level and colour of each block.
    pub fn iter(self) -> impl Iterator<Item = (u32, u8, u16)> + 'a {
        let parts = self.codes.iter().zip(self.levels).zip(self.colours);
        parts.map(|((&code, &level), &colour)| (code, level, colour))
    }
}

/// A pixel, and the colour that it gets.
#[derive(Clone, Copy)]
pub struct Speck {
    pub x: u32,
    pub y: u32,
    pub colour: u16,
}

/// Given outlines: the counts of regions, cycles and corners, the lists of a tracing, and the colour of each region.
#[derive(Clone, Copy)]
pub struct Given<'a> {
    pub regions: u32,
    pub cycles: u32,
    pub corner_count: u32,
    pub owners: &'a [u32],
    pub ends: &'a [u32],
    pub corners: &'a [u32],
    pub colours: &'a [u16],
}

/// What a tracing is lent besides the block list.
pub struct Lent<'a> {
    pub labels: &'a mut [u32],
    pub work: &'a mut [u32],
    pub owners: &'a mut [u32],
    pub ends: &'a mut [u32],
    pub corners: &'a mut [u32],
    pub areas: &'a mut [i32],
}

/// One way to rearrange a raster: n, the source and the target.
pub type Way = fn(u32, &[u16], &mut [u16]) -> Written;

/// An implementation of document 01.
#[allow(clippy::type_complexity)]
pub struct Side {
    pub code: fn(u16, u16) -> u32,
    pub check: fn(u32, Blocks) -> u32,
    pub number: fn(u32, Blocks, &mut [u32], &mut [u32]) -> Numbered,
    pub check_order: fn(u32, Blocks, &[u32], &mut [u32], &mut [u32]) -> u32,
    pub least_order: fn(u32, Blocks, &mut [u32], &mut [u32], &mut [u32]) -> Written,
    pub trace: fn(u32, Blocks, Lent) -> Traced,
    pub blocks_from_outlines: fn(u32, Given, &mut [u32], &mut [u8], &mut [u16], &mut [u32]) -> Written,
    pub open: fn(State, u32, u32) -> Opened,
    pub turn: fn(State, &[u32], &[u32], u32) -> Turned,
    pub blocks_from_raster: fn(u32, &[u16], &mut [u32], &mut [u8], &mut [u16]) -> Written,
    pub raster_from_blocks: fn(u32, Blocks, &mut [u16]) -> Written,
    pub to_block_order: Way,
    pub from_block_order: Way,
    pub overlay: fn(u32, Blocks, Blocks, &mut [u32], &mut [u8], &mut [u16]) -> Written,
    pub touch_up: fn(u32, Blocks, Speck, &mut [u32], &mut [u8], &mut [u16]) -> Written,
    pub read_pgm: fn(&[u8], &mut [u16]) -> Picture,
}

pub const LIBRARY: Side = Side {
    code: nettlestair::code,
    check: |n, blocks| nettlestair::check(n, blocks.codes, blocks.levels, blocks.colours),
    number: |n, blocks, labels, work| nettlestair::number(n, blocks.codes, blocks.levels, blocks.colours, labels, work),
    check_order: |n, blocks, order, labels, work| {
        nettlestair::check_order(n, blocks.codes, blocks.levels, blocks.colours, order, labels, work)
    },
    least_order: |n, blocks, labels, work, order| {
        nettlestair::least_order(n, blocks.codes, blocks.levels, blocks.colours, labels, work, order)
    },
    trace: |n, blocks, lent| {
        let Blocks { codes, levels, colours } = blocks;
        let Lent { labels, work, owners, ends, corners, areas } = lent;
        nettlestair::trace(n, codes, levels, colours, labels, work, owners, ends, corners, areas)
    },
    blocks_from_outlines: |n, given, codes, levels, colours, work| {
        let Given { regions, cycles, corner_count, owners, ends, corners, colours: region_colours } = given;
        nettlestair::blocks_from_outlines(
            n,
            regions,
            cycles,
            corner_count,
            owners,
            ends,
            corners,
            region_colours,
            codes,
            levels,
            colours,
            work,
        )
    },
    open: nettlestair::open,
    turn: nettlestair::turn,
    blocks_from_raster: nettlestair::blocks_from_raster,
    raster_from_blocks: |n, blocks, raster| {
        nettlestair::raster_from_blocks(n, blocks.codes, blocks.levels, blocks.colours, raster)
    },
    to_block_order: nettlestair::to_block_order,
    from_block_order: nettlestair::from_block_order,
    overlay: |n, a, b, codes, levels, colours| {
        nettlestair::overlay(n, a.codes, a.levels, a.colours, b.codes, b.levels, b.colours, codes, levels, colours)
    },
    touch_up: |n, blocks, Speck { x, y, colour }, new_codes, new_levels, new_colours| {
        let Blocks { codes, levels, colours } = blocks;
        nettlestair::touch_up(n, codes, levels, colours, x, y, colour, new_codes, new_levels, new_colours)
    },
    read_pgm: nettlestair::read_pgm,
};

pub const PLAIN: Side = Side {
    code: plain::code,
    check: plain::check,
    number: plain::number,
    check_order: plain::check_order,
    least_order: plain::least_order,
    trace: plain::trace,
    blocks_from_outlines: plain::blocks_from_outlines,
    open: plain::open,
    turn: plain::turn,
    blocks_from_raster: plain::blocks_from_raster,
    raster_from_blocks: plain::raster_from_blocks,
    to_block_order: plain::to_block_order,
    from_block_order: plain::from_block_order,
    overlay: plain::overlay,
    touch_up: plain::touch_up,
    read_pgm: plain::read_pgm,
};

/// The lists that are lent, each of exactly its need. Both sides are lent the same ones.
#[derive(Clone, PartialEq, Eq)]
pub struct Lists {
    pub labels: Vec<u32>,
    pub work: Vec<u32>,
    pub owners: Vec<u32>,
    pub ends: Vec<u32>,
    pub corners: Vec<u32>,
    pub areas: Vec<i32>,
}

impl Lists {
    /// Lists for a block list of `blocks` blocks in an image of side 2^n, each entry with some content that tells if it was
    /// left as it was.
    pub fn new(n: u32, blocks: usize) -> Lists {
        let whole = 1 << (2 * n);
        let list = |length: usize, seed: u32| (0..length as u32).map(move |i| (i ^ seed).wrapping_mul(0x9E37_79B1));
        Lists {
            labels: list(blocks, 1).collect(),
            work: list(2 * whole, 2).collect(),
            owners: list(whole, 3).collect(),
            ends: list(whole, 4).collect(),
            corners: list(4 * whole, 5).collect(),
            areas: list(whole, 6).map(|entry| entry as i32).collect(),
        }
    }

    pub fn lend(&mut self) -> Lent<'_> {
        Lent {
            labels: &mut self.labels,
            work: &mut self.work,
            owners: &mut self.owners,
            ends: &mut self.ends,
            corners: &mut self.corners,
            areas: &mut self.areas,
        }
    }
}
