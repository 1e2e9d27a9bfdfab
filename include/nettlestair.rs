//! The functions of libexports.a for Rust, over the C names of `nettlestair.h` beside this file. Take it into a program as a
//! module and link `crates/exports/out/libexports.a` (`rt lib` in crates/exports); `examples/trace.rs` shows how.
//!
//! Each function answers the numbers of documents 01 and 02 for bad input of any kind; acceptance is number 0. A refusal is its
//! number with every count 0, and leaves all lists as they were, but for labels and work list with 19 and 20 and the work list with
//! 18. A lent list that is shorter than its need is 8; a longer one is welcome, and its entries after those that are written stay as
//! they were. The state of the cutter is a plain value: it goes in, and the next one comes back with the answer. A refusal gives it back as
//! it was.

#![allow(dead_code)]

/// What a function that writes lists answers: its number, and how many entries it wrote.
#[repr(C)]
#[derive(Clone, Copy, Debug, PartialEq, Eq)]
pub struct Written {
    pub number: u32,
    pub count: u32,
}

/// What numbering answers: its number, and how many regions there are.
#[repr(C)]
#[derive(Clone, Copy, Debug, PartialEq, Eq)]
pub struct Numbered {
    pub number: u32,
    pub regions: u32,
}

/// What tracing answers: its number, and how many regions, cycles and corners there are.
#[repr(C)]
#[derive(Clone, Copy, Debug, PartialEq, Eq)]
pub struct Traced {
    pub number: u32,
    pub regions: u32,
    pub cycles: u32,
    pub corners: u32,
}

/// A part of a lent list: its place and its length in entries.
#[repr(C)]
#[derive(Clone, Copy, Debug, PartialEq, Eq)]
pub struct Stretch {
    pub start: usize,
    pub length: usize,
}

impl Stretch {
    /// The part itself, of the list that was lent.
    pub fn of<T>(self, list: &[T]) -> &[T] {
        &list[self.start..self.start + self.length]
    }
}

/// What a picture is: its number, and on acceptance n, maxval and how many samples it has, which is 4^n.
#[repr(C)]
#[derive(Clone, Copy, Debug, PartialEq, Eq)]
pub struct Picture {
    pub number: u32,
    pub n: u32,
    pub maxval: u32,
    pub count: u32,
}

/// An open outline: its cycle, and how many of its corners were handed out.
#[repr(C)]
#[derive(Clone, Copy, Debug, Default, PartialEq, Eq)]
pub struct OpenOutline {
    pub cycle: u32,
    pub handed: u32,
}

/// The outlines that are open at the cutter, eight at most: those in the first `length` places, from the front to the back. The default is
/// the fresh state, with none open. What stands in the other places is not looked at, and a length above 8 counts as 8.
#[repr(C)]
#[derive(Clone, Copy, Debug, Default, PartialEq, Eq)]
pub struct State {
    pub outlines: [OpenOutline; 8],
    pub length: u32,
}

/// What an opening answers: its number, and the next state.
#[repr(C)]
#[derive(Clone, Copy, Debug, PartialEq, Eq)]
pub struct Opened {
    pub number: u32,
    pub state: State,
}

/// What a turn answers: whether there was an outline to serve, how many corners were handed out, of which cycle, the corners with 0 in the
/// unused places, and the next state.
#[repr(C)]
#[derive(Clone, Copy, Debug, PartialEq, Eq)]
pub struct Turned {
    pub served: bool,
    pub count: u32,
    pub cycle: u32,
    pub places: [u32; 16],
    pub state: State,
}

extern "C" {
    fn nettlestair_code(x: u16, y: u16) -> u32;

    fn nettlestair_check(
        n: u32,
        codes: *const u32,
        codes_len: usize,
        levels: *const u8,
        levels_len: usize,
        colours: *const u16,
        colours_len: usize,
    ) -> u32;

    fn nettlestair_blocks_from_raster(
        n: u32,
        raster: *const u16,
        raster_len: usize,
        codes: *mut u32,
        codes_len: usize,
        levels: *mut u8,
        levels_len: usize,
        colours: *mut u16,
        colours_len: usize,
    ) -> Written;

    fn nettlestair_raster_from_blocks(
        n: u32,
        codes: *const u32,
        codes_len: usize,
        levels: *const u8,
        levels_len: usize,
        colours: *const u16,
        colours_len: usize,
        raster: *mut u16,
        raster_len: usize,
    ) -> Written;

    fn nettlestair_to_block_order(
        n: u32,
        raster: *const u16,
        raster_len: usize,
        stored: *mut u16,
        stored_len: usize,
    ) -> Written;

    fn nettlestair_from_block_order(
        n: u32,
        stored: *const u16,
        stored_len: usize,
        raster: *mut u16,
        raster_len: usize,
    ) -> Written;

    fn nettlestair_overlay(
        n: u32,
        first_codes: *const u32,
        first_codes_len: usize,
        first_levels: *const u8,
        first_levels_len: usize,
        first_colours: *const u16,
        first_colours_len: usize,
        second_codes: *const u32,
        second_codes_len: usize,
        second_levels: *const u8,
        second_levels_len: usize,
        second_colours: *const u16,
        second_colours_len: usize,
        codes: *mut u32,
        codes_len: usize,
        levels: *mut u8,
        levels_len: usize,
        colours: *mut u16,
        colours_len: usize,
    ) -> Written;

    fn nettlestair_touch_up(
        n: u32,
        codes: *const u32,
        codes_len: usize,
        levels: *const u8,
        levels_len: usize,
        colours: *const u16,
        colours_len: usize,
        x: u32,
        y: u32,
        colour: u16,
        new_codes: *mut u32,
        new_codes_len: usize,
        new_levels: *mut u8,
        new_levels_len: usize,
        new_colours: *mut u16,
        new_colours_len: usize,
    ) -> Written;

    fn nettlestair_number(
        n: u32,
        codes: *const u32,
        codes_len: usize,
        levels: *const u8,
        levels_len: usize,
        colours: *const u16,
        colours_len: usize,
        labels: *mut u32,
        labels_len: usize,
        work: *mut u32,
        work_len: usize,
    ) -> Numbered;

    fn nettlestair_check_order(
        n: u32,
        codes: *const u32,
        codes_len: usize,
        levels: *const u8,
        levels_len: usize,
        colours: *const u16,
        colours_len: usize,
        order: *const u32,
        order_len: usize,
        labels: *mut u32,
        labels_len: usize,
        work: *mut u32,
        work_len: usize,
    ) -> u32;

    fn nettlestair_least_order(
        n: u32,
        codes: *const u32,
        codes_len: usize,
        levels: *const u8,
        levels_len: usize,
        colours: *const u16,
        colours_len: usize,
        labels: *mut u32,
        labels_len: usize,
        work: *mut u32,
        work_len: usize,
        order: *mut u32,
        order_len: usize,
    ) -> Written;

    fn nettlestair_trace(
        n: u32,
        codes: *const u32,
        codes_len: usize,
        levels: *const u8,
        levels_len: usize,
        colours: *const u16,
        colours_len: usize,
        labels: *mut u32,
        labels_len: usize,
        work: *mut u32,
        work_len: usize,
        owners: *mut u32,
        owners_len: usize,
        ends: *mut u32,
        ends_len: usize,
        corners: *mut u32,
        corners_len: usize,
        areas: *mut i32,
        areas_len: usize,
    ) -> Traced;

    fn nettlestair_blocks_from_outlines(
        n: u32,
        regions: u32,
        cycles: u32,
        corner_count: u32,
        owners: *const u32,
        owners_len: usize,
        ends: *const u32,
        ends_len: usize,
        corners: *const u32,
        corners_len: usize,
        region_colours: *const u16,
        region_colours_len: usize,
        codes: *mut u32,
        codes_len: usize,
        levels: *mut u8,
        levels_len: usize,
        colours: *mut u16,
        colours_len: usize,
        work: *mut u32,
        work_len: usize,
    ) -> Written;

    fn nettlestair_cycle(
        corners: *const u32,
        corners_len: usize,
        ends: *const u32,
        ends_len: usize,
        count: u32,
        k: u32,
    ) -> Stretch;

    fn nettlestair_open(state: State, cycle: u32, count: u32) -> Opened;

    fn nettlestair_turn(
        state: State,
        corners: *const u32,
        corners_len: usize,
        ends: *const u32,
        ends_len: usize,
        count: u32,
    ) -> Turned;

    fn nettlestair_svg(corners: *const u32, corners_len: usize, text: *mut u8, text_len: usize) -> Written;

    fn nettlestair_read_chain(
        start: u32,
        chain: *const u8,
        chain_len: usize,
        corners: *mut u32,
        corners_len: usize,
    ) -> Written;

    fn nettlestair_read_pgm(bytes: *const u8, bytes_len: usize, raster: *mut u16, raster_len: usize) -> Picture;
}

// Each call is sound: a pointer comes with the length of its slice, and the borrow checker keeps a list that is written to
// apart from every other.

/// The location code of the pixel (x, y): the binary digits of y and x by turns, the lowest of x worth 1, the lowest of y 2. Every
/// x and y has one, so there is no number.
pub fn code(x: u16, y: u16) -> u32 {
    unsafe { nettlestair_code(x, y) }
}

/// The number of a block list of an image of side 2^n: 0 where it is accepted, else 1 to 7.
pub fn check(n: u32, codes: &[u32], levels: &[u8], colours: &[u16]) -> u32 {
    unsafe {
        nettlestair_check(
            n,
            codes.as_ptr(),
            codes.len(),
            levels.as_ptr(),
            levels.len(),
            colours.as_ptr(),
            colours.len(),
        )
    }
}

/// The merged block list of a raster (row by row, north row first) of 4^n entries: 0, or 1, 9, 8. Each of the three lists has
/// room for 4^n entries.
pub fn blocks_from_raster(
    n: u32,
    raster: &[u16],
    codes: &mut [u32],
    levels: &mut [u8],
    colours: &mut [u16],
) -> Written {
    unsafe {
        nettlestair_blocks_from_raster(
            n,
            raster.as_ptr(),
            raster.len(),
            codes.as_mut_ptr(),
            codes.len(),
            levels.as_mut_ptr(),
            levels.len(),
            colours.as_mut_ptr(),
            colours.len(),
        )
    }
}

/// The raster of a block list: 0, or 1 to 8. The raster has room for 4^n entries.
pub fn raster_from_blocks(n: u32, codes: &[u32], levels: &[u8], colours: &[u16], raster: &mut [u16]) -> Written {
    unsafe {
        nettlestair_raster_from_blocks(
            n,
            codes.as_ptr(),
            codes.len(),
            levels.as_ptr(),
            levels.len(),
            colours.as_ptr(),
            colours.len(),
            raster.as_mut_ptr(),
            raster.len(),
        )
    }
}

/// A raster (row by row, north row first) of 4^n entries in block order, which is rising location code: 0, or 1, 9, 8. The
/// stored raster has room for 4^n entries.
pub fn to_block_order(n: u32, raster: &[u16], stored: &mut [u16]) -> Written {
    unsafe { nettlestair_to_block_order(n, raster.as_ptr(), raster.len(), stored.as_mut_ptr(), stored.len()) }
}

/// The raster (row by row, north row first) of 4^n entries that are stored in block order: 0, or 1, 9, 8. The raster has
/// room for 4^n entries. Each way followed by the other gives the first raster.
pub fn from_block_order(n: u32, stored: &[u16], raster: &mut [u16]) -> Written {
    unsafe { nettlestair_from_block_order(n, stored.as_ptr(), stored.len(), raster.as_mut_ptr(), raster.len()) }
}

/// The merged list of one block list laid over another, whose every pixel has the larger of the two colours: 0, or 1, 2 to 7 of the
/// first list, 2 to 7 of the second, 8. Each of the three lists written has room for 4^n entries. Several lists laid over one another
/// give one list, whatever their order and grouping.
#[allow(clippy::too_many_arguments)]
pub fn overlay(
    n: u32,
    first_codes: &[u32],
    first_levels: &[u8],
    first_colours: &[u16],
    second_codes: &[u32],
    second_levels: &[u8],
    second_colours: &[u16],
    codes: &mut [u32],
    levels: &mut [u8],
    colours: &mut [u16],
) -> Written {
    unsafe {
        nettlestair_overlay(
            n,
            first_codes.as_ptr(),
            first_codes.len(),
            first_levels.as_ptr(),
            first_levels.len(),
            first_colours.as_ptr(),
            first_colours.len(),
            second_codes.as_ptr(),
            second_codes.len(),
            second_levels.as_ptr(),
            second_levels.len(),
            second_colours.as_ptr(),
            second_colours.len(),
            codes.as_mut_ptr(),
            codes.len(),
            levels.as_mut_ptr(),
            levels.len(),
            colours.as_mut_ptr(),
            colours.len(),
        )
    }
}

/// The merged list of a block list's image with the pixel (x, y) alone changed to a colour, which may be the one that it has: 0, or 1
/// to 7, 21 where x or y is not below 2^n, 8. Each of the three new lists has room for 4^n entries. The number of regions moves by at
/// most 4, that of the unit edges of all outlines by at most 8.
#[allow(clippy::too_many_arguments)]
pub fn touch_up(
    n: u32,
    codes: &[u32],
    levels: &[u8],
    colours: &[u16],
    x: u32,
    y: u32,
    colour: u16,
    new_codes: &mut [u32],
    new_levels: &mut [u8],
    new_colours: &mut [u16],
) -> Written {
    unsafe {
        nettlestair_touch_up(
            n,
            codes.as_ptr(),
            codes.len(),
            levels.as_ptr(),
            levels.len(),
            colours.as_ptr(),
            colours.len(),
            x,
            y,
            colour,
            new_codes.as_mut_ptr(),
            new_codes.len(),
            new_levels.as_mut_ptr(),
            new_levels.len(),
            new_colours.as_mut_ptr(),
            new_colours.len(),
        )
    }
}

/// The region number of each block, at its place in the labels, and how many regions there are: 0, or 1 to 8. The labels have
/// room for one entry a block, the work list for 2 times 4^n; on acceptance that many of its entries are 0.
pub fn number(n: u32, codes: &[u32], levels: &[u8], colours: &[u16], labels: &mut [u32], work: &mut [u32]) -> Numbered {
    unsafe {
        nettlestair_number(
            n,
            codes.as_ptr(),
            codes.len(),
            levels.as_ptr(),
            levels.len(),
            colours.as_ptr(),
            colours.len(),
            labels.as_mut_ptr(),
            labels.len(),
            work.as_mut_ptr(),
            work.len(),
        )
    }
}

/// Judges an order of region numbers in which areas are cut from the inside out: 0 where each surrounded region comes before each region
/// that surrounds it, or 1 to 8, 19 where the order is not every region once, 20 where a region stands before one it surrounds. A region
/// surrounds another if no path from the other through pixels outside it, with diagonal steps allowed, reaches a pixel at the image's
/// edge. Labels and work list are as for `number`, and are written with 19 and 20 too.
pub fn check_order(
    n: u32,
    codes: &[u32],
    levels: &[u8],
    colours: &[u16],
    order: &[u32],
    labels: &mut [u32],
    work: &mut [u32],
) -> u32 {
    unsafe {
        nettlestair_check_order(
            n,
            codes.as_ptr(),
            codes.len(),
            levels.as_ptr(),
            levels.len(),
            colours.as_ptr(),
            colours.len(),
            order.as_ptr(),
            order.len(),
            labels.as_mut_ptr(),
            labels.len(),
            work.as_mut_ptr(),
            work.len(),
        )
    }
}

/// Of all orders that `check_order` answers 0 to, the one with the least number at the first place, then at the second, and so on, and
/// how many regions it has: 0, or 1 to 8. Labels and work list are as for `number`. The order has room for one entry a block, and is
/// filled up to the number of regions.
pub fn least_order(
    n: u32,
    codes: &[u32],
    levels: &[u8],
    colours: &[u16],
    labels: &mut [u32],
    work: &mut [u32],
    order: &mut [u32],
) -> Written {
    unsafe {
        nettlestair_least_order(
            n,
            codes.as_ptr(),
            codes.len(),
            levels.as_ptr(),
            levels.len(),
            colours.as_ptr(),
            colours.len(),
            labels.as_mut_ptr(),
            labels.len(),
            work.as_mut_ptr(),
            work.len(),
            order.as_mut_ptr(),
            order.len(),
        )
    }
}

/// The outlines of all regions: 0, or 1 to 8. Labels and work list are as for `number`. For each cycle the owners hold its region,
/// the ends the index after its last corner and the areas its signed area; the corners, y times 512 plus x each, stand cycle after
/// cycle. An area is the sum over the cycle's unit edges of x times the change of y: above zero for a region's first cycle, below
/// zero for its other ones. The areas of a region's cycles add to its number of pixels, those of all cycles to 4^n. Owners, ends and
/// areas have room for 4^n entries each, the corners for 4 times 4^n.
#[allow(clippy::too_many_arguments)]
pub fn trace(
    n: u32,
    codes: &[u32],
    levels: &[u8],
    colours: &[u16],
    labels: &mut [u32],
    work: &mut [u32],
    owners: &mut [u32],
    ends: &mut [u32],
    corners: &mut [u32],
    areas: &mut [i32],
) -> Traced {
    unsafe {
        nettlestair_trace(
            n,
            codes.as_ptr(),
            codes.len(),
            levels.as_ptr(),
            levels.len(),
            colours.as_ptr(),
            colours.len(),
            labels.as_mut_ptr(),
            labels.len(),
            work.as_mut_ptr(),
            work.len(),
            owners.as_mut_ptr(),
            owners.len(),
            ends.as_mut_ptr(),
            ends.len(),
            corners.as_mut_ptr(),
            corners.len(),
            areas.as_mut_ptr(),
            areas.len(),
        )
    }
}

/// The block list that given outlines came from: 0, or 1, 8, 18 where no accepted block list of this n has these counts, owners, ends,
/// corners and region colours. Counts and lists are as `trace` gives them, without the areas; the region colours have one entry a region.
/// Entries beyond the counts are not looked at; a list that is shorter than its count is 18. Traced, the block list gives the same
/// outlines. Each of the three lists written has room for 4^n entries, the work list for 8 times 4^n; the first of them, 8 times 4^n, are 0
/// after 0 and after 18.
#[allow(clippy::too_many_arguments)]
pub fn blocks_from_outlines(
    n: u32,
    regions: u32,
    cycles: u32,
    corner_count: u32,
    owners: &[u32],
    ends: &[u32],
    corners: &[u32],
    region_colours: &[u16],
    codes: &mut [u32],
    levels: &mut [u8],
    colours: &mut [u16],
    work: &mut [u32],
) -> Written {
    unsafe {
        nettlestair_blocks_from_outlines(
            n,
            regions,
            cycles,
            corner_count,
            owners.as_ptr(),
            owners.len(),
            ends.as_ptr(),
            ends.len(),
            corners.as_ptr(),
            corners.len(),
            region_colours.as_ptr(),
            region_colours.len(),
            codes.as_mut_ptr(),
            codes.len(),
            levels.as_mut_ptr(),
            levels.len(),
            colours.as_mut_ptr(),
            colours.len(),
            work.as_mut_ptr(),
            work.len(),
        )
    }
}

/// Where the corners of cycle k stand in a corner list, by an end list and a cycle count; the empty part at 0 where there are
/// none.
pub fn cycle(corners: &[u32], ends: &[u32], count: u32, k: u32) -> Stretch {
    unsafe { nettlestair_cycle(corners.as_ptr(), corners.len(), ends.as_ptr(), ends.len(), count, k) }
}

/// Opens the outline of a cycle at the cutter, behind those that are open: 0, or 22 where the cycle is not below the count of cycles, 23
/// where it is already open, 24 where eight are open. On acceptance the unused places of the next state are 0. A closed outline may be
/// opened again: it begins with its first corner.
pub fn open(state: State, cycle: u32, count: u32) -> Opened {
    unsafe { nettlestair_open(state, cycle, count) }
}

/// Serves the open outline at the front: hands out the corners that are due, 16 at most, in order. Due are those of the cycle's stretch
/// (`cycle`) in the lists and the count lent for this turn, less those already handed out. If more is due the outline goes to the back, else
/// it closes. Where none is open, none is served, with count, cycle and places 0 and the state as it was; else the unused places of the next
/// state are 0. As long as every opening and turn, from the fresh state on, is lent the lists and counts of one accepted tracing, every open
/// outline gets corners within eight turns, whatever is opened meanwhile; with other lists an outline that has nothing due closes with
/// count 0.
pub fn turn(state: State, corners: &[u32], ends: &[u32], count: u32) -> Turned {
    unsafe { nettlestair_turn(state, corners.as_ptr(), corners.len(), ends.as_ptr(), ends.len(), count) }
}

/// One outline as SVG path data: 0, or 16, 8. The text has room for 9 bytes and 4 a corner. A corner is y times 512 plus x.
pub fn svg(corners: &[u32], text: &mut [u8]) -> Written {
    unsafe { nettlestair_svg(corners.as_ptr(), corners.len(), text.as_mut_ptr(), text.len()) }
}

/// The corners of a chain code from its start corner, y times 512 plus x: 0, or 17, 8. The list has room for them.
pub fn read_chain(start: u32, chain: &[u8], corners: &mut [u32]) -> Written {
    unsafe { nettlestair_read_chain(start, chain.as_ptr(), chain.len(), corners.as_mut_ptr(), corners.len()) }
}

/// Reads a binary PGM of any length into the raster, row by row, north row first: 0, or 10 to 14, 8 with zeros beside it. A sample
/// is one byte for a maxval up to 255 and two above it, the most significant first. The raster has room for 4^n entries.
pub fn read_pgm(bytes: &[u8], raster: &mut [u16]) -> Picture {
    unsafe { nettlestair_read_pgm(bytes.as_ptr(), bytes.len(), raster.as_mut_ptr(), raster.len()) }
}
