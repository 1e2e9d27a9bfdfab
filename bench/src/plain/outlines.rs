//! The outlines of all regions: a map of region numbers, the blocks of each region linked, and the rule of steps along each
//! cycle.

use super::blocks::{check, fill_square};
use super::location::{pixel, place};
use super::regions::number_blocks;
use crate::nettlestair::Traced;
use crate::sides::{Blocks, Lent};

/// Set in a map entry once the north side of its pixel is walked; for cutting orders, the south side.
pub const WALKED: u32 = 1 << 31;

/// One step east, north, west, south for pixels and corners kept as y times 512 plus x.
pub const STEP: [u32; 4] = [1, 0u32.wrapping_sub(512), 0u32.wrapping_sub(1), 512];

/// The tail of the edge that goes east, north, west, south around its pixel, less that pixel.
pub const TAIL: [u32; 4] = [0, 512, 513, 1];

pub fn trace(n: u32, blocks: Blocks, lent: Lent) -> Traced {
    let fault = check(n, blocks);
    if fault != 0 {
        return Traced::refused(fault);
    }
    let Lent { labels, work, owners, ends, corners, areas } = lent;
    let (whole, count) = (1usize << (2 * n), blocks.codes.len());
    if labels.len() < count
        || work.len() < 2 * whole
        || owners.len() < whole
        || ends.len() < whole
        || corners.len() < 4 * whole
        || areas.len() < whole
    {
        return Traced::refused(8);
    }
    let labels = &mut labels[..count];
    let regions = number_blocks(n, blocks, labels, work);

    let (map, links) = work[..2 * whole].split_at_mut(whole);
    for ((code, level, _), &label) in blocks.iter().zip(&*labels) {
        fill_square(map, n, place(n, code), level, label);
    }
    let links = &mut links[..count];
    link(labels, links, &mut owners[..regions as usize]);

    let (cycles, corners) = list(&mut Map { n, cells: map }, blocks, labels, links, owners, ends, corners, areas);
    work[..2 * whole].fill(0);
    Traced { number: 0, regions, cycles, corners }
}

/// Links each block to the next one of its region: one plus its index, 0 for none. `heads` is scratch, one entry a region.
fn link(labels: &[u32], links: &mut [u32], heads: &mut [u32]) {
    heads.fill(0);
    for (k, (&label, next)) in labels.iter().zip(links).enumerate().rev() {
        let head = &mut heads[label as usize];
        *next = *head;
        *head = k as u32 + 1;
    }
}

/// Lists the cycles region by region, each region's in rising code of their starts; returns how many cycles and corners.
#[allow(clippy::too_many_arguments)]
fn list(
    map: &mut Map,
    blocks: Blocks,
    labels: &[u32],
    links: &[u32],
    owners: &mut [u32],
    ends: &mut [u32],
    corners: &mut [u32],
    areas: &mut [i32],
) -> (u32, u32) {
    let (mut region, mut cycles, mut end) = (0, 0, 0);
    for (first, &label) in labels.iter().enumerate() {
        if label != region {
            continue;
        }
        let mut next = first as u32 + 1;
        while next != 0 {
            let block = next as usize - 1;
            let (x, y) = pixel(blocks.codes[block]);
            for x in x..x + (1 << blocks.levels[block]) {
                if map.starts(x, y) {
                    let (count, area) = map.walk((y << 9 | x) as u32, &mut corners[end..]);
                    end += count;
                    owners[cycles] = region;
                    ends[cycles] = end as u32;
                    areas[cycles] = area;
                    cycles += 1;
                }
            }
            next = links[block];
        }
        region += 1;
    }
    (cycles as u32, end as u32)
}

/// The region number of each pixel of an image of side 2^n, row by row, and the marks.
pub struct Map<'a> {
    pub n: u32,
    pub cells: &'a mut [u32],
}

impl Map<'_> {
    /// Whether the north side of a pixel is an edge that no cycle has walked yet.
    fn starts(&self, x: usize, y: usize) -> bool {
        let at = y << self.n | x;
        let cell = self.cells[at];
        cell & WALKED == 0 && (y == 0 || self.cells[at - (1 << self.n)] & !WALKED != cell)
    }

    /// Where a pixel kept as y times 512 plus x stands among the cells.
    pub fn at(&self, pixel: u32) -> usize {
        ((pixel >> 9) << self.n | (pixel & 511)) as usize
    }

    /// Whether a pixel, which may lie outside the image, is in a region.
    pub fn inside(&self, pixel: u32, region: u32) -> bool {
        let side = (1 << self.n) - 1;
        pixel & !(side << 9 | side) == 0 && self.cells[self.at(pixel)] & !WALKED == region
    }

    /// Walks the cycle from the north side of the pixel `start`, writes its corners and returns their number and its area.
    fn walk(&mut self, start: u32, corners: &mut [u32]) -> (usize, i32) {
        let region = self.cells[self.at(start)];
        let (mut pixel, mut direction, mut count, mut area) = (start, 0, 1, 0);
        corners[0] = start;
        loop {
            if direction == 0 {
                let at = self.at(pixel);
                self.cells[at] |= WALKED;
            }
            let ahead = pixel.wrapping_add(STEP[direction]);
            let left = (direction + 1) % 4;
            let beside = ahead.wrapping_add(STEP[left]);
            if !self.inside(ahead, region) {
                direction = (direction + 3) % 4;
            } else if !self.inside(beside, region) {
                pixel = ahead;
                continue;
            } else {
                (pixel, direction) = (beside, left);
            }
            let corner = pixel + TAIL[direction];
            if direction % 2 == 0 {
                // a run along y ends here
                area += (corner & 511) as i32 * ((corner >> 9) as i32 - (corners[count - 1] >> 9) as i32);
                if pixel == start && direction == 0 {
                    return (count, area);
                }
            }
            corners[count] = corner;
            count += 1;
        }
    }
}
