//! Cutting from the inside out: which region is around each, by the first cycle of each region; orders judged by marks, and the least one
//! found by how many regions are left inside each.

use super::blocks::{check, fill_square};
use super::location::{pixel, place};
use super::outlines::{Map, STEP, WALKED};
use super::regions::number_blocks;
use crate::nettlestair::Written;
use crate::sides::Blocks;
use std::mem;

/// 0 where each surrounded region comes before each region that surrounds it, else 1 to 8, 19 or 20.
pub fn check_order(n: u32, blocks: Blocks, order: &[u32], labels: &mut [u32], work: &mut [u32]) -> u32 {
    let fault = fault(n, blocks, labels.len(), work.len());
    if fault != 0 {
        return fault;
    }
    let (labels, work) = (&mut labels[..blocks.codes.len()], &mut work[..2 << (2 * n)]);
    let regions = number_blocks(n, blocks, labels, work) as usize;
    let number = if !each_once(order, &mut work[..regions]) {
        19
    } else if !inside_out(order, around(n, blocks, labels, regions, work)) {
        20
    } else {
        0
    };
    work.fill(0);
    number
}

/// Of all orders that are answered 0, the one with the least number at the first place, then at the second, and so on.
pub fn least_order(n: u32, blocks: Blocks, labels: &mut [u32], work: &mut [u32], order: &mut [u32]) -> Written {
    let fault = fault(n, blocks, labels.len(), work.len());
    if fault != 0 {
        return Written::refused(fault);
    }
    let count = blocks.codes.len();
    if order.len() < count {
        return Written::refused(8);
    }
    let (labels, work) = (&mut labels[..count], &mut work[..2 << (2 * n)]);
    let regions = number_blocks(n, blocks, labels, work) as usize;
    write_least(around(n, blocks, labels, regions, work), order);
    work.fill(0);
    Written { number: 0, count: regions as u32 }
}

/// Causes 1 to 8 of the lists that both functions are lent.
fn fault(n: u32, blocks: Blocks, labels: usize, work: usize) -> u32 {
    match check(n, blocks) {
        0 if labels < blocks.codes.len() || work < 2 << (2 * n) => 8,
        number => number,
    }
}

/// Whether an order has each region once. `seen` is scratch, one entry a region.
fn each_once(order: &[u32], seen: &mut [u32]) -> bool {
    if order.len() != seen.len() {
        return false;
    }
    seen.fill(0);
    order.iter().all(|&region| seen.get_mut(region as usize).is_some_and(|seen| mem::replace(seen, 1) == 0))
}

/// What the regions are like, one entry a region.
struct Around<'a> {
    /// One more than the number of the innermost region that surrounds it, 0 where there is none.
    outer: &'a [u32],
    /// Scratch, cleared.
    scratch: &'a mut [u32],
}

/// Finds the innermost region around each. Straight north of a region's least pixel lies a region of a smaller number, if any. It is around,
/// unless their common side is on its first cycle: then both have the same one around them.
fn around<'a>(n: u32, blocks: Blocks, labels: &[u32], regions: usize, work: &'a mut [u32]) -> Around<'a> {
    let (cells, outer) = work.split_at_mut(1 << (2 * n));
    let outer = &mut outer[..regions];
    for ((code, level, _), &label) in blocks.iter().zip(labels) {
        fill_square(cells, n, place(n, code), level, label);
    }
    let mut map = Map { n, cells };
    let mut region = 0;
    for (&code, &label) in blocks.codes.iter().zip(labels) {
        if label as usize == region {
            let (x, y) = pixel(code);
            outer[region] = match y.checked_sub(1).map(|y| map.cells[y << n | x]) {
                None => 0,
                Some(north) if north & WALKED == 0 => north + 1,
                Some(north) => outer[(north & !WALKED) as usize],
            };
            walk_first(&mut map, (y << 9 | x) as u32);
            region += 1;
        }
    }
    let scratch = &mut map.cells[..regions];
    scratch.fill(0);
    Around { outer, scratch }
}

/// Walks the cycle from the north side of a pixel and marks each pixel whose south side is on it.
fn walk_first(map: &mut Map, start: u32) {
    let region = map.cells[map.at(start)];
    let (mut pixel, mut direction) = (start, 0);
    loop {
        if direction == 2 {
            let at = map.at(pixel);
            map.cells[at] |= WALKED;
        }
        let ahead = pixel.wrapping_add(STEP[direction]);
        let left = (direction + 1) % 4;
        let beside = ahead.wrapping_add(STEP[left]);
        if !map.inside(ahead, region) {
            direction = (direction + 3) % 4;
        } else if !map.inside(beside, region) {
            pixel = ahead;
            continue;
        } else {
            (pixel, direction) = (beside, left);
        }
        if direction == 0 && pixel == start {
            return;
        }
    }
}

/// Whether no region stands before one that it surrounds, in an order of each region once.
fn inside_out(order: &[u32], around: Around) -> bool {
    let Around { outer, scratch: seen } = around;
    order.iter().all(|&region| {
        seen[region as usize] = 1;
        match outer[region as usize] {
            0 => true,
            outer => seen[outer as usize - 1] == 0,
        }
    })
}

/// Writes the least order: rising numbers, but each region that surrounds others straight after the last of these.
fn write_least(around: Around, order: &mut [u32]) {
    let Around { outer, scratch: left } = around;
    for &outer in outer.iter().filter(|&&outer| outer != 0) {
        left[outer as usize - 1] += 1;
    }
    let mut places = order.iter_mut();
    for region in 0..outer.len() {
        let mut next = region;
        while left[next] == 0 {
            *places.next().expect("a place for each region") = next as u32;
            if outer[next] == 0 {
                break;
            }
            next = outer[next] as usize - 1;
            left[next] -= 1;
        }
    }
}
