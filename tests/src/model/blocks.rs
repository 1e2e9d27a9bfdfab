//! Block lists and rasters: squares by coordinates, from the top down, and a list judged by the set of pixels that it covers.

use crate::compare::Shown;
use std::collections::HashMap;
use std::fmt::{Display, Formatter, Result};

/// A block list: codes, levels, colours.
#[derive(Clone, Debug, Default, PartialEq, Eq)]
pub struct Blocks {
    pub codes: Vec<u32>,
    pub levels: Vec<u8>,
    pub colours: Vec<u16>,
}

impl Blocks {
    /// The list of these blocks: code, level, colour.
    pub fn of(rows: &[(u32, u8, u16)]) -> Blocks {
        let mut blocks = Blocks::default();
        for &(code, level, colour) in rows {
            blocks.push(code, level, colour);
        }
        blocks
    }

    pub fn push(&mut self, code: u32, level: u8, colour: u16) {
        self.codes.push(code);
        self.levels.push(level);
        self.colours.push(colour);
    }

    pub fn len(&self) -> usize {
        self.codes.len()
    }

    pub fn is_empty(&self) -> bool {
        self.codes.is_empty()
    }
}

impl Display for Blocks {
    fn fmt(&self, f: &mut Formatter) -> Result {
        let Blocks { codes, levels, colours } = self;
        write!(f, "codes {}, levels {}, colours {}", Shown(codes), Shown(levels), Shown(colours))
    }
}

/// "The lowest digit of x is worth 1, the lowest of y 2, the next of x 4, the next of y 8, and so on."
pub fn location_code(x: u32, y: u32) -> u32 {
    (0..16).map(|i| (x >> i & 1) * 4u32.pow(i) + (y >> i & 1) * 2 * 4u32.pow(i)).sum()
}

/// The pixel (x, y) with a location code.
pub fn pixel(code: u32) -> (u32, u32) {
    let digits = |from: u32| (0..16).map(|i| (code >> (2 * i + from) & 1) << i).sum();
    (digits(0), digits(1))
}

/// A square of pixels: its northwest one and its side.
#[derive(Clone, Copy)]
struct Square {
    x: usize,
    y: usize,
    side: usize,
}

impl Square {
    /// "So the quadrants come in the order northwest, northeast, southwest, southeast."
    fn quadrants(self) -> [Square; 4] {
        let Square { x, y, side } = self;
        let half = side / 2;
        [(x, y), (x + half, y), (x, y + half), (x + half, y + half)].map(|(x, y)| Square { x, y, side: half })
    }

    fn pixels(self) -> impl Iterator<Item = (usize, usize)> {
        (self.y..self.y + self.side).flat_map(move |y| (self.x..self.x + self.side).map(move |x| (x, y)))
    }
}

/// Section 2's quadtree of a raster of side 2^n: a square of one colour is a block, any other is its four quadrants.
pub fn quadtree(n: u32, raster: &[u16]) -> Blocks {
    let mut blocks = Blocks::default();
    decompose(1 << n, raster, Square { x: 0, y: 0, side: 1 << n }, &mut blocks);
    blocks
}

fn decompose(width: usize, raster: &[u16], square: Square, blocks: &mut Blocks) {
    let colour = raster[square.y * width + square.x];
    if square.pixels().all(|(x, y)| raster[y * width + x] == colour) {
        let level = square.side.trailing_zeros() as u8;
        blocks.push(location_code(square.x as u32, square.y as u32), level, colour);
    } else {
        for quadrant in square.quadrants() {
            decompose(width, raster, quadrant, blocks);
        }
    }
}

/// The raster that an accepted list of an image of side 2^n paints: each block is a square filled with its colour.
pub fn paint(n: u32, blocks: &Blocks) -> Vec<u16> {
    let width = 1usize << n;
    let mut raster = vec![0; width * width];
    for i in 0..blocks.len() {
        let (x, y) = pixel(blocks.codes[i]);
        let square = Square { x: x as usize, y: y as usize, side: 1 << blocks.levels[i] };
        for (x, y) in square.pixels() {
            raster[y * width + x] = blocks.colours[i];
        }
    }
    raster
}

/// The number of a block list by the table "When the answer is a number", causes 1 to 7.
pub fn number(n: u32, codes: &[u32], levels: &[u8], colours: &[u16]) -> u32 {
    if n > 8 {
        return 1;
    }
    if [levels.len(), colours.len()] != [codes.len(), codes.len()] {
        return 2;
    }
    let mut covered = vec![false; 1 << (2 * n)];
    let mut count = 0;
    for (&code, &level) in codes.iter().zip(levels) {
        let fault = cover(n, code, level, &mut covered, &mut count);
        if fault != 0 {
            return fault;
        }
    }
    if covered.contains(&false) {
        return 6;
    }
    if has_equal_siblings(n, codes, levels, colours) {
        return 7;
    }
    0
}

/// Causes 3, 4 and 5 of one block; without one its pixels join the covered ones, of which there are `count`.
fn cover(n: u32, code: u32, level: u8, covered: &mut [bool], count: &mut u64) -> u32 {
    if u32::from(level) > n {
        return 3;
    }
    if u64::from(code) != *count || *count == covered.len() as u64 {
        return 4;
    }
    let (x, y) = pixel(code);
    let side = 1 << level;
    if x % side != 0 || y % side != 0 {
        return 5;
    }
    let square = Square { x: x as usize, y: y as usize, side: side as usize };
    for (x, y) in square.pixels() {
        let place = (y << n) + x;
        assert!(!covered[place], "a pixel is covered twice");
        covered[place] = true;
        *count += 1;
    }
    0
}

/// Cause 7 in a list that covers each pixel once: some square has four quadrants that are blocks of one colour.
fn has_equal_siblings(n: u32, codes: &[u32], levels: &[u8], colours: &[u16]) -> bool {
    let blocks: HashMap<(u32, u32, u8), u16> =
        codes.iter().zip(levels).zip(colours).map(|((&c, &l), &k)| ((pixel(c).0, pixel(c).1, l), k)).collect();
    blocks.iter().any(|(&(x, y, level), &colour)| {
        let side = 1u32 << level;
        let is = |x, y| blocks.get(&(x, y, level)) == Some(&colour);
        u32::from(level) < n
            && x % (2 * side) == 0
            && y % (2 * side) == 0
            && is(x + side, y)
            && is(x, y + side)
            && is(x + side, y + side)
    })
}

/// The causes of the table whose condition holds somewhere in a list, each asked of the whole list by itself, whatever the
/// others say. Blocks are those that all three lists have.
pub fn conditions(n: u32, codes: &[u32], levels: &[u8], colours: &[u16]) -> Vec<u32> {
    let power = |e: u32| 4u128.checked_pow(e).unwrap_or(u128::MAX);
    let blocks: Vec<(u128, u32, u16)> =
        codes.iter().zip(levels).zip(colours).map(|((&c, &l), &k)| (u128::from(c), u32::from(l), k)).collect();
    let sums: Vec<u128> = (0..=blocks.len())
        .map(|i| blocks[..i].iter().fold(0u128, |sum, &(_, level, _)| sum.saturating_add(power(level))))
        .collect();
    let four_alike = |b: &[(u128, u32, u16)]| {
        b.iter().all(|&(_, l, k)| (l, k) == (b[0].1, b[0].2)) && b[0].1 < n && b[0].0 % power(b[0].1 + 1) == 0
    };
    let holds = [
        n > 8,
        codes.len() != levels.len() || levels.len() != colours.len(),
        blocks.iter().any(|&(_, level, _)| level > n),
        blocks.iter().zip(&sums).any(|(&(code, _, _), &sum)| code != sum || sum == power(n)),
        blocks.iter().any(|&(code, level, _)| code % power(level) != 0),
        sums[blocks.len()] < power(n),
        blocks.windows(4).any(four_alike),
    ];
    (1..).zip(holds).filter_map(|(number, holds)| holds.then_some(number)).collect()
}

#[cfg(test)]
mod tests {
    use super::*;

    #[test]
    fn interleaves_as_the_document_says() {
        assert_eq!((location_code(1, 0), location_code(0, 1), location_code(2, 0), location_code(0, 2)), (1, 2, 4, 8));
        assert_eq!(location_code(65535, 65535), u32::MAX);
        for code in (0..70_000).chain([u32::MAX, u32::MAX / 3, 1 << 31]) {
            let (x, y) = pixel(code);
            assert_eq!(location_code(x, y), code);
        }
    }

    #[test]
    fn figure_5b() {
        // also with colours that differ in the high byte alone, or in the low byte alone
        for [a, b, c] in [[1, 2, 3], [1, 257, 513], [0xFF01, 0xFF02, 0xFF03]] {
            let raster = [a, a, a, a, a, b, a, a, a, a, c, c, a, a, c, c];
            let blocks = Blocks {
                codes: vec![0, 1, 2, 3, 4, 8, 12],
                levels: vec![0, 0, 0, 0, 1, 1, 1],
                colours: vec![a, a, a, b, a, a, c],
            };
            assert_eq!(quadtree(2, &raster), blocks);
            assert_eq!(paint(2, &blocks), raster);
            assert_eq!(number(2, &blocks.codes, &blocks.levels, &blocks.colours), 0);
        }
    }
}
