//! Block lists: the check, raster to blocks, blocks to raster, one list over another, one pixel touched up.

use super::location::place;
use crate::nettlestair::Written;
use crate::sides::{Blocks, Speck};

/// Causes 1 to 7, in one pass over the blocks.
pub fn check(n: u32, blocks: Blocks) -> u32 {
    if n > 8 {
        return 1;
    }
    let Blocks { codes, levels, colours } = blocks;
    if codes.len() != levels.len() || levels.len() != colours.len() {
        return 2;
    }
    let whole = 1 << (2 * n);
    let mut sum = 0;
    // How many blocks up to here have one level and one colour, and whether four of them are siblings.
    let (mut run, mut before, mut siblings) = (0, (u32::MAX, 0), false);
    for (code, level, colour) in blocks.iter() {
        let level = u32::from(level);
        if level > n {
            return 3;
        }
        if code != sum || sum == whole {
            return 4;
        }
        let pixels = 1 << (2 * level);
        if code & (pixels - 1) != 0 {
            return 5;
        }
        sum += pixels;
        run = if before == (level, colour) { run + 1 } else { 1 };
        before = (level, colour);
        siblings |= run >= 4 && (code >> (2 * level)) & 3 == 3;
    }
    if sum < whole {
        return 6;
    }
    if siblings {
        return 7;
    }
    0
}

/// The merged block list of a raster: at each code the block grows while the three squares beside it have its colour.
pub fn blocks_from_raster(
    n: u32,
    raster: &[u16],
    codes: &mut [u32],
    levels: &mut [u8],
    colours: &mut [u16],
) -> Written {
    if n > 8 {
        return Written::refused(1);
    }
    let whole = 1 << (2 * n);
    if raster.len() != whole {
        return Written::refused(9);
    }
    if codes.len() < whole || levels.len() < whole || colours.len() < whole {
        return Written::refused(8);
    }
    merge(n, raster, |colour| colour, codes, levels, colours)
}

/// The merged block list of what stands in rows of 2^n, with the colour that each entry has; a square of one colour has equal entries. The
/// lists have room.
pub fn merge<T: Copy + PartialEq>(
    n: u32,
    cells: &[T],
    colour: impl Fn(T) -> u16,
    codes: &mut [u32],
    levels: &mut [u8],
    colours: &mut [u16],
) -> Written {
    let (mut code, mut count) = (0, 0);
    while (code as usize) < cells.len() {
        let at = place(n, code);
        let level = level_at(n, cells, code, at);
        codes[count] = code;
        levels[count] = level as u8;
        colours[count] = colour(cells[at]);
        count += 1;
        code += 1 << (2 * level);
    }
    Written { number: 0, count: count as u32 }
}

/// The level of the block that starts at a code, whose pixel stands at the place `at`.
fn level_at<T: Copy + PartialEq>(n: u32, cells: &[T], code: u32, at: usize) -> u32 {
    let top = n.min(code.trailing_zeros() / 2);
    let side = 1 << n;
    let cell = cells[at];
    let alike =
        |from: usize, s: usize| cells[from..].chunks(side).take(s).all(|row| row[..s].iter().all(|&c| c == cell));
    (0..top)
        .find(|level| {
            let s = 1 << level;
            let south = at + (s << n);
            !(alike(at + s, s) && alike(south, s) && alike(south + s, s))
        })
        .unwrap_or(top)
}

/// The raster of a block list.
pub fn raster_from_blocks(n: u32, blocks: Blocks, raster: &mut [u16]) -> Written {
    let fault = check(n, blocks);
    if fault != 0 {
        return Written::refused(fault);
    }
    let whole = 1 << (2 * n);
    if raster.len() < whole {
        return Written::refused(8);
    }
    for (code, level, colour) in blocks.iter() {
        fill_square(raster, n, place(n, code), level, colour);
    }
    Written { number: 0, count: whole as u32 }
}

/// The merged list of one list laid over another: both painted, the larger colour taken at each place, and merged.
pub fn overlay(
    n: u32,
    first: Blocks,
    second: Blocks,
    codes: &mut [u32],
    levels: &mut [u8],
    colours: &mut [u16],
) -> Written {
    let (mut raster, mut other) = ([0; 65_536], [0; 65_536]);
    for (blocks, raster) in [(first, &mut raster), (second, &mut other)] {
        let painted = raster_from_blocks(n, blocks, raster);
        if painted.number != 0 {
            return painted;
        }
    }
    let raster = &mut raster[..1 << (2 * n)];
    for (colour, &other) in raster.iter_mut().zip(&other) {
        *colour = other.max(*colour);
    }
    blocks_from_raster(n, raster, codes, levels, colours)
}

/// The merged list of an image with one pixel changed: the list painted, the pixel set, and merged.
pub fn touch_up(
    n: u32,
    blocks: Blocks,
    speck: Speck,
    codes: &mut [u32],
    levels: &mut [u8],
    colours: &mut [u16],
) -> Written {
    let mut raster = [0; 65_536];
    let painted = raster_from_blocks(n, blocks, &mut raster);
    if painted.number != 0 {
        return painted;
    }
    let Speck { x, y, colour } = speck;
    if x >= 1 << n || y >= 1 << n {
        return Written::refused(21);
    }
    raster[(y << n | x) as usize] = colour;
    blocks_from_raster(n, &raster[..1 << (2 * n)], codes, levels, colours)
}

/// Stores `value` in the square of side 2^level at the place `at`, in rows of 2^n.
pub fn fill_square<T: Copy>(cells: &mut [T], n: u32, at: usize, level: u8, value: T) {
    if level == 0 {
        cells[at] = value;
        return;
    }
    let side = 1 << level;
    for row in cells[at..].chunks_mut(1 << n).take(side) {
        row[..side].fill(value);
    }
}
