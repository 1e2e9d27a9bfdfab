//! One pixel touched up (document 02, j): the list painted, the pixel set, and the raster merged again.

use super::blocks::{number, paint, quadtree, Blocks};
use std::fmt::{Display, Formatter};

/// A pixel, and the colour that it gets.
#[derive(Clone, Copy, Debug, PartialEq, Eq)]
pub struct Speck {
    pub x: u32,
    pub y: u32,
    pub colour: u16,
}

impl Display for Speck {
    fn fmt(&self, f: &mut Formatter) -> std::fmt::Result {
        write!(f, "({}, {}) in colour {}", self.x, self.y, self.colour)
    }
}

/// "the image with that pixel alone changed", whose place is y times 2^n plus x.
pub fn repainted(n: u32, raster: &[u16], speck: Speck) -> Vec<u16> {
    let mut raster = raster.to_vec();
    raster[(speck.y << n) as usize + speck.x as usize] = speck.colour;
    raster
}

/// The merged list with lists of these lengths lent for codes, levels and colours, or the number of a refusal: "1 to 7, then new 21 (x
/// or y not below 2^n), then 8 for output lists of 4^n".
pub fn touch_up(n: u32, blocks: &Blocks, speck: Speck, lengths: [usize; 3]) -> Result<Blocks, u32> {
    let fault = number(n, &blocks.codes, &blocks.levels, &blocks.colours);
    if fault != 0 {
        return Err(fault);
    }
    if [speck.x, speck.y].into_iter().any(|z| u64::from(z) >= 1 << n) {
        return Err(21);
    }
    if lengths.iter().any(|&length| length < 1 << (2 * n)) {
        return Err(8);
    }
    Ok(quadtree(n, &repainted(n, &paint(n, blocks), speck)))
}

/// How many sides of pixels have another colour beyond them, or the outside of the image: the directed unit edges over all regions.
pub fn unit_edges(n: u32, raster: &[u16]) -> usize {
    let side = 1 << n;
    let colour = |x: usize, y: usize| (x < side && y < side).then(|| raster[y * side + x]);
    let around = |x: usize, y: usize| {
        [(x, y.wrapping_sub(1)), (x + 1, y), (x, y + 1), (x.wrapping_sub(1), y)].map(|(x, y)| colour(x, y))
    };
    let of_pixel = |x: usize, y: usize| around(x, y).into_iter().filter(|beyond| *beyond != colour(x, y)).count();
    (0..raster.len()).map(|place| of_pixel(place % side, place / side)).sum()
}

#[cfg(test)]
mod tests {
    use super::*;
    use crate::figures::{FIGURE_5A, FIGURE_5B};

    /// The pixel (2, 1) has code 6. A block parts around it, and grows together again.
    #[test]
    fn four_by_four() {
        let one = Blocks::of(&[(0, 2, 5)]);
        let parted = Blocks::of(&[(0, 1, 5), (4, 0, 5), (5, 0, 5), (6, 0, 9), (7, 0, 5), (8, 1, 5), (12, 1, 5)]);
        let in_colour = |colour: u16| Speck { x: 2, y: 1, colour };
        assert_eq!(touch_up(2, &one, in_colour(9), [16; 3]), Ok(parted.clone()));
        assert_eq!(touch_up(2, &parted, in_colour(9), [16; 3]), Ok(parted.clone()));
        assert_eq!(touch_up(2, &parted, in_colour(5), [16; 3]), Ok(one));
    }

    #[test]
    fn refusals_in_order() {
        let answers = |n: u32, level: u8, x: u32, y: u32, length: usize| {
            touch_up(n, &Blocks::of(&[(0, level, 1)]), Speck { x, y, colour: 1 }, [9, length, 9])
        };
        assert_eq!(answers(1, 1, 1, 1, 4), Ok(Blocks::of(&[(0, 1, 1)])));
        assert_eq!(answers(1, 1, 1, 1, 3), Err(8));
        assert_eq!(answers(1, 1, 2, 1, 3), Err(21));
        assert_eq!(answers(1, 1, 1, 2, 4), Err(21));
        assert_eq!(answers(1, 1, u32::MAX, u32::MAX, 4), Err(21));
        assert_eq!(answers(1, 0, 2, 2, 3), Err(6));
        assert_eq!(answers(9, 9, 512, 512, 0), Err(1));
    }

    #[test]
    fn edges_of_figures() {
        assert_eq!(unit_edges(0, &[7]), 4);
        assert_eq!(unit_edges(1, &[7; 4]), 8);
        assert_eq!(unit_edges(1, &[1, 2, 2, 1]), 16);
        // 16 and 8 around A, 8 around B
        assert_eq!(unit_edges(2, &FIGURE_5A), 32);
        // 4 + 2 + 2 + 1 + 1 + 1 + 1 + 2 + 2 + 4 around A, 4 and 8 around the others
        assert_eq!(unit_edges(2, &FIGURE_5B), 32);
    }
}
