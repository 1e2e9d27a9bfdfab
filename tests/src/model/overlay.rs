//! Block lists laid over one another (document 02, b and l): painted, and the larger or the largest colour taken pixel by pixel.

use super::blocks::{number, paint, quadtree, Blocks};

/// The larger colour of each pixel of two rasters.
pub fn larger(first: &[u16], second: &[u16]) -> Vec<u16> {
    first.iter().zip(second).map(|(&a, &b)| if a < b { b } else { a }).collect()
}

/// The largest colour of each pixel of some rasters of one size.
pub fn largest(rasters: &[Vec<u16>]) -> Vec<u16> {
    let colours = |place: usize| rasters.iter().map(move |raster| raster[place]);
    (0..rasters[0].len()).filter_map(|place| colours(place).max()).collect()
}

/// The merged list with lists of these lengths lent for codes, levels and colours, or the number of a refusal: "1, then 2 to 7 on the
/// first list, 2 to 7 on the second, then 8 for three lists of 4^n".
pub fn overlay(n: u32, first: &Blocks, second: &Blocks, lengths: [usize; 3]) -> Result<Blocks, u32> {
    for blocks in [first, second] {
        let fault = number(n, &blocks.codes, &blocks.levels, &blocks.colours);
        if fault != 0 {
            return Err(fault);
        }
    }
    if lengths.iter().any(|&length| length < 1 << (2 * n)) {
        return Err(8);
    }
    Ok(quadtree(n, &larger(&paint(n, first), &paint(n, second))))
}

#[cfg(test)]
mod tests {
    use super::*;

    #[test]
    fn two_by_two() {
        let list = |colours: [u16; 4]| quadtree(1, &colours);
        let one = |colour: u16| Blocks::of(&[(0, 1, colour)]);
        assert_eq!(overlay(1, &list([1, 2, 2, 2]), &list([2, 1, 1, 1]), [4; 3]), Ok(one(2)));
        assert_eq!(overlay(1, &list([255, 256, 255, 256]), &one(256), [4; 3]), Ok(one(256)));
        assert_eq!(overlay(1, &one(257), &list([256, 257, 258, 1]), [4; 3]), Ok(list([257, 257, 258, 257])));
        assert_eq!(overlay(1, &one(1), &one(2), [4, 3, 4]), Err(8));
    }

    #[test]
    fn largest_of_three() {
        let rasters = [[9, 1, 2, 0], [3; 4], [0, 0, 2, 5]].map(|raster| raster.to_vec());
        assert_eq!(largest(&rasters), [9, 3, 3, 5]);
        assert_eq!(largest(&rasters[2..]), [0, 0, 2, 5]);
    }

    /// The first list's number before the second's.
    #[test]
    fn faults_in_order() {
        let list = |level: u8| Blocks::of(&[(0, level, 1)]);
        let answers = |n: u32, first: u8, second: u8| overlay(n, &list(first), &list(second), [0; 3]);
        assert_eq!(answers(1, 2, 0), Err(3));
        assert_eq!(answers(1, 0, 2), Err(6));
        assert_eq!(answers(1, 1, 2), Err(3));
        assert_eq!(answers(1, 1, 1), Err(8));
        assert_eq!(answers(9, 0, 0), Err(1));
    }
}
