//! Regions and their numbers: a flood fill over the pixels, from each pixel in rising location code that has no number yet.

use super::blocks::{pixel, Blocks};

/// Which region each pixel is in, row by row, and how many regions there are.
#[derive(Clone, Debug, PartialEq, Eq)]
pub struct Regions {
    n: u32,
    numbers: Vec<u32>,
    pub count: u32,
}

const NONE: u32 = u32::MAX;

impl Regions {
    /// The regions of a raster of side 2^n.
    pub fn of(n: u32, raster: &[u16]) -> Regions {
        let mut regions = Regions { n, numbers: vec![NONE; raster.len()], count: 0 };
        for code in 0..raster.len() as u32 {
            let (x, y) = pixel(code);
            if regions.numbers[regions.place(x, y)] == NONE {
                regions.flood(raster, x, y);
                regions.count += 1;
            }
        }
        regions
    }

    /// Gives the next number to all that a path of one colour joins to (x, y), stepping north, east, south or west.
    fn flood(&mut self, raster: &[u16], x: u32, y: u32) {
        let last = (1 << self.n) - 1;
        let colour = raster[self.place(x, y)];
        let mut reached = vec![(x, y)];
        while let Some((x, y)) = reached.pop() {
            let place = self.place(x, y);
            if raster[place] != colour || self.numbers[place] != NONE {
                continue;
            }
            self.numbers[place] = self.count;
            let around = [(x, y.wrapping_sub(1)), (x + 1, y), (x, y + 1), (x.wrapping_sub(1), y)];
            reached.extend(around.into_iter().filter(|&(x, y)| x <= last && y <= last));
        }
    }

    fn place(&self, x: u32, y: u32) -> usize {
        (y << self.n | x) as usize
    }

    /// The side of the image in pixels.
    pub fn side(&self) -> u32 {
        1 << self.n
    }

    /// The region of a pixel; outside the image belongs to none.
    pub fn at(&self, x: i64, y: i64) -> Option<u32> {
        let inside = 0..i64::from(self.side());
        (inside.contains(&x) && inside.contains(&y)).then(|| self.numbers[self.place(x as u32, y as u32)])
    }

    /// The region number of each block: that of any of its pixels.
    pub fn labels(&self, blocks: &Blocks) -> Vec<u32> {
        let northwest = blocks.codes.iter().map(|&code| pixel(code));
        northwest.map(|(x, y)| self.numbers[self.place(x, y)]).collect()
    }
}

#[cfg(test)]
mod tests {
    use super::*;

    #[test]
    fn corners_join_nothing() {
        for raster in [[1, 2, 2, 1], [1, 257, 257, 1], [512, 513, 513, 512]] {
            let regions = Regions::of(1, &raster);
            assert_eq!((regions.count, regions.numbers), (4, vec![0, 1, 2, 3]));
        }
    }

    #[test]
    fn by_least_code_and_not_by_rows() {
        // the pixel (0, 1) has code 2, the pixel (2, 0) code 4
        #[rustfmt::skip]
        let raster = [
            0, 0, 7, 0,
            5, 0, 0, 0,
            0, 0, 0, 0,
            0, 0, 0, 0,
        ];
        let regions = Regions::of(2, &raster);
        assert_eq!((regions.at(0, 1), regions.at(2, 0), regions.count), (Some(1), Some(2), 3));
        assert_eq!((regions.at(-1, 0), regions.at(0, 4)), (None, None));
    }
}
