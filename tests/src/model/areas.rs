//! The area of each outline (document 02, c): the pixels that the outline encloses, found by a flood and counted one by one. It
//! shares nothing with the library, which adds up x times the change of y along the outline.

use super::outlines::Outlines;
use super::paths::{chain, point};

/// The area of each cycle.
pub fn areas(outlines: &Outlines) -> Vec<i32> {
    (0..outlines.len()).map(|k| area(outlines.cycle(k))).collect()
}

/// An outline has its region on the right. If it encloses the pixels on its right, it is an outer one, and its area is the number
/// of all pixels within. Else it is a hole's, encloses the pixels on its left, and its area is below zero. The floods begin at
/// these and not outside: an outline that meets itself at a point can shut pixels in that lie outside it (figure 5(b)).
fn area(corners: &[u32]) -> i32 {
    let frame = Frame::around(corners);
    match frame.enclosed(&frame.right) {
        Some(pixels) => pixels,
        None => -frame.enclosed(&frame.left).expect("an outline encloses the pixels on one of its sides"),
    }
}

/// The pixels of the smallest rectangle around an outline, with a margin of one pixel, row by row, and the outline's unit edges
/// between them.
struct Frame {
    width: usize,
    /// Whether each pixel's east, north, west and south side is an edge.
    edges: Vec<[bool; 4]>,
    /// The pixels on the right of the edges and those on the left.
    right: Vec<usize>,
    left: Vec<usize>,
}

impl Frame {
    fn around(corners: &[u32]) -> Frame {
        let (xs, ys): (Vec<u32>, Vec<u32>) = corners.iter().map(|&corner| point(corner)).unzip();
        let ends = |line: &[u32]| line.iter().fold((u32::MAX, 0), |(low, high), &z| (low.min(z), high.max(z)));
        let ((west, east), (north, south)) = (ends(&xs), ends(&ys));
        let [width, height] = [east - west, south - north].map(|length| length as usize + 2);
        let (right, left) = (Vec::new(), Vec::new());
        let mut frame = Frame { width, edges: vec![[false; 4]; width * height], right, left };
        // the pixel southeast of the point that is reached
        let mut at = (ys[0] - north + 1) as usize * width + (xs[0] - west + 1) as usize;
        for digit in chain(corners) {
            let [northwest, northeast, southwest, southeast] = [at - width - 1, at - width, at - 1, at];
            let (right, left, next) = match digit {
                b'0' => (southeast, northeast, at + 1),
                b'1' => (northeast, northwest, at - width),
                b'2' => (northwest, southwest, at - 1),
                _ => (southwest, southeast, at + width),
            };
            let direction = usize::from(digit - b'0');
            frame.edges[right][(direction + 1) % 4] = true;
            frame.edges[left][(direction + 3) % 4] = true;
            frame.right.push(right);
            frame.left.push(left);
            at = next;
        }
        frame
    }

    /// How many pixels can be reached from these by steps that cross no edge; `None` where the margin can.
    fn enclosed(&self, from: &[usize]) -> Option<i32> {
        let mut reached = vec![false; self.edges.len()];
        let mut pending = from.to_vec();
        let mut pixels = 0;
        while let Some(at) = pending.pop() {
            if self.is_margin(at) {
                return None;
            }
            if !reached[at] {
                reached[at] = true;
                pixels += 1;
                let around = [at + 1, at - self.width, at - 1, at + self.width];
                pending.extend((0..4).filter(|&side| !self.edges[at][side]).map(|side| around[side]));
            }
        }
        Some(pixels)
    }

    fn is_margin(&self, at: usize) -> bool {
        let (x, y) = (at % self.width, at / self.width);
        x == 0 || y == 0 || x == self.width - 1 || y == self.edges.len() / self.width - 1
    }
}

#[cfg(test)]
mod tests {
    use super::super::regions::Regions;
    use super::*;
    use crate::random::Random;
    use crate::rasters;

    /// "the sum over its unit edges of x times the change of y"
    fn sum(corners: &[u32]) -> i32 {
        let (mut x, mut sum) = (point(corners[0]).0 as i32, 0);
        for digit in chain(corners) {
            match digit {
                b'0' => x += 1,
                b'1' => sum -= x,
                b'2' => x -= 1,
                _ => sum += x,
            }
        }
        sum
    }

    #[test]
    fn pixels_counted_are_the_sum() {
        let mut random = Random::new(3);
        for n in 0..=5 {
            for _ in 0..[1, 20, 20, 10, 5, 2][n as usize] {
                for raster in rasters::with_structured(&mut random, n) {
                    let outlines = Outlines::of(&Regions::of(n, &raster));
                    let sums: Vec<i32> = (0..outlines.len()).map(|k| sum(outlines.cycle(k))).collect();
                    assert_eq!(areas(&outlines), sums, "n = {n}, {raster:?}");
                }
            }
        }
    }
}
