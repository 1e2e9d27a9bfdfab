//! Cutting from the inside out (document 02, h): which region surrounds which by a flood for each pair of regions, and orders judged and
//! found by that relation alone.

use super::regions::Regions;

/// Which region surrounds which.
#[derive(Debug, Default)]
pub struct Surrounding {
    count: usize,
    /// At r times the count plus s: whether r surrounds s.
    pairs: Vec<bool>,
}

impl Surrounding {
    /// "Region R surrounds S if no path from S through pixels outside R, with diagonal steps allowed, reaches a pixel at the image's
    /// edge; R and S differ, and a path of one pixel counts."
    pub fn of(regions: &Regions) -> Surrounding {
        let count = regions.count as usize;
        let mut pixels = vec![vec![]; count];
        for y in 0..i64::from(regions.side()) {
            for x in 0..i64::from(regions.side()) {
                let region = regions.at(x, y).expect("a pixel is in a region");
                pixels[region as usize].push((x, y));
            }
        }
        let surrounds = |r: usize, s: usize| r != s && !reaches_the_edge(regions, &pixels[s], r as u32);
        Surrounding { count, pairs: (0..count * count).map(|pair| surrounds(pair / count, pair % count)).collect() }
    }

    pub fn surrounds(&self, r: u32, s: u32) -> bool {
        self.pairs[r as usize * self.count + s as usize]
    }

    /// The pairs of regions of which the first surrounds the second.
    pub fn pairs(&self) -> Vec<(u32, u32)> {
        let all = (0..self.count as u32).flat_map(|r| (0..self.count as u32).map(move |s| (r, s)));
        all.filter(|&(r, s)| self.surrounds(r, s)).collect()
    }

    /// Of an order that is every region once, "say yes exactly when each surrounded region comes before each region that surrounds it".
    pub fn is_inside_out(&self, order: &[u32]) -> bool {
        let later = |place: usize| &order[place + 1..];
        (0..order.len()).all(|place| later(place).iter().all(|&s| !self.surrounds(order[place], s)))
    }

    /// "Of all such orders [...] the one with the least possible number at the first place, then at the second, and so on": at each place
    /// the least region left that surrounds none of those left.
    pub fn least_order(&self) -> Vec<u32> {
        let mut left: Vec<u32> = (0..self.count as u32).collect();
        let next = |left: &mut Vec<u32>| {
            let least = left.iter().position(|&r| left.iter().all(|&s| !self.surrounds(r, s)));
            left.remove(least.expect("some region surrounds none of those left"))
        };
        (0..self.count).map(|_| next(&mut left)).collect()
    }
}

/// Whether a path from one of these pixels, through pixels outside a region and with diagonal steps allowed, reaches a pixel at the
/// image's edge.
fn reaches_the_edge(regions: &Regions, from: &[(i64, i64)], outside: u32) -> bool {
    let side = i64::from(regions.side());
    let mut seen = vec![false; (side * side) as usize];
    let mut reached = from.to_vec();
    while let Some((x, y)) = reached.pop() {
        if [x, y].iter().any(|&z| z == 0 || z == side - 1) {
            return true;
        }
        for (x, y) in (y - 1..=y + 1).flat_map(|y| (x - 1..=x + 1).map(move |x| (x, y))) {
            let seen = &mut seen[(y * side + x) as usize];
            if !*seen && regions.at(x, y) != Some(outside) {
                *seen = true;
                reached.push((x, y));
            }
        }
    }
    false
}

/// Whether an order is "every region once".
pub fn is_every_region_once(count: u32, order: &[u32]) -> bool {
    let mut sorted = order.to_vec();
    sorted.sort();
    sorted == (0..count).collect::<Vec<u32>>()
}

#[cfg(test)]
mod tests {
    use super::*;
    use crate::figures::{FIGURE_5A, FIGURE_5B};

    fn surrounding(n: u32, raster: &[u16]) -> Surrounding {
        Surrounding::of(&Regions::of(n, raster))
    }

    #[test]
    fn figures() {
        let a = surrounding(2, &FIGURE_5A);
        assert_eq!((a.pairs(), a.least_order()), (vec![(0, 1)], vec![1, 0]));
        assert_eq!([[0, 1], [1, 0]].map(|order| a.is_inside_out(&order)), [false, true]);
        // from the pixel (1, 1) a diagonal step leads to (2, 2), and from there another to the edge
        let b = surrounding(2, &FIGURE_5B);
        assert_eq!((b.pairs(), b.least_order()), (vec![], vec![0, 1, 2]));
    }

    #[test]
    fn one_colour() {
        for n in 0..=3 {
            let one = surrounding(n, &vec![7; 1 << (2 * n)]);
            assert_eq!((one.pairs(), one.least_order()), (vec![], vec![0]));
        }
    }

    #[test]
    fn each_once() {
        for order in [[0, 1, 2], [2, 0, 1]] {
            assert!(is_every_region_once(3, &order));
        }
        for order in [&[0, 1][..], &[0, 1, 2, 2], &[0, 1, 1], &[0, 1, 3], &[0, 1, u32::MAX], &[]] {
            assert!(!is_every_region_once(3, order), "{order:?}");
        }
    }
}
