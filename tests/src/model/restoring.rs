//! The image that given outlines came from (document 02, f): each pixel is painted by how often a ray from it crosses the outlines of each
//! region, and what is painted is traced by the tracer of this model. The library's way is another one: it takes the region from the
//! northward edges alone, numbers the pixels again and walks along the given corners.

use super::blocks::{quadtree, Blocks};
use super::outlines::Outlines;
use super::paths::point;
use super::regions::Regions;
use crate::compare::Shown;
use std::collections::BTreeSet;
use std::fmt::{Display, Formatter};

/// Given outlines: the counts of regions, cycles and corners, the lists of a tracing, and the colour of each region.
#[derive(Clone, Debug, Default, PartialEq, Eq)]
pub struct Given {
    pub regions: u32,
    pub cycles: u32,
    pub corner_count: u32,
    pub owners: Vec<u32>,
    pub ends: Vec<u32>,
    pub corners: Vec<u32>,
    pub colours: Vec<u16>,
}

impl Display for Given {
    fn fmt(&self, f: &mut Formatter) -> std::fmt::Result {
        let Given { regions, cycles, corner_count, owners, ends, corners, colours } = self;
        write!(f, "counts {regions}, {cycles}, {corner_count}, owners {}, ends {}", Shown(owners), Shown(ends))?;
        write!(f, ", corners {}, colours {}", Shown(corners), Shown(colours))
    }
}

impl Given {
    /// The outlines and the region colours of a raster of side 2^n.
    pub fn of(n: u32, raster: &[u16]) -> Given {
        let regions = Regions::of(n, raster);
        let Outlines { owners, ends, corners } = Outlines::of(&regions);
        let mut colours = vec![0; regions.count as usize];
        for (place, &colour) in (0..).zip(raster) {
            let region = regions.at(place % (1 << n), place >> n).expect("a pixel is in a region");
            colours[region as usize] = colour;
        }
        let [cycles, corner_count] = [ends.len() as u32, corners.len() as u32];
        Given { regions: regions.count, cycles, corner_count, owners, ends, corners, colours }
    }

    /// Outlines by the owner and the corners of each cycle, with the counts that go with them.
    pub fn of_cycles(cycles: &[(u32, Vec<u32>)], colours: &[u16]) -> Given {
        let mut given = Given { regions: colours.len() as u32, colours: colours.to_vec(), ..Given::default() };
        for (owner, corners) in cycles {
            given.owners.push(*owner);
            given.corners.extend(corners);
            given.ends.push(given.corners.len() as u32);
        }
        given.cycles = given.ends.len() as u32;
        given.corner_count = given.corners.len() as u32;
        given
    }

    /// The lists up to their counts; none where a list is shorter.
    pub fn counted(&self) -> Option<Given> {
        let Given { regions, cycles, corner_count, .. } = *self;
        Some(Given {
            owners: self.owners.get(..cycles as usize)?.to_vec(),
            ends: self.ends.get(..cycles as usize)?.to_vec(),
            corners: self.corners.get(..corner_count as usize)?.to_vec(),
            colours: self.colours.get(..regions as usize)?.to_vec(),
            ..*self
        })
    }

    /// The owner and the corners of each cycle; none where the ends fall, or run past the corners.
    pub fn listed(&self) -> Option<Vec<(u32, Vec<u32>)>> {
        let begins = [0].iter().chain(&self.ends);
        let stretches = begins.zip(&self.ends).map(|(&begin, &end)| self.corners.get(begin as usize..end as usize));
        self.owners.iter().zip(stretches).map(|(&owner, corners)| Some((owner, corners?.to_vec()))).collect()
    }
}

/// The needs of the code, level, colour and work lists. n above 8 is refused before any need, and gets those of one pixel.
pub fn restoring_needs(n: u32) -> [usize; 4] {
    let pixels = if n > 8 { 1 } else { 1 << (2 * n) };
    [pixels, pixels, pixels, 8 * pixels]
}

/// The block list that has these outlines, with lists of these lengths lent for codes, levels, colours and work, or the number of a
/// refusal: "1, then 8 for three output lists of 4^n and the work list, then new 18 (no such image)".
pub fn restored(n: u32, given: &Given, lengths: [usize; 4]) -> Result<Blocks, u32> {
    if n > 8 {
        return Err(1);
    }
    if lengths.iter().zip(restoring_needs(n)).any(|(&length, need)| length < need) {
        return Err(8);
    }
    image(n, given).map(|raster| quadtree(n, &raster)).ok_or(18)
}

/// The raster of side 2^n that has these outlines. If there is one, then it is what they paint: so the painted one is traced and compared.
fn image(n: u32, given: &Given) -> Option<Vec<u16>> {
    let given = given.counted()?;
    let raster = painted(n, &given)?;
    (Given::of(n, &raster) == given).then_some(raster)
}

/// Each pixel in the colour of the one region that it is in: from its middle, a ray to the west crosses the outlines of that region an odd
/// number of times, and those of each other region an even number. None where some pixel is in no region, or in several.
fn painted(n: u32, given: &Given) -> Option<Vec<u16>> {
    let side = 1 << n;
    let upright = upright_sides(side, given)?;
    let mut raster = Vec::new();
    for row in upright.chunks(side as usize + 1) {
        let mut inside: BTreeSet<u32> = BTreeSet::new();
        for crossed in &row[..side as usize] {
            for &owner in crossed {
                if !inside.remove(&owner) {
                    inside.insert(owner);
                }
            }
            match inside.first() {
                Some(&region) if inside.len() == 1 => raster.push(*given.colours.get(region as usize)?),
                _ => return None,
            }
        }
    }
    Some(raster)
}

/// The owners of the outlines that have each upright unit side, row by row, those of a row from west to east. None where no image of this
/// side has such outlines:
/// - a corner of an outline lies within 0 to 2^n, so every leg is that short;
/// - an outline goes along x or y from each corner to the next;
/// - a side lies between two pixels, or a pixel and the outside, and each of their regions has it in one outline, once: there is no third.
///
/// So at most 2 times 2^n times (2^n + 1) sides are stored, whatever is given.
fn upright_sides(side: u32, given: &Given) -> Option<Vec<Vec<u32>>> {
    let mut upright = vec![vec![]; (side * (side + 1)) as usize];
    for (owner, corners) in given.listed()? {
        let ends = corners.iter().cycle().skip(1);
        for (&from, &to) in corners.iter().zip(ends) {
            let ((x, y), (x1, y1)) = (point(from), point(to));
            if [x, y, x1, y1].into_iter().any(|z| z > side) || (x != x1 && y != y1) {
                return None;
            }
            for row in y.min(y1)..y.max(y1) {
                let crossed = &mut upright[(row * (side + 1) + x) as usize];
                crossed.push(owner);
                if crossed.len() > 2 {
                    return None;
                }
            }
        }
    }
    Some(upright)
}

#[cfg(test)]
mod tests {
    use super::super::paths::corner;
    use super::*;
    use crate::figures::{FIGURE_5A, FIGURE_5B};
    use crate::random::Random;
    use crate::rasters;

    fn answers(n: u32, given: &Given) -> Result<Blocks, u32> {
        restored(n, given, restoring_needs(n))
    }

    #[test]
    fn figures_and_random_images() {
        let mut random = Random::new(5);
        let figures = [FIGURE_5A, FIGURE_5B].map(|raster| (2, raster.to_vec()));
        let others = (0..=4).flat_map(|n| rasters::with_structured(&mut random, n).into_iter().map(move |r| (n, r)));
        for (n, raster) in figures.into_iter().chain(others) {
            let given = Given::of(n, &raster);
            assert_eq!(answers(n, &given), Ok(quadtree(n, &raster)), "n = {n}, {}", Shown(&raster));
            let listed = given.listed().expect("the ends of a tracing rise");
            assert_eq!(Given::of_cycles(&listed, &given.colours), given);
        }
    }

    /// Each pixel of 2 by 2 has its own outline: the four colours go round the pixels, and neighbours of one colour are no regions.
    #[test]
    fn four_pixels() {
        let given = Given::of(1, &[1, 2, 2, 1]);
        let with = |colours: [u16; 4]| answers(1, &Given { colours: colours.to_vec(), ..given.clone() });
        assert_eq!(with([7, 8, 9, 256]), Ok(quadtree(1, &[7, 8, 9, 256])));
        assert_eq!(with([7, 8, 8, 7]), Ok(quadtree(1, &[7, 8, 8, 7])));
        assert_eq!(with([7, 7, 8, 9]), Err(18));
        assert_eq!(with([7, 8, 9, 8]), Err(18));
        assert_eq!(with([7; 4]), Err(18));
    }

    /// Pixels in no region, in two regions, and outlines that paint the image but are not its own.
    #[test]
    fn no_such_image() {
        let square = |x: u32, y: u32, size: u32| {
            [(x, y), (x + size, y), (x + size, y + size), (x, y + size)].map(|(x, y)| corner(x, y)).to_vec()
        };
        let of = |cycles: &[(u32, Vec<u32>)], colours: &[u16]| answers(1, &Given::of_cycles(cycles, colours));
        assert_eq!(of(&[(0, square(0, 0, 2))], &[7]), Ok(Blocks::of(&[(0, 1, 7)])));
        assert_eq!(of(&[(0, square(0, 0, 1))], &[7]), Err(18));
        assert_eq!(of(&[(0, square(0, 0, 2)), (1, square(0, 0, 1))], &[7, 8]), Err(18));
        assert_eq!(of(&[(0, square(0, 0, 2)), (0, square(0, 0, 1)), (1, square(0, 0, 1))], &[7, 8]), Err(18));
        assert_eq!(of(&[(0, [0, 2, 1026, 1025, 1024].to_vec())], &[7]), Err(18));
        assert_eq!(of(&[(0, [2, 1026, 1024, 0].to_vec())], &[7]), Err(18));
        assert_eq!(of(&[(0, [0, 1024, 1026, 2].to_vec())], &[7]), Err(18));
        assert_eq!(of(&vec![(0, square(0, 0, 2)); 3], &[7]), Err(18));
        assert_eq!(of(&[(0, [0, 2, 1 << 31, 1024].to_vec())], &[7]), Err(18));
        assert_eq!(of(&[(1, square(0, 0, 2))], &[7]), Err(18));
        assert_eq!(of(&[], &[]), Err(18));
    }

    #[test]
    fn refusals_in_order() {
        let given = Given::of(1, &[1, 2, 2, 1]);
        let short = Given { colours: vec![1, 2, 2], ..given.clone() };
        assert!(restored(1, &given, [4, 4, 4, 32]).is_ok());
        for lengths in [[3, 4, 4, 32], [4, 3, 4, 32], [4, 4, 3, 32], [4, 4, 4, 31]] {
            assert_eq!(restored(1, &given, lengths), Err(8));
            assert_eq!(restored(1, &short, lengths), Err(8));
            assert_eq!(restored(9, &short, lengths), Err(1));
        }
        assert_eq!(restored(1, &short, [4, 4, 4, 32]), Err(18));
        assert_eq!(restored(0, &given, [4, 4, 4, 32]), Err(18));
        assert_eq!(restored(2, &given, [16, 16, 16, 128]), Err(18));
    }
}
