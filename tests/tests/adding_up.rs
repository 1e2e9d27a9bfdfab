//! Areas that add up (document 02, d): for each region, the areas of its cycles add to its pixels, counted in the raster that blocks to
//! raster gives and not from the areas; in all they add to 4^n.

use std::collections::BTreeMap;
use tests::calls::{agrees, raster_from_blocks, trace};
use tests::cases::Cases;
use tests::compare::{difference, Shown};
use tests::expected::needs;
use tests::figures;
use tests::model::blocks::{quadtree, Blocks};
use tests::model::regions::Regions;
use tests::random::Random;
use tests::rasters;

/// What blocks to raster and the tracing leave of one list: the raster, the owners and the areas up to their counts, the label of each
/// block, and the count of regions.
struct Dial {
    n: u32,
    blocks: Blocks,
    raster: Vec<u16>,
    regions: u32,
    labels: Vec<u32>,
    owners: Vec<u32>,
    areas: Vec<i32>,
}

impl Dial {
    /// Calls both for the blocks of a raster, with lists that are longer than needed by up to 3.
    fn of(random: &mut Random, n: u32, raster: &[u16]) -> Dial {
        let blocks = quadtree(n, raster);
        let length = raster.len() + random.below(4);
        let mut painted = raster_from_blocks(random, n, &blocks, length);
        agrees(format_args!("raster of n = {n}, {blocks}"), painted.difference(raster));
        let lengths = needs(n, blocks.len()).map(|need| need + random.below(4));
        let mut out = trace(random, n, &blocks, lengths);
        assert_eq!(out.answer.number, 0, "n = {n}, {blocks}");
        let cycles = out.answer.cycles as usize;
        Dial {
            n,
            raster: painted.list.lend()[..painted.written.count as usize].to_vec(),
            regions: out.answer.regions,
            labels: out.lists[0].lend()[..blocks.len()].to_vec(),
            owners: out.lists[2].lend()[..cycles].to_vec(),
            areas: out.areas[0].lend()[..cycles].to_vec(),
            blocks,
        }
    }

    /// What the areas of each owner add to.
    fn added(&self) -> Vec<(u32, i32)> {
        sums(self.owners.iter().copied().zip(self.areas.iter().copied()))
    }

    /// What does not add up: all areas, or those of a region. The regions, their count and the labels are those of the raster's colours.
    fn difference(&self) -> Option<String> {
        let all = self.areas.iter().copied().fold(0, plus);
        let regions = Regions::of(self.n, &self.raster);
        let side = 0..i64::from(regions.side());
        let pixels = side.clone().flat_map(|y| side.clone().map(move |x| (x, y)));
        let counted = sums(pixels.filter_map(|(x, y)| regions.at(x, y)).map(|region| (region, 1)));
        (all != 1 << (2 * self.n))
            .then(|| format!("all areas add to {all}"))
            .or_else(|| {
                (self.regions != regions.count).then(|| format!("{} regions for {}", self.regions, regions.count))
            })
            .or_else(|| difference(&regions.labels(&self.blocks), &self.labels).map(|d| format!("labels, {d}")))
            .or_else(|| difference(&counted, &self.added()).map(|d| format!("pixels and areas of regions, {d}")))
    }

    /// Fails where something does not add up.
    fn adds_up(&self) {
        agrees(format_args!("n = {}, {}", self.n, Shown(&self.raster)), self.difference());
    }

    /// The most cycles that one region has.
    fn most_of_one_region(&self) -> i32 {
        sums(self.owners.iter().map(|&owner| (owner, 1))).iter().map(|&(_, cycles)| cycles).max().unwrap_or(0)
    }
}

/// The sum for each region, with its number.
fn sums(parts: impl Iterator<Item = (u32, i32)>) -> Vec<(u32, i32)> {
    let mut sums = BTreeMap::new();
    for (region, part) in parts {
        let sum = sums.entry(region).or_default();
        *sum = plus(*sum, part);
    }
    sums.into_iter().collect()
}

/// Adds in 32 bits, which every sum on the way fits.
fn plus(sum: i32, part: i32) -> i32 {
    sum.checked_add(part).expect("a sum of areas fits 32 bits")
}

#[test]
fn small_rasters() {
    let mut cases = Cases::of("areas that add up in small rasters");
    let mut random = Random::of("areas that add up in small rasters");
    for (n, raster) in rasters::small() {
        Dial::of(&mut random, n, &raster).adds_up();
        cases.ran();
    }
    cases.end();
}

/// Up to the largest image, those among them that have the most cycles, in all and of one region.
#[test]
fn structured_and_random_rasters() {
    let mut cases = Cases::of("areas that add up in structured and random rasters");
    let mut random = Random::of("areas that add up in structured and random rasters");
    let (mut most_cycles, mut most_of_one_region) = (0, 0);
    for n in 0..=8 {
        for _ in 0..[3, 40, 40, 20, 10, 6, 3, 1, 1][n as usize] {
            for raster in rasters::with_structured(&mut random, n) {
                let dial = Dial::of(&mut random, n, &raster);
                dial.adds_up();
                most_cycles = most_cycles.max(dial.areas.len());
                most_of_one_region = most_of_one_region.max(dial.most_of_one_region());
                cases.ran();
            }
        }
    }
    assert_eq!(most_cycles, 65536, "the checkerboard has a cycle for each pixel");
    assert_eq!(most_of_one_region, 1 + 127 * 127, "pixels apart, each a hole");
    cases.end();
}

/// Regions whose pixels are counted by hand.
#[test]
fn figures() {
    let mut cases = Cases::of("areas that add up in figures");
    let mut random = Random::of("areas that add up in figures");
    // squares of 8, 6, 4 and 2, one within the other
    let within = ["AAAAAAAA", "ABBBBBBA", "ABAAAABA", "ABABBABA", "ABABBABA", "ABAAAABA", "ABBBBBBA", "AAAAAAAA"];
    let squares: Vec<u16> = within.concat().bytes().map(u16::from).collect();
    let rows: [(u32, &[u16], &[i32]); 3] =
        [(2, &figures::FIGURE_5A, &[12, 4]), (2, &figures::FIGURE_5B, &[11, 1, 4]), (3, &squares, &[28, 20, 12, 4])];
    for (n, raster, pixels) in rows {
        let expected: Vec<(u32, i32)> = (0..).zip(pixels.iter().copied()).collect();
        assert_eq!(Dial::of(&mut random, n, raster).added(), expected);
        cases.ran();
    }
    for (_, n, raster) in figures::all() {
        Dial::of(&mut random, n, &raster).adds_up();
        cases.ran();
    }
    cases.end();
}

/// Each of the comparisons can fail: an area, an owner, a label or a count that is not right is found.
#[test]
fn damage_is_found() {
    let mut cases = Cases::of("areas that do not add up");
    let mut random = Random::of("areas that do not add up");
    let mut found = |dial: &Dial, by: &str| {
        let said = dial.difference().expect("what does not add up is found");
        assert!(said.starts_with(by), "n = {}, {}: {said}", dial.n, Shown(&dial.raster));
        cases.ran();
    };
    for n in 0..=3 {
        for raster in rasters::with_structured(&mut random, n) {
            let mut dial = Dial::of(&mut random, n, &raster);
            for k in 0..dial.areas.len() {
                let more = [-1, 1][random.below(2)];
                dial.areas[k] += more;
                found(&dial, "all areas");
                // what one cycle has too much, another has too little
                let other = (k + 1) % dial.areas.len();
                dial.areas[other] -= more;
                if dial.owners[other] != dial.owners[k] {
                    found(&dial, "pixels and areas");
                }
                dial.areas[other] += more;
                dial.areas[k] -= more;
                dial.owners[k] += 1;
                found(&dial, "pixels and areas");
                dial.owners[k] -= 1;
            }
            for k in 0..dial.labels.len() {
                dial.labels[k] += 1;
                found(&dial, "labels");
                dial.labels[k] -= 1;
            }
            dial.regions += 1;
            found(&dial, &format!("{} regions", dial.regions));
            dial.regions -= 1;
            dial.adds_up();
        }
    }
    cases.end();
}
