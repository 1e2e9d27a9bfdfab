//! Scans laid over one another (document 02, l): in every order and grouping they give the merged list of the largest colours.

use tests::calls::{agrees, overlay};
use tests::cases::Cases;
use tests::compare::Shown;
use tests::model::blocks::{quadtree, Blocks};
use tests::model::overlay::largest;
use tests::permutations::permutations;
use tests::random::Random;
use tests::rasters;

/// What laying one list over another writes. The call answers 0, and the entries beyond its count are as they were, in lists that are
/// longer than needed by up to 3.
fn laid_over(random: &mut Random, n: u32, first: &Blocks, second: &Blocks) -> Blocks {
    let lengths = [0; 3].map(|_| (1 << (2 * n)) + random.below(4));
    let mut out = overlay(random, n, first, second, lengths);
    let blocks = out.blocks();
    agrees(format_args!("n = {n}, {first} over {second}"), out.difference(&blocks));
    blocks
}

/// What each grouping of scans in this order gives.
fn each_grouping(random: &mut Random, n: u32, scans: &[&Blocks]) -> Vec<Blocks> {
    if let [scan] = scans {
        return vec![(*scan).clone()];
    }
    let mut results = vec![];
    for cut in 1..scans.len() {
        let firsts = each_grouping(random, n, &scans[..cut]);
        let seconds = each_grouping(random, n, &scans[cut..]);
        for first in &firsts {
            results.extend(seconds.iter().map(|second| laid_over(random, n, first, second)));
        }
    }
    results
}

/// Lays rasters over one another in every order and grouping, and tells in how many ways.
fn in_every_way(random: &mut Random, n: u32, rasters: &[Vec<u16>]) -> usize {
    let expected = quadtree(n, &largest(rasters));
    let scans: Vec<Blocks> = rasters.iter().map(|raster| quadtree(n, raster)).collect();
    let mut ways = 0;
    for order in permutations(scans.len()) {
        let in_order: Vec<&Blocks> = order.iter().map(|&place| &scans[place]).collect();
        for result in each_grouping(random, n, &in_order) {
            assert_eq!(result, expected, "n = {n}, in the order {order:?}");
            ways += 1;
        }
    }
    ways
}

/// So many scans, in so many ways, for n from 0 on in so many rounds: rasters that have nothing to do with each other, and parts of one
/// picture, whose blocks are larger than theirs.
fn scans<const COUNT: usize>(name: &'static str, ways: usize, rounds: &[usize]) {
    let mut cases = Cases::of(name);
    let mut random = Random::of(name);
    for (n, &rounds) in (0..).zip(rounds) {
        for _ in 0..rounds {
            let apart = [(); COUNT].map(|()| rasters::any(&mut random, n));
            let picture = rasters::any(&mut random, n);
            let parts: [Vec<u16>; COUNT] = rasters::parted(&mut random, &picture);
            assert_eq!(largest(&parts), picture);
            for rasters in [apart, parts] {
                assert_eq!(in_every_way(&mut random, n, &rasters), ways);
                cases.ran();
            }
        }
    }
    cases.end();
}

#[test]
fn two_scans() {
    scans::<2>("two scans in 2 orders", 2, &[200, 200, 200, 200, 100, 50, 20, 10, 5]);
}

#[test]
fn three_scans() {
    scans::<3>("three scans in 6 orders and 2 groupings", 6 * 2, &[100, 100, 100, 50, 20, 10, 5, 3, 2]);
}

#[test]
fn four_scans() {
    scans::<4>("four scans in 24 orders and 5 groupings", 24 * 5, &[10, 10, 10, 5, 2, 1]);
}

#[test]
fn five_scans() {
    scans::<5>("five scans in 120 orders and 14 groupings", 120 * 14, &[1, 1, 1, 1]);
}

/// Up to 30 scans, some of them more than once: any two of what is left are laid over one another, until one list is left.
#[test]
fn many_scans() {
    let mut cases = Cases::of("many scans");
    let mut random = Random::of("many scans");
    for n in 0..=6 {
        for _ in 0..[100, 100, 100, 50, 20, 10, 5][n as usize] {
            let different: Vec<Vec<u16>> = (0..2 + random.below(19)).map(|_| rasters::any(&mut random, n)).collect();
            let again = (0..random.below(11)).map(|_| different[random.below(different.len())].clone());
            let all: Vec<Vec<u16>> = different.iter().cloned().chain(again).collect();
            let expected = quadtree(n, &largest(&all));
            for _ in 0..2 {
                let mut lists: Vec<Blocks> = all.iter().map(|raster| quadtree(n, raster)).collect();
                while lists.len() > 1 {
                    let [first, second] = [(); 2].map(|()| lists.swap_remove(random.below(lists.len())));
                    lists.push(laid_over(&mut random, n, &first, &second));
                }
                assert_eq!(lists, [expected.clone()], "n = {n}, {} scans", all.len());
            }
            cases.ran();
        }
    }
    cases.end();
}

/// "A scan over itself gives itself. A scan over the single block of level n and colour 0 gives itself.": from either side.
#[test]
fn over_itself_and_over_the_single_block() {
    let mut cases = Cases::of("a scan over itself and over the single block");
    let mut random = Random::of("a scan over itself and over the single block");
    for n in 0..=8 {
        let single = Blocks::of(&[(0, n as u8, 0)]);
        for raster in rasters::with_structured(&mut random, n) {
            let scan = quadtree(n, &raster);
            for (first, second) in [(&scan, &scan), (&scan, &single), (&single, &scan)] {
                assert_eq!(laid_over(&mut random, n, first, second), scan, "n = {n}, {}", Shown(&raster));
            }
            cases.ran();
        }
        assert_eq!(laid_over(&mut random, n, &single, &single), single, "n = {n}");
    }
    cases.end();
}
