//! One block list laid over another, against the model: every pair of small images, random pairs of every side, and what the other
//! functions say of the result.

use tests::calls::{agrees, number, overlay, raster_from_blocks};
use tests::cases::Cases;
use tests::compare::Shown;
use tests::expected::needs;
use tests::model::blocks::{quadtree, Blocks};
use tests::model::overlay::{larger, overlay as overlaid};
use tests::nettlestair::check;
use tests::random::Random;
use tests::rasters;
use tests::traced::traced;

/// Lays the blocks of one raster over those of another, with lists that are longer than needed by `more`, and holds the result to the
/// model. The check accepts it, and its raster has the larger colour at each pixel.
fn laid_over(random: &mut Random, n: u32, first: &[u16], second: &[u16], more: [usize; 3]) -> Blocks {
    let what = format!("n = {n}, {} over {}", Shown(first), Shown(second));
    let lists = [first, second].map(|raster| quadtree(n, raster));
    let lengths = more.map(|more| first.len() + more);
    let mut out = overlay(random, n, &lists[0], &lists[1], lengths);
    let expected = overlaid(n, &lists[0], &lists[1], lengths);
    agrees(format_args!("{what}, lists longer by {more:?}"), out.difference_from_model(&expected));
    let blocks = out.blocks();
    assert_eq!(check(n, &blocks.codes, &blocks.levels, &blocks.colours), 0, "{what}: {blocks}");
    let raster = raster_from_blocks(random, n, &blocks, first.len());
    agrees(format_args!("{what}: the raster"), raster.difference(&larger(first, second)));
    blocks
}

/// Holds the region numbers and the outlines of a block list to the model.
fn numbered_and_traced(random: &mut Random, n: u32, blocks: &Blocks) {
    let (_, model) = traced(random, n, blocks, [0; 6]);
    let [labels, work, ..] = needs(n, blocks.len());
    let out = number(random, n, blocks, [labels, work]);
    agrees(format_args!("numbers of n = {n}, {blocks}"), out.difference(&model.numbering([labels, work])));
}

#[test]
fn pairs_of_pixels() {
    let mut cases = Cases::of("one pixel over another");
    let mut random = Random::of("one pixel over another");
    let ends = [0, 1, 254, 255, 256, 257, 511, 512, 32_767, 32_768, 65_279, 65_280, 65_534, 65_535];
    let colours: Vec<u16> = ends.into_iter().chain(random.colours(100)).collect();
    for &a in &colours {
        for &b in &colours {
            let blocks = laid_over(&mut random, 0, &[a], &[b], [0, 1, 2]);
            numbered_and_traced(&mut random, 0, &blocks);
            cases.ran();
        }
    }
    cases.end();
}

/// Every pair of images of 2 by 2 in three colours; the second three differ in one byte alone, or in both.
#[test]
fn pairs_of_small_images() {
    let mut cases = Cases::of("one small image over another");
    let mut random = Random::of("one small image over another");
    for colours in [[0, 1, 2], [255, 256, 511]] {
        let images: Vec<[u16; 4]> = (0..81).map(|k| [1, 3, 9, 27].map(|place| colours[k / place % 3])).collect();
        for first in &images {
            for second in &images {
                let blocks = laid_over(&mut random, 1, first, second, [2, 0, 1]);
                numbered_and_traced(&mut random, 1, &blocks);
                cases.ran();
            }
        }
    }
    cases.end();
}

/// Every image of 4 by 4 in two colours, over another one.
#[test]
fn images_of_two_colours() {
    let mut cases = Cases::of("images of two colours");
    let mut random = Random::of("images of two colours");
    let images: Vec<Vec<u16>> = rasters::small().filter(|(n, _)| *n == 2).map(|(_, raster)| raster).collect();
    for first in &images {
        let second = &images[random.below(images.len())];
        laid_over(&mut random, 2, first, second, [0, 2, 1]);
        cases.ran();
    }
    cases.end();
}

/// Every kind of image over every kind for small sides; for larger ones each kind over some others.
#[test]
fn images_of_all_kinds() {
    let mut cases = Cases::of("one image over another");
    let mut random = Random::of("one image over another");
    for n in 0..=8 {
        let [firsts, seconds] = [0, 0].map(|_| rasters::with_structured(&mut random, n));
        let rounds = [seconds.len(), 20, 5, 2, 1, 1][n.max(3) as usize - 3];
        for round in 0..rounds {
            let shift = if n < 4 { round } else { random.below(seconds.len()) };
            for (first, second) in firsts.iter().zip(seconds.iter().cycle().skip(shift)) {
                let blocks = laid_over(&mut random, n, first, second, [round, 2 * round, 3 * round]);
                numbered_and_traced(&mut random, n, &blocks);
                cases.ran();
            }
        }
    }
    cases.end();
}

/// A list of one block over one of many, and the other way round; the one has a colour of the many, or one in the middle.
#[test]
fn one_colour_over_many() {
    let mut cases = Cases::of("one colour over many");
    let mut random = Random::of("one colour over many");
    for n in 0..=8 {
        for many in rasters::with_structured(&mut random, n) {
            for colour in [many[random.below(many.len())], 32_768] {
                let one = vec![colour; many.len()];
                laid_over(&mut random, n, &one, &many, [1, 0, 0]);
                laid_over(&mut random, n, &many, &one, [0, 0, 1]);
                cases.ran();
            }
        }
    }
    cases.end();
}

/// Two images of which neither shows much of the picture that they give: its blocks are larger than theirs.
#[test]
fn pictures_parted_in_two() {
    let mut cases = Cases::of("pictures parted in two");
    let mut random = Random::of("pictures parted in two");
    for n in 0..=8 {
        for _ in 0..[40, 40, 40, 20, 10, 5, 2, 1, 1][n as usize] {
            for picture in rasters::with_structured(&mut random, n) {
                let [first, second] = rasters::parted(&mut random, &picture);
                let blocks = laid_over(&mut random, n, &first, &second, [0, 3, 0]);
                assert_eq!(blocks, quadtree(n, &picture), "n = {n}, {}", Shown(&picture));
                cases.ran();
            }
        }
    }
    cases.end();
}

/// Whole colours are compared: the larger one has the smaller low byte, or an equal one, or an equal high byte.
#[test]
fn colours_of_two_bytes() {
    let mut cases = Cases::of("colours of two bytes");
    let mut random = Random::of("colours of two bytes");
    for (a, b) in [(255, 256), (65_280, 65_535), (0, 1), (0, 256), (1, 257), (513, 768), (32_767, 32_768)] {
        for [first, second] in [[[a; 4], [b; 4]], [[b; 4], [a; 4]], [[a, b, b, a], [b, a, a, b]]] {
            let blocks = laid_over(&mut random, 1, &first, &second, [0; 3]);
            assert_eq!(blocks, Blocks::of(&[(0, 1, b)]), "{first:?} over {second:?}");
            cases.ran();
        }
        let blocks = laid_over(&mut random, 1, &[a, a, b, b], &[a, b, a, b], [0; 3]);
        assert_eq!(blocks.colours, [a, b, b, b]);
        cases.ran();
    }
    cases.end();
}
