//! Rasters to blocks and back, against the model: every small raster, and random ones of every side.

use tests::calls::{agrees, blocks_from_raster, raster_from_blocks};
use tests::cases::Cases;
use tests::compare::Shown;
use tests::model::blocks::{number, paint, quadtree};
use tests::nettlestair::check;
use tests::random::Random;
use tests::rasters;

/// The raster's blocks are the model's quadtree, which the check accepts, and they give the raster again. The lent lists are
/// longer than needed by `more`, and their tails stay.
fn there_and_back(random: &mut Random, n: u32, raster: &[u16], more: usize) {
    let need = raster.len() + more;
    let blocks = quadtree(n, raster);
    let out = blocks_from_raster(random, n, raster, [need, need, need]);
    agrees(format_args!("blocks of n = {n}, {}", Shown(raster)), out.difference(&blocks));
    assert_eq!(check(n, &blocks.codes, &blocks.levels, &blocks.colours), 0, "n = {n}, {blocks}");
    assert_eq!(number(n, &blocks.codes, &blocks.levels, &blocks.colours), 0, "the model: n = {n}, {blocks}");
    let back = raster_from_blocks(random, n, &blocks, need);
    agrees(format_args!("raster of n = {n}, {blocks}"), back.difference(raster));
    assert_eq!(paint(n, &blocks), raster, "the model's painting");
}

#[test]
fn random_rasters_there_and_back() {
    let mut cases = Cases::of("random rasters");
    let mut random = Random::of("random rasters");
    for n in 0..=8 {
        for round in 0..if n < 6 { 60 } else { 6 } {
            for raster in rasters::of_every_kind(&mut random, n) {
                there_and_back(&mut random, n, &raster, round);
                cases.ran();
            }
        }
    }
    cases.end();
}

#[test]
fn small_rasters_there_and_back() {
    let mut cases = Cases::of("small rasters");
    let mut random = Random::of("small rasters");
    for (n, raster) in rasters::small() {
        there_and_back(&mut random, n, &raster, usize::from(n == 1));
        cases.ran();
    }
    cases.end();
}
