//! Region numbers against a flood fill: dials, figures, structured and random rasters, and what becomes of the lent lists.

use tests::calls::{agrees, number, NumberOut};
use tests::cases::Cases;
use tests::compare::Shown;
use tests::damage::each_place;
use tests::expected::{needs, Model};
use tests::figures;
use tests::model::blocks::{quadtree, Blocks};
use tests::nettlestair::Numbered;
use tests::random::Random;
use tests::rasters;

/// Numbering of a raster's blocks with lists that are longer than needed by `more`.
fn numbered(random: &mut Random, n: u32, raster: &[u16], more: [usize; 2]) -> (Blocks, NumberOut) {
    let blocks = quadtree(n, raster);
    let [labels, work, ..] = needs(n, blocks.len());
    let lengths = [labels + more[0], work + more[1]];
    let out = number(random, n, &blocks, lengths);
    let difference = out.difference(&Model::of(n, &blocks).numbering(lengths));
    agrees(format_args!("n = {n}, lists longer by {more:?}, raster {}", Shown(raster)), difference);
    (blocks, out)
}

/// The dials whose numbers document 01 gives or settles.
#[test]
fn dials() {
    let mut cases = Cases::of("numbers of dials");
    let mut random = Random::of("numbers of dials");
    let rows: [(&str, u32, &[u16], &[u32], u32); 6] = [
        ("1", 0, &[9], &[0], 1),
        ("2", 2, &figures::FIGURE_5B, &[0, 0, 0, 1, 0, 0, 2], 3),
        ("3", 2, &figures::FIGURE_5A, &[0, 0, 0, 1, 0, 0, 1, 0, 0, 1, 0, 0, 1, 0, 0, 0], 2),
        ("4", 1, &[1, 2, 2, 1], &[0, 1, 2, 3], 4),
        ("5", 1, &[1, 1, 2, 2], &[0, 0, 1, 1], 2),
        ("12", 8, &[7; 65536], &[0], 1),
    ];
    for (dial, n, raster, labels, regions) in rows {
        let (_, mut out) = numbered(&mut random, n, raster, [0, 0]);
        assert_eq!(out.lists[0].lend(), labels, "dial {dial}");
        assert_eq!(out.answer, Numbered { number: 0, regions }, "dial {dial}");
        cases.ran();
    }
    cases.end();
}

#[test]
fn figures_of_the_papers() {
    let mut cases = Cases::of("numbers of figures");
    let mut random = Random::of("numbers of figures");
    for (figure, n, raster) in figures::all() {
        let (_, out) = numbered(&mut random, n, &raster, [3, 5]);
        let regions = if figure == "000, figure 5(b)" { 3 } else { 2 };
        assert_eq!(out.answer, Numbered { number: 0, regions }, "{figure}");
        cases.ran();
    }
    cases.end();
}

#[test]
fn structured_and_random_rasters() {
    let mut cases = Cases::of("numbers of rasters");
    let mut random = Random::of("numbers of rasters");
    for n in 0..=8 {
        for round in 0..[40, 40, 40, 40, 20, 10, 4, 2, 1][n as usize] {
            for (_, raster) in rasters::structured(&mut random, n) {
                numbered(&mut random, n, &raster, [round, 3 * round]);
                cases.ran();
            }
        }
    }
    cases.end();
}

#[test]
fn small_rasters() {
    let mut cases = Cases::of("numbers of small rasters");
    let mut random = Random::of("numbers of small rasters");
    for (n, raster) in rasters::small() {
        numbered(&mut random, n, &raster, if n == 1 { [1, 0] } else { [0, 1] });
        cases.ran();
    }
    cases.end();
}

/// A list one too short, or empty, is 8 and both lists stay; longer lists keep their tails.
#[test]
fn lengths() {
    let mut cases = Cases::of("lengths for numbering");
    let mut random = Random::of("lengths for numbering");
    for n in 0..=8 {
        for (kind, raster) in rasters::structured(&mut random, n) {
            let blocks = quadtree(n, &raster);
            let model = Model::of(n, &blocks);
            let [labels, work, ..] = needs(n, blocks.len());
            let lengths = [
                [labels, work],
                [labels + 1, work + 1],
                [2 * labels + 7, work],
                [labels, 2 * work + 7],
                [labels - 1, work],
                [labels, work - 1],
                [labels - 1, work - 1],
                [0, work],
                [labels + 7, 0],
                [0, 0],
            ];
            for (i, lengths) in lengths.into_iter().enumerate() {
                let out = number(&mut random, n, &blocks, lengths);
                assert_eq!(out.answer.number, if i < 4 { 0 } else { 8 }, "n = {n}, {kind}, lengths {lengths:?}");
                let difference = out.difference(&model.numbering(lengths));
                agrees(format_args!("n = {n}, {kind}, lengths {lengths:?}"), difference);
                cases.ran();
            }
        }
    }
    cases.end();
}

/// The comparison can fail: with one entry of either list damaged, also one of a tail or a guard, or with another answer, it
/// says so.
#[test]
fn damage_is_seen() {
    let mut cases = Cases::of("damage of numbers");
    let mut random = Random::of("damage of numbers");
    for n in 0..=3 {
        for (_, raster) in rasters::structured(&mut random, n) {
            let blocks = quadtree(n, &raster);
            let [labels, work, ..] = needs(n, blocks.len());
            for lengths in [[labels + 2, work + 2], [labels, work - 1]] {
                let expected = Model::of(n, &blocks).numbering(lengths);
                let mut out = number(&mut random, n, &blocks, lengths);
                for list in 0..2 {
                    let damaged = |out: &NumberOut| out.difference(&expected);
                    let written = &expected.lists[list];
                    each_place(&mut random, &mut cases, &mut out, |out| &mut out.lists[list], written, damaged);
                }
                out.answer.regions += 1;
                assert!(out.difference(&expected).is_some(), "another count of regions");
                out.answer.regions -= 1;
                out.answer.number += 1;
                assert!(out.difference(&expected).is_some(), "another number");
            }
        }
    }
    cases.end();
}
