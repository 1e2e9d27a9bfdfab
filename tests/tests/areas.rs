//! The area of each outline (document 02, c): areas worked out by hand. Every tracing is held to the model too, which counts the
//! pixels that an outline encloses (tracing.rs).

use tests::calls::agrees;
use tests::cases::Cases;
use tests::compare::{difference, Shown};
use tests::figures;
use tests::model::blocks::quadtree;
use tests::random::Random;
use tests::rasters;
use tests::traced::traced;

/// Holds the areas that are listed for a raster to those worked out by hand.
fn has_areas(random: &mut Random, what: &str, n: u32, raster: &[u16], areas: &[i32]) {
    let (mut out, _) = traced(random, n, &quadtree(n, raster), [0; 6]);
    let found = &out.areas[0].lend()[..out.answer.cycles as usize];
    agrees(format_args!("areas of {what}, {}", Shown(found)), difference(areas, found).map(|d| d.to_string()));
}

#[test]
fn dials_and_figures() {
    let mut cases = Cases::of("areas of dials and figures");
    let mut random = Random::of("areas of dials and figures");
    // region A of 000's figure 1: rows 0 to 3, the rest of the northwest quadrant, the pixel (8, 7) and four columns below
    let (figure_1, a) = (figures::filled(4, &figures::FIGURE_1_A), 16 * 4 + 8 * 4 + 1 + 4 * 8);
    let rows: [(&str, u32, &[u16], &[i32]); 7] = [
        ("dial 1", 0, &[9], &[1]),
        ("dial 2", 2, &figures::FIGURE_5B, &[11, 1, 4]),
        ("dial 3", 2, &figures::FIGURE_5A, &[16, -4, 4]),
        ("dial 4", 1, &[1, 2, 2, 1], &[1, 1, 1, 1]),
        ("dial 5", 1, &[1, 1, 2, 2], &[2, 2]),
        ("dial 12", 8, &[7; 65536], &[65536]),
        ("000, figure 1", 4, &figure_1, &[a, 256 - a]),
    ];
    for (what, n, raster, areas) in rows {
        has_areas(&mut random, what, n, raster, areas);
        cases.ran();
    }
    cases.end();
}

/// Holes, holes within holes, and outlines that meet themselves at points. Each image is given by its rows.
#[test]
fn holes_and_pinches() {
    let mut cases = Cases::of("areas of holes and pinches");
    let mut random = Random::of("areas of holes and pinches");
    let rows: [(&str, &[&str], &[i32]); 9] = [
        ("two regions in a hole", &["AAAA", "ABCA", "ABCA", "AAAA"], &[16, -4, 2, 2]),
        (
            "two holes",
            &["AAAAAAAA", "ABAAACCA", "AAAAACCA", "AAAAAAAA", "AAAAAAAA", "AAAAAAAA", "AAAAAAAA", "AAAAAAAA"],
            &[64, -1, -4, 1, 4],
        ),
        (
            "holes within holes",
            &["AAAAAAAA", "ABBBBBBA", "ABAAAABA", "ABABBABA", "ABABBABA", "ABAAAABA", "ABBBBBBA", "AAAAAAAA"],
            &[64, -36, 36, -16, 16, -4, 4],
        ),
        // B touches what lies outside A at (4, 4): A has one outline
        (
            "a hole that touches the outer outline",
            &["AAAAAAAA", "AAAAAAAA", "AABBAAAA", "AABBAAAA", "AAAACCCC", "AAAACCCC", "AAAACCCC", "AAAACCCC"],
            &[44, 4, 16],
        ),
        (
            "holes in a diagonal, the last one touching the outer outline",
            &["AAAAAAAA", "ABAAAAAA", "AABAAAAA", "AAABAAAA", "AAAACCCC", "AAAACCCC", "AAAACCCC", "AAAACCCC"],
            &[45, 1, 1, 1, 16],
        ),
        // the pixel (1, 1) is a region of its own
        ("a region that closes at a point", &["AAAB", "ABAB", "AABB", "BBBB"], &[7, 1, 8]),
        ("two holes that touch", &["AAAA", "ABAA", "AACA", "AAAA"], &[16, -2, 1, 1]),
        (
            "six holes in a diagonal",
            &["AAAAAAAA", "ABAAAAAA", "AABAAAAA", "AAABAAAA", "AAAABAAA", "AAAAABAA", "AAAAAABA", "AAAAAAAA"],
            &[64, -6, 1, 1, 1, 1, 1, 1],
        ),
        // one hole of 13 pixels, in which 8 regions of one pixel surround one of 5
        (
            "pixels that touch, in a ring",
            &["AAAAAAAA", "AAABAAAA", "AABABAAA", "ABAAABAA", "AABABAAA", "AAABAAAA", "AAAAAAAA", "AAAAAAAA"],
            &[64, -13, 1, 1, 1, 5, 1, 1, 1, 1, 1],
        ),
    ];
    for (what, rows, areas) in rows {
        let raster: Vec<u16> = rows.concat().bytes().map(u16::from).collect();
        has_areas(&mut random, what, rows.len().ilog2(), &raster, areas);
        cases.ran();
    }
    cases.end();
}

/// Images of 256 by 256: areas at the ends of their range, the most cycles, long outlines.
#[test]
fn largest_images() {
    let mut cases = Cases::of("areas of the largest images");
    let mut random = Random::of("areas of the largest images");
    let at_an_edge = |z: u32| z == 0 || z == 255;
    let rim: Vec<u16> = (0..65536).map(|i| u16::from(at_an_edge(i % 256) || at_an_edge(i / 256))).collect();
    has_areas(&mut random, "a rim of one pixel", 8, &rim, &[65536, -254 * 254, 254 * 254]);
    cases.ran();
    // 256 pixels in a line, 128 teeth of 255 and as many gaps
    let comb = [vec![256 + 128 * 255], vec![255; 128]].concat();
    // from the first pixel 255 steps, then twice 255, 253, .., 1
    let spiral = 1 + 255 + 2 * 128 * 128;
    // each ring's square and the square inside it, which the innermost ring has not
    let squares = (1..=128).rev().flat_map(|half: i32| [4 * half * half, -4 * (half - 1) * (half - 1)]);
    let rings: Vec<i32> = squares.take(255).collect();
    let rasters = rasters::structured(&mut random, 8);
    for (kind, areas) in [
        ("checkerboard", vec![1; 65536]),
        ("comb joined in the north", comb.clone()),
        ("comb joined in the south", comb.clone()),
        ("comb joined in the east", comb),
        ("spiral", vec![spiral, 65536 - spiral]),
        ("rings of 2 colours", rings.clone()),
        ("rings of many colours", rings),
        // 128 by 128 pixels, of which 255 lie at the east or the south edge and the others are holes
        ("pixels apart, each a hole", [vec![65536 - 255], vec![-1; 127 * 127], vec![1; 128 * 128]].concat()),
        // the first pixel, the triangles on both sides of the diagonal, the other pixels of the diagonal
        ("diagonal chain", [vec![1, 128 * 255, 128 * 255], vec![1; 255]].concat()),
    ] {
        let (_, raster) = rasters.iter().find(|(name, _)| *name == kind).expect("a raster of this kind");
        has_areas(&mut random, kind, 8, raster, &areas);
        cases.ran();
    }
    cases.end();
}
