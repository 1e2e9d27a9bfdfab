//! The outlines of all regions against a separate tracer: dials, figures, structured and random rasters, and what becomes of
//! the lent lists. Each listed outline is taken by its stretch and written as path data; the chain of its unit steps gives it again.

use tests::calls::{agrees, trace, Out, TraceOut};
use tests::cases::Cases;
use tests::compare::Shown;
use tests::damage::each_place;
use tests::expected::{needs, Model};
use tests::figures::{self, from_corner};
use tests::lent::Lent;
use tests::model::blocks::{quadtree, Blocks};
use tests::model::paths::{chain, corner, is_cycle_form, svg, Point};
use tests::nettlestair::{self, Stretch, Traced};
use tests::random::Random;
use tests::rasters;
use tests::traced::traced;

/// The outlines of a raster as the library lists them.
struct Outlines {
    owners: Vec<u32>,
    cycles: Vec<Vec<u32>>,
}

impl Outlines {
    /// One line a region: the path data of its cycles joined.
    fn lines(&self) -> Vec<String> {
        let mut lines: Vec<String> = Vec::new();
        for (&owner, cycle) in self.owners.iter().zip(&self.cycles) {
            lines.resize(lines.len().max(owner as usize + 1), String::new());
            lines[owner as usize] += &svg(cycle);
        }
        lines
    }
}

/// Traces a raster's blocks with lists that are longer than needed by `more`, and takes each outline by its stretch.
fn outlined(random: &mut Random, n: u32, raster: &[u16], more: [usize; 6]) -> Outlines {
    let (TraceOut { answer, mut lists, .. }, model) = traced(random, n, &quadtree(n, raster), more);
    let [_, _, owners, ends, corners] = lists.each_mut().map(Lent::lend);
    let cycles = (0..answer.cycles).map(|k| {
        let Stretch { start, length } = nettlestair::cycle(corners, ends, answer.cycles, k);
        let stretch = &corners[start..start + length];
        assert_eq!(stretch, model.outlines().cycle(k as usize), "n = {n}, the stretch of cycle {k}");
        stretch.to_vec()
    });
    let outlines = Outlines { cycles: cycles.collect(), owners: owners[..answer.cycles as usize].to_vec() };
    let none = nettlestair::cycle(corners, ends, answer.cycles, answer.cycles);
    assert_eq!(none, Stretch { start: 0, length: 0 }, "there is no cycle after the last");
    outlines
}

/// Writes an outline as path data and reads the chain of its unit steps, with lists of exactly the need.
fn written(random: &mut Random, corners: &[u32]) {
    assert!(is_cycle_form(corners), "an outline is a cycle form: {}", Shown(corners));
    let text = Out::of(random, 9 + 4 * corners.len(), |list| nettlestair::svg(corners, list));
    agrees(format_args!("path data of {}", Shown(corners)), text.difference(svg(corners).as_bytes()));
    let digits = chain(corners);
    let read = Out::of(random, corners.len(), |list| nettlestair::read_chain(corners[0], &digits, list));
    agrees(format_args!("chain of {} read", Shown(corners)), read.difference(corners));
}

#[test]
fn dials() {
    let mut cases = Cases::of("outlines of dials");
    let mut random = Random::of("outlines of dials");
    let rows: [(&str, u32, &[u16], &[&str]); 6] = [
        ("1", 0, &[9], &["M0 0H1V1H0Z"]),
        ("2", 2, &figures::FIGURE_5B, &["M0 0H4V2H2V1H1V2H2V4H0Z", "M1 1H2V2H1Z", "M2 2H4V4H2Z"]),
        ("3", 2, &figures::FIGURE_5A, &["M0 0H4V4H0ZM1 3H3V1H1Z", "M1 1H3V3H1Z"]),
        ("4", 1, &[1, 2, 2, 1], &["M0 0H1V1H0Z", "M1 0H2V1H1Z", "M0 1H1V2H0Z", "M1 1H2V2H1Z"]),
        ("5", 1, &[1, 1, 2, 2], &["M0 0H2V1H0Z", "M0 1H2V2H0Z"]),
        ("12", 8, &[7; 65536], &["M0 0H256V256H0Z"]),
    ];
    for (dial, n, raster, lines) in rows {
        let outlines = outlined(&mut random, n, raster, [0; 6]);
        assert_eq!(outlines.lines(), lines, "dial {dial}");
        outlines.cycles.iter().for_each(|cycle| written(&mut random, cycle));
        cases.ran();
    }
    // the string of dial 1, read from (0,0)
    let outlines = outlined(&mut random, 0, &[9], [0; 6]);
    let read = Out::of(&mut random, 4, |list| nettlestair::read_chain(0, b"0321", list));
    agrees("the string of dial 1", read.difference(&outlines.cycles[0]));
    cases.ran();
    cases.end();
}

/// Dials 6 to 11 and n = 9: the refusals leave all six lists.
#[test]
fn refused_dials() {
    let mut cases = Cases::of("outlines of refused dials");
    let mut random = Random::of("outlines of refused dials");
    let rows: [(&str, u32, &[(u32, u8, u16)], u32); 8] = [
        ("6", 1, &[(0, 0, 5), (1, 0, 5), (2, 0, 5), (3, 0, 5)], 7),
        ("7, n=0", 0, &[], 6),
        ("7, n=8", 8, &[], 6),
        ("8", 1, &[(0, 0, 1), (2, 0, 2)], 4),
        ("9", 2, &[(0, 0, 1), (1, 1, 2)], 5),
        ("10", 1, &[(0, 1, 1), (4, 0, 2)], 4),
        ("11", 1, &[(0, 2, 1)], 3),
        ("12, n=9", 9, &[(0, 9, 1)], 1),
    ];
    for (dial, n, list, number) in rows {
        let mut blocks = Blocks::default();
        list.iter().for_each(|&(code, level, colour)| blocks.push(code, level, colour));
        for lengths in [needs(n, blocks.len()), [0; 6]] {
            let out = trace(&mut random, n, &blocks, lengths);
            assert_eq!(out.answer, Traced { number, regions: 0, cycles: 0, corners: 0 }, "dial {dial}");
            let difference = out.difference(&Model::of(n, &blocks).tracing(lengths));
            agrees(format_args!("dial {dial}, lengths {lengths:?}"), difference);
            cases.ran();
        }
    }
    cases.end();
}

/// The printed outlines of the papers: the same corners in the same order, from another start.
#[test]
fn figures_of_the_papers() {
    let mut cases = Cases::of("outlines of figures");
    let mut random = Random::of("outlines of figures");
    let printed: [&[&[Point]]; 3] = [
        &[&figures::FIGURE_1_A],
        &[&figures::FIGURE_5A_OUTER, &figures::FIGURE_5A_INNER, &figures::FIGURE_5A_B],
        &[&figures::FIGURE_5B_A],
    ];
    for ((figure, n, raster), printed) in figures::all().into_iter().zip(printed) {
        let outlines = outlined(&mut random, n, &raster, [2; 6]);
        assert!(printed.len() <= outlines.cycles.len(), "{figure}");
        for (cycle, printed) in outlines.cycles.iter().zip(printed) {
            assert_eq!(*cycle, from_corner(printed, cycle[0]), "{figure}");
            cases.ran();
        }
    }
    let (figure, n, raster) = figures::all().pop().expect("001's figure 1(a) is the last");
    let outlines = outlined(&mut random, n, &raster, [2; 6]);
    let region = outlines.owners.iter().position(|&owner| owner == 1).expect("the figure is region 1 of its array");
    let cycle = &outlines.cycles[region];
    let (x, y) = figures::TABLE_I_START;
    let start = corner(x, y);
    let read = Out::of(&mut random, cycle.len(), |list| nettlestair::read_chain(start, figures::TABLE_I_CHAIN, list));
    agrees(figure, read.difference(cycle));
    cases.ran();
    cases.end();
}

#[test]
fn structured_and_random_rasters() {
    let mut cases = Cases::of("outlines of rasters");
    let mut random = Random::of("outlines of rasters");
    let mut most = 0;
    for n in 0..=8 {
        for round in 0..[20, 20, 20, 20, 10, 5, 2, 1, 1][n as usize] {
            for (_, raster) in rasters::structured(&mut random, n) {
                let outlines = outlined(&mut random, n, &raster, [0, 1, 2, 3, 4, 5].map(|list| list * round));
                outlines.cycles.iter().for_each(|cycle| written(&mut random, cycle));
                most = most.max(outlines.cycles.len());
                cases.ran();
            }
        }
    }
    assert_eq!(most, 65536, "the checkerboard uses the whole owner list");
    cases.end();
}

#[test]
fn small_rasters() {
    let mut cases = Cases::of("outlines of small rasters");
    let mut random = Random::of("outlines of small rasters");
    for (n, raster) in rasters::small() {
        outlined(&mut random, n, &raster, if n == 1 { [0, 1, 0, 1, 0, 1] } else { [1, 0, 1, 0, 1, 0] });
        cases.ran();
    }
    cases.end();
}

/// A list one too short, of half the need, or empty, is 8 and all six stay; longer lists keep their tails. The needs are fixed by n
/// and the number of blocks, whatever the answer uses.
#[test]
fn lengths() {
    let mut cases = Cases::of("lengths for tracing");
    let mut random = Random::of("lengths for tracing");
    for n in 0..=8 {
        let one_block = ("one block", vec![7; 1 << (2 * n)]);
        for (kind, raster) in rasters::structured(&mut random, n).into_iter().chain([one_block]) {
            let blocks = quadtree(n, &raster);
            let model = Model::of(n, &blocks);
            let need = needs(n, blocks.len());
            let mut rows = vec![(need, 0), (need.map(|need| 2 * need + 7), 0), ([0; 6], 8)];
            for list in 0..6 {
                let with = |length: usize| {
                    let mut lengths = need;
                    lengths[list] = length;
                    lengths
                };
                rows.push((with(need[list] - 1), 8));
                if n < 7 || kind == "one block" {
                    rows.extend([(with(0), 8), (with(need[list] / 2), 8)]);
                    rows.extend([(with(need[list] + 1), 0), (with(3 * need[list]), 0)]);
                }
            }
            for (lengths, number) in rows {
                let out = trace(&mut random, n, &blocks, lengths);
                assert_eq!(out.answer.number, number, "n = {n}, {kind}, lengths {lengths:?}");
                let difference = out.difference(&model.tracing(lengths));
                agrees(format_args!("n = {n}, {kind}, lengths {lengths:?}"), difference);
                cases.ran();
            }
        }
    }
    cases.end();
}

/// The comparison can fail: with one entry of any list damaged, also one of a tail or a guard, or with another answer, it says
/// so.
#[test]
fn damage_is_seen() {
    let mut cases = Cases::of("damage of outlines listed");
    let mut random = Random::of("damage of outlines listed");
    for n in 0..=2 {
        for (_, raster) in rasters::structured(&mut random, n) {
            let blocks = quadtree(n, &raster);
            let need = needs(n, blocks.len());
            for lengths in [need.map(|need| need + 2), need.map(|need| need - 1)] {
                let expected = Model::of(n, &blocks).tracing(lengths);
                let mut out = trace(&mut random, n, &blocks, lengths);
                let damaged = |out: &TraceOut| out.difference(&expected);
                for list in 0..5 {
                    let written = &expected.lists[list];
                    each_place(&mut random, &mut cases, &mut out, |out| &mut out.lists[list], written, damaged);
                }
                each_place(&mut random, &mut cases, &mut out, |out| &mut out.areas[0], &expected.areas[0], damaged);
                let right = out.answer;
                for wrong in [
                    Traced { number: right.number + 1, ..right },
                    Traced { regions: right.regions + 1, ..right },
                    Traced { cycles: right.cycles + 1, ..right },
                    Traced { corners: right.corners + 1, ..right },
                ] {
                    out.answer = wrong;
                    assert!(out.difference(&expected).is_some(), "{wrong:?} for {right:?}");
                }
            }
        }
    }
    cases.end();
}
