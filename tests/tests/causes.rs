//! Causes 1 to 8 of block lists, 18 of outlines, 19 and 20 of an order, 21 of a pixel, and 22 to 24 of an opening at the cutter: each alone,
//! each pair that can occur together, and their order, in one list and in two.

use std::collections::BTreeSet;
use tests::calls::{
    agrees, answer, blocks_from_outlines, check_order, least_order, number as numbering, overlay, raster_from_blocks,
    touch_up, trace, BlocksOut,
};
use tests::cases::Cases;
use tests::expected::{needs, opened, order_needs, Model};
use tests::faults;
use tests::figures::{FIGURE_5A, FIGURE_5B};
use tests::model::blocks::{conditions, number, paint, quadtree, Blocks};
use tests::model::overlay::overlay as overlaid;
use tests::model::restoring::{restored, Given};
use tests::model::touching_up::{touch_up as touched_up, Speck};
use tests::nettlestair::{check, open, OpenOutline, State};
use tests::random::Random;
use tests::rasters;

/// Holds the check, blocks to raster, numbering, tracing, both functions of cutting orders, the laying of one list over another and the
/// touching up of pixels inside and outside to one number, with lists that are long enough and with shorter ones, for tracing also with the
/// area list alone one too short: 21, 8, 19 and 20 are looked for after 1 to 7.
fn judged(what: &str, random: &mut Random, n: u32, blocks: &Blocks, expected: u32) {
    let Blocks { codes, levels, colours } = blocks;
    assert_eq!(check(n, codes, levels, colours), expected, "{what}: check of n = {n}, {blocks}");
    let need = if n > 8 { 16 } else { 1 << (2 * n) };
    for length in [need, need - 1, 0] {
        let out = raster_from_blocks(random, n, blocks, length);
        let difference = match expected {
            0 if length == need => out.difference(&paint(n, blocks)),
            0 => out.difference_from_refusal(8),
            _ => out.difference_from_refusal(expected),
        };
        agrees(format_args!("{what}: raster of {length} from n = {n}, {blocks}"), difference);
    }
    let accepted = Blocks::of(&[(0, n as u8, 256)]);
    let [x, y] = [(); 2].map(|()| random.below(if n > 8 { 512 } else { 1 << n }) as u32);
    let colour = [256, random.colour()][random.below(2)];
    for lengths in [[need; 3], [need - 1; 3], [0; 3]] {
        for (first, second) in [(blocks, &accepted), (&accepted, blocks), (blocks, blocks)] {
            let out = overlay(random, n, first, second, lengths);
            let difference = differs(expected, &out, || overlaid(n, first, second, lengths));
            agrees(format_args!("{what}: n = {n}, {first} over {second}, lists of {lengths:?}"), difference);
        }
        for speck in [(x, y), (x + 512, y), (x, y + 512)].map(|(x, y)| Speck { x, y, colour }) {
            let out = touch_up(random, n, blocks, speck, lengths);
            let difference = differs(expected, &out, || touched_up(n, blocks, speck, lengths));
            agrees(format_args!("{what}: n = {n}, {speck} of {blocks}, lists of {lengths:?}"), difference);
        }
    }
    let model = Model::of(n, blocks);
    assert_eq!(model.number, expected, "{what}: the model of n = {n}, {blocks}");
    let [labels, work, ..] = needs(n, blocks.len());
    for lengths in [[labels, work], [labels, work - 1], [labels.max(1) - 1, work], [0, 0]] {
        let out = numbering(random, n, blocks, lengths);
        let difference = out.difference(&model.numbering(lengths));
        agrees(format_args!("{what}: numbers with lists of {lengths:?} from n = {n}, {blocks}"), difference);
    }
    // of larger images only what needs no flood for each pair of regions
    let small = !(4..=8).contains(&n);
    let orders: [&[u32]; 5] = [&[], &[0], &[1, 0], &[0, 1], &[u32::MAX]];
    for lengths in [[labels, work], [labels, work - 1], [labels.max(1) - 1, work], [0, 0]] {
        for order in orders.into_iter().filter(|order| small || order.is_empty()) {
            let out = check_order(random, n, blocks, order, lengths);
            let difference = out.difference(&model.judging(order, lengths));
            agrees(
                format_args!("{what}: order {order:?} with lists of {lengths:?} from n = {n}, {blocks}"),
                difference,
            );
        }
    }
    let need = order_needs(n, blocks.len());
    let [labels, work, order] = need;
    let order_too_short = [labels, work, order.max(1) - 1];
    for lengths in [need, order_too_short, [0; 3]].into_iter().skip(if small || expected != 0 { 0 } else { 1 }) {
        let out = least_order(random, n, blocks, lengths);
        let difference = out.difference(&model.least_order(lengths));
        agrees(format_args!("{what}: least order with lists of {lengths:?} from n = {n}, {blocks}"), difference);
    }
    let need = needs(n, blocks.len());
    let [labels, work, owners, ends, corners, areas] = need;
    let areas_too_short = [labels, work, owners, ends, corners, areas - 1];
    for lengths in [need, need.map(|need| need.max(1) - 1), areas_too_short, [0; 6]] {
        let out = trace(random, n, blocks, lengths);
        let difference = out.difference(&model.tracing(lengths));
        agrees(format_args!("{what}: outlines with lists of {lengths:?} from n = {n}, {blocks}"), difference);
    }
}

/// What differs from a refusal with this cause or, where it is 0, from what the model answers.
fn differs(cause: u32, out: &BlocksOut, model: impl FnOnce() -> Result<Blocks, u32>) -> Option<String> {
    match cause {
        0 => out.difference_from_model(&model()),
        _ => out.difference_from_refusal(cause),
    }
}

/// A block list whose causes are known.
struct Row {
    what: &'static str,
    n: u32,
    /// code, level, colour
    blocks: &'static [(u32, u8, u16)],
    /// The causes whose condition holds somewhere in the list.
    causes: &'static [u32],
    /// The one that is answered.
    number: u32,
}

const ROWS: &[Row] = &[
    // accepted
    Row { what: "one pixel", n: 0, blocks: &[(0, 0, 65_535)], causes: &[], number: 0 },
    Row { what: "four colours", n: 1, blocks: &[(0, 0, 1), (1, 0, 2), (2, 0, 3), (3, 0, 4)], causes: &[], number: 0 },
    Row {
        what: "four of a colour that do not start at a multiple",
        n: 2,
        blocks: &[
            (0, 0, 1),
            (1, 0, 2),
            (2, 0, 2),
            (3, 0, 2),
            (4, 0, 2),
            (5, 0, 1),
            (6, 0, 2),
            (7, 0, 2),
            (8, 1, 2),
            (12, 1, 2),
        ],
        causes: &[],
        number: 0,
    },
    // alone
    Row { what: "1", n: 9, blocks: &[(0, 9, 1)], causes: &[1], number: 1 },
    Row { what: "3", n: 1, blocks: &[(0, 2, 1)], causes: &[3], number: 3 },
    Row {
        what: "4, a code too large",
        n: 1,
        blocks: &[(0, 0, 1), (1, 0, 2), (2, 0, 1), (4, 0, 2)],
        causes: &[4],
        number: 4,
    },
    Row {
        what: "4, a code too small",
        n: 1,
        blocks: &[(0, 0, 1), (1, 0, 2), (1, 0, 1), (3, 0, 2)],
        causes: &[4],
        number: 4,
    },
    Row { what: "4, a block after a full image", n: 1, blocks: &[(0, 1, 1), (4, 0, 2)], causes: &[4], number: 4 },
    Row { what: "4, 65536 more than the sum", n: 8, blocks: &[(65536, 8, 1)], causes: &[4], number: 4 },
    Row { what: "4, 65536 after a full image", n: 8, blocks: &[(0, 8, 1), (65536, 0, 1)], causes: &[4], number: 4 },
    Row { what: "5", n: 1, blocks: &[(0, 0, 1), (1, 1, 2)], causes: &[5], number: 5 },
    Row { what: "6, no block", n: 3, blocks: &[], causes: &[6], number: 6 },
    Row { what: "6, one pixel short", n: 1, blocks: &[(0, 0, 1), (1, 0, 2), (2, 0, 1)], causes: &[6], number: 6 },
    Row { what: "7", n: 1, blocks: &[(0, 0, 5), (1, 0, 5), (2, 0, 5), (3, 0, 5)], causes: &[7], number: 7 },
    Row {
        what: "7, at the end",
        n: 2,
        blocks: &[(0, 1, 1), (4, 1, 1), (8, 1, 1), (12, 0, 1), (13, 0, 1), (14, 0, 1), (15, 0, 1)],
        causes: &[7],
        number: 7,
    },
    // 1 with each other
    Row { what: "1 and 3", n: 9, blocks: &[(0, 10, 1)], causes: &[1, 3], number: 1 },
    Row { what: "1 and 4", n: 9, blocks: &[(0, 9, 1), (262144, 0, 1)], causes: &[1, 4], number: 1 },
    Row { what: "1 and 5", n: 9, blocks: &[(0, 0, 1), (1, 9, 1)], causes: &[1, 5], number: 1 },
    Row { what: "1 and 6", n: 9, blocks: &[], causes: &[1, 6], number: 1 },
    Row {
        what: "1 and 7",
        n: 9,
        blocks: &[(0, 8, 1), (65536, 8, 1), (131072, 8, 1), (196608, 8, 1)],
        causes: &[1, 7],
        number: 1,
    },
    // 3 with each later one. 3 and 6 exclude each other: a block of a level above n has more than 4^n pixels.
    Row { what: "3 and 4 in one block", n: 1, blocks: &[(16, 2, 1)], causes: &[3, 4], number: 3 },
    Row { what: "3 before 4", n: 1, blocks: &[(0, 2, 1), (5, 0, 1)], causes: &[3, 4], number: 3 },
    Row { what: "4 before 3", n: 1, blocks: &[(1, 0, 1), (16, 2, 1)], causes: &[3, 4], number: 4 },
    Row { what: "3 in a block after a full image", n: 1, blocks: &[(0, 1, 1), (16, 2, 1)], causes: &[3, 4], number: 3 },
    Row { what: "3 and 5 in one block", n: 1, blocks: &[(0, 0, 1), (1, 2, 1)], causes: &[3, 5], number: 3 },
    Row { what: "3 before 5", n: 1, blocks: &[(0, 2, 1), (16, 0, 1), (17, 1, 1)], causes: &[3, 5], number: 3 },
    Row { what: "5 before 3", n: 1, blocks: &[(0, 0, 1), (1, 1, 1), (5, 2, 1)], causes: &[3, 5], number: 5 },
    Row {
        what: "3 before 7",
        n: 2,
        blocks: &[(0, 3, 1), (64, 0, 1), (65, 0, 1), (66, 0, 1), (67, 0, 1)],
        causes: &[3, 7],
        number: 3,
    },
    Row {
        what: "7 before 3, which is after a full image",
        n: 1,
        blocks: &[(0, 0, 1), (1, 0, 1), (2, 0, 1), (3, 0, 1), (16, 2, 1)],
        causes: &[3, 4, 7],
        number: 3,
    },
    // 4 with each later one
    Row { what: "4 and 5 in one block", n: 1, blocks: &[(2, 1, 1)], causes: &[4, 5], number: 4 },
    Row { what: "4 before 5", n: 1, blocks: &[(1, 0, 1), (1, 1, 1)], causes: &[4, 5], number: 4 },
    Row { what: "5 before 4", n: 1, blocks: &[(0, 0, 1), (1, 1, 1), (9, 0, 1)], causes: &[4, 5], number: 5 },
    Row { what: "4 and 6", n: 1, blocks: &[(0, 0, 1), (2, 0, 2)], causes: &[4, 6], number: 4 },
    Row {
        what: "7 before 4, which is after a full image",
        n: 1,
        blocks: &[(0, 0, 1), (1, 0, 1), (2, 0, 1), (3, 0, 1), (4, 0, 1)],
        causes: &[4, 7],
        number: 4,
    },
    Row {
        what: "4 before 7",
        n: 1,
        blocks: &[(1, 0, 2), (1, 0, 2), (4, 0, 1), (3, 0, 1), (4, 0, 1), (5, 0, 1)],
        causes: &[4, 7],
        number: 4,
    },
    // 5 with each later one
    Row { what: "5 and 6", n: 2, blocks: &[(0, 0, 1), (1, 1, 2)], causes: &[5, 6], number: 5 },
    Row {
        what: "7 before 5",
        n: 2,
        blocks: &[
            (0, 0, 1),
            (1, 0, 1),
            (2, 0, 1),
            (3, 0, 1),
            (4, 0, 1),
            (5, 1, 2),
            (9, 1, 3),
            (13, 0, 1),
            (14, 0, 2),
            (15, 0, 3),
        ],
        causes: &[5, 7],
        number: 5,
    },
    // 6 and 7
    Row { what: "6 and 7", n: 2, blocks: &[(0, 0, 1), (1, 0, 1), (2, 0, 1), (3, 0, 1)], causes: &[6, 7], number: 6 },
];

#[test]
fn each_cause_and_each_pair() {
    let mut cases = Cases::of("causes");
    let mut random = Random::of("causes");
    let mut seen = BTreeSet::new();
    for row in ROWS {
        let blocks = Blocks::of(row.blocks);
        let Blocks { codes, levels, colours } = &blocks;
        assert_eq!(conditions(row.n, codes, levels, colours), row.causes, "{}: the row's causes", row.what);
        assert_eq!(number(row.n, codes, levels, colours), row.number, "{}: the model", row.what);
        judged(row.what, &mut random, row.n, &blocks, row.number);
        seen.insert(row.causes.to_vec());
        cases.ran();
        seen.extend(unlike_lengths(row, &mut random, &mut cases));
    }
    // Every cause alone and every pair, but for 3 and 6, which exclude each other.
    for a in 1..=7 {
        assert!(seen.contains(&vec![a]), "{a} alone");
        for b in a + 1..=7 {
            assert_eq!(seen.contains(&vec![a, b]), (a, b) != (3, 6), "{a} and {b}");
        }
    }
    cases.end();
}

/// Cause 2 beside those of a row. It is answered after 1 and before all else.
fn unlike_lengths(row: &Row, random: &mut Random, cases: &mut Cases) -> Vec<Vec<u32>> {
    let expected = if row.n > 8 { 1 } else { 2 };
    let variants = of_unlike_lengths(&Blocks::of(row.blocks));
    for blocks in &variants {
        assert_eq!(number(row.n, &blocks.codes, &blocks.levels, &blocks.colours), expected, "{}: the model", row.what);
        judged(row.what, random, row.n, blocks, expected);
        cases.ran();
    }
    variants.iter().map(|b| conditions(row.n, &b.codes, &b.levels, &b.colours)).collect()
}

/// A list with one of its three parts, or two, longer or empty.
fn of_unlike_lengths(whole: &Blocks) -> Vec<Blocks> {
    let mut variants = vec![whole.clone(); 6];
    variants[0].codes.push(0);
    variants[1].levels.push(0);
    variants[2].colours.push(0);
    variants[3].codes.extend([0; 300]);
    variants[3].levels.extend([0; 2]);
    variants[4].levels.push(0);
    variants[4].colours.push(0);
    variants[5].colours.push(0);
    variants[5].codes.push(0);
    for empty in 0..3 {
        let mut variant = whole.clone();
        variant.push(0, 0, 0);
        match empty {
            0 => variant.codes.clear(),
            1 => variant.levels.clear(),
            _ => variant.colours.clear(),
        }
        variants.push(variant);
    }
    variants
}

/// The lists of the rows with this n, also of unlike lengths, each with its number.
fn lists_of(n: u32) -> Vec<(u32, Blocks)> {
    let mut lists = Vec::new();
    for row in ROWS.iter().filter(|row| row.n == n) {
        let blocks = Blocks::of(row.blocks);
        let unlike = if n > 8 { 1 } else { 2 };
        lists.extend(of_unlike_lengths(&blocks).into_iter().map(|blocks| (unlike, blocks)));
        lists.push((row.number, blocks));
    }
    lists
}

/// One list over another: of each pair of lists with n = 1 the first one's cause is answered before the second one's, and that before
/// 8, which one list that is too short suffices for. With n = 9 all of them are 1.
#[test]
fn causes_of_two_lists() {
    let mut cases = Cases::of("causes of two lists");
    let mut random = Random::of("causes of two lists");
    let lists = lists_of(1);
    let mut seen = BTreeSet::new();
    for (a, first) in &lists {
        for (b, second) in &lists {
            for (lengths, c) in [([4, 5, 6], 0), ([3, 4, 4], 8), ([4, 3, 4], 8), ([4, 4, 3], 8)] {
                let number = [*a, *b, c].into_iter().find(|&number| number != 0);
                let expected = overlaid(1, first, second, lengths);
                assert_eq!(expected.as_ref().err().copied(), number, "the model: {first} over {second}, {lengths:?}");
                let out = overlay(&mut random, 1, first, second, lengths);
                let difference = out.difference_from_model(&expected);
                agrees(format_args!("{first} over {second}, lists of {lengths:?}"), difference);
                let out = overlay(&mut random, 9, first, second, lengths);
                let difference = out.difference_from_refusal(1);
                agrees(format_args!("n = 9, {first} over {second}, lists of {lengths:?}"), difference);
                seen.insert((*a, *b, c));
                cases.ran();
            }
        }
    }
    let numbers = [0, 2, 3, 4, 5, 6, 7];
    let pairs = numbers.into_iter().flat_map(|a| numbers.map(|b| (a, b)));
    assert_eq!(seen, pairs.flat_map(|(a, b)| [(a, b, 0), (a, b, 8)]).collect());
    cases.end();
}

/// The list of figure 5(a), in which region 0 surrounds region 1, and the same with each cause 1 to 7 put into it, each with its n and its
/// number.
fn with_each_cause() -> Vec<(u32, Blocks, u32)> {
    let accepted = quadtree(2, &FIGURE_5A);
    let one_less = |blocks: &mut Blocks| {
        blocks.codes.pop();
        blocks.levels.pop();
        blocks.colours.pop();
    };
    let with = |change: fn(&mut Blocks)| {
        let mut blocks = accepted.clone();
        change(&mut blocks);
        blocks
    };
    vec![
        (2, accepted.clone(), 0),
        (9, accepted.clone(), 1),
        (2, with(|blocks| blocks.levels.push(0)), 2),
        (2, with(|blocks| blocks.levels[15] = 3), 3),
        (2, with(|blocks| blocks.codes[15] = 14), 4),
        (2, with(|blocks| blocks.levels[1] = 1), 5),
        (2, with(one_less), 6),
        (2, with(|blocks| blocks.colours[3] = 1), 7),
    ]
}

/// Orders: each cause 1 to 7 before 8, which one list that is too short suffices for, that before 19, and that before 20.
#[test]
fn causes_of_orders() {
    let mut cases = Cases::of("causes of orders");
    let mut random = Random::of("causes of orders");
    let orders: [(&[u32], u32); 13] = [
        (&[1, 0], 0),
        (&[0, 1], 20),
        (&[], 19),
        (&[0], 19),
        (&[1], 19),
        (&[0, 0], 19),
        (&[1, 1], 19),
        (&[1, 2], 19),
        (&[1, u32::MAX], 19),
        (&[1, 1 << 16], 19),
        (&[1, 0, 0], 19),
        // 19 and 20
        (&[0, 1, 0], 19),
        (&[0, 1, 2], 19),
    ];
    let mut seen = BTreeSet::new();
    for (n, blocks, a) in with_each_cause() {
        let model = Model::of(n, &blocks);
        assert_eq!(model.number, a, "the model of n = {n}, {blocks}");
        let need = order_needs(n, blocks.len());
        for (short, b) in [([0, 0, 0], 0), ([1, 0, 0], 8), ([0, 1, 0], 8), ([1, 1, 0], 8), (need, 8)] {
            let lengths = [0, 1, 2].map(|list| need[list] - short[list]);
            for (order, c) in orders {
                let number = [a, b, c].into_iter().find(|&number| number != 0).unwrap_or(0);
                let out = check_order(&mut random, n, &blocks, order, [lengths[0], lengths[1]]);
                assert_eq!(out.answer, number, "n = {n}, order {order:?} of {blocks}, lists of {lengths:?}");
                let difference = out.difference(&model.judging(order, [lengths[0], lengths[1]]));
                agrees(format_args!("n = {n}, order {order:?} of {blocks}, lists of {lengths:?}"), difference);
                seen.insert((a, b, c));
                cases.ran();
            }
            for (order_too_short, c) in [(0, 0), (1, 8)] {
                let lengths = [lengths[0], lengths[1], lengths[2].saturating_sub(order_too_short)];
                let number = [a, b, c].into_iter().find(|&number| number != 0).unwrap_or(0);
                let out = least_order(&mut random, n, &blocks, lengths);
                assert_eq!(out.answer.number, number, "n = {n}, {blocks}, lists of {lengths:?}");
                let difference = out.difference(&model.least_order(lengths));
                agrees(format_args!("n = {n}, {blocks}, lists of {lengths:?}"), difference);
                cases.ran();
            }
        }
    }
    let numbers = (0..=7).flat_map(|a| [0, 8].map(|b| (a, b)));
    assert_eq!(seen, numbers.flat_map(|(a, b)| [0, 19, 20].map(|c| (a, b, c))).collect());
    cases.end();
}

/// Pixels in an image of side 2^n, and others: one coordinate alone outside or both, just outside or far, also such that the low digits
/// alone are those of a pixel inside. Each with 0 or 21.
fn pixels(n: u32) -> Vec<(u32, u32, u32)> {
    let side = 1 << n;
    let last = side - 1;
    let inside = [(0, 0), (last, 0), (0, last), (last, last), (last / 2, last)].map(|(x, y)| (x, y, 0));
    let far = [8, 9, 15, 16, 24, 30, 31].map(|digit| (1 << digit) | (last / 2));
    let outside = far.into_iter().chain([side, side + 1, 2 * side, u32::MAX - last, u32::MAX]).filter(|&z| z > last);
    let with_one = outside.flat_map(|z| [(z, 0), (0, z), (z, last), (last, z), (z, z), (z, u32::MAX), (side, z)]);
    inside.into_iter().chain(with_one.map(|(x, y)| (x, y, 21))).collect()
}

/// Touching up: a list's cause is answered before 21, and that before 8, which one list that is too short suffices for.
#[test]
fn causes_of_touching_up() {
    let mut cases = Cases::of("causes of touching up");
    let mut random = Random::of("causes of touching up");
    let mut seen = BTreeSet::new();
    for n in [0, 1, 2, 3, 9] {
        let need = if n > 8 { 16 } else { 1 << (2 * n) };
        for (a, blocks) in &lists_of(n) {
            for (x, y, b) in pixels(n) {
                for (short, c) in [([0; 3], 0), ([1, 0, 0], 8), ([0, 1, 0], 8), ([0, 0, 1], 8), ([need; 3], 8)] {
                    let number = [*a, b, c].into_iter().find(|&number| number != 0);
                    let lengths = short.map(|short| need - short);
                    let speck = Speck { x, y, colour: random.colour() };
                    let expected = touched_up(n, blocks, speck, lengths);
                    assert_eq!(expected.as_ref().err().copied(), number, "the model: n = {n}, {speck} of {blocks}");
                    let out = touch_up(&mut random, n, blocks, speck, lengths);
                    let difference = out.difference_from_model(&expected);
                    agrees(format_args!("n = {n}, {speck} of {blocks}, lists of {lengths:?}"), difference);
                    seen.insert((*a, b, c));
                    cases.ran();
                }
            }
        }
    }
    let numbers = (0..=7).flat_map(|a| [0, 21].map(|b| (a, b)));
    assert_eq!(seen, numbers.flat_map(|(a, b)| [(a, b, 0), (a, b, 8)]).collect());
    cases.end();
}

/// Touching up images of every side: 21 exactly for the pixels outside, before 8.
#[test]
fn pixels_outside() {
    let mut cases = Cases::of("pixels outside");
    let mut random = Random::of("pixels outside");
    for n in (0..=5).cycle().take(24).chain(6..=8) {
        let raster = rasters::any(&mut random, n);
        let blocks = quadtree(n, &raster);
        let need = raster.len();
        for (x, y, number) in pixels(n) {
            let speck = Speck { x, y, colour: raster[random.below(need)] };
            for lengths in [[need + 1, need, need], [need + 1, need - 1, need]] {
                let out = touch_up(&mut random, n, &blocks, speck, lengths);
                let difference = differs(number, &out, || touched_up(n, &blocks, speck, lengths));
                agrees(format_args!("n = {n}, {speck} of {blocks}, lists of {lengths:?}"), difference);
                cases.ran();
            }
        }
    }
    cases.end();
}

/// Outlines of figure 5(b), with garbage beyond the counts or without, and others that no image of its side has, each with 0 or 18.
fn given_outlines() -> Vec<(Given, u32)> {
    let right = Given::of(2, &FIGURE_5B);
    let with = |change: fn(&mut Given)| {
        let mut given = right.clone();
        change(&mut given);
        given
    };
    let longer = with(|given| {
        given.owners.push(7);
        given.ends.push(u32::MAX);
        given.corners.extend([0; 300]);
        given.colours.push(1);
    });
    let wrong: [fn(&mut Given); 12] = [
        |given| given.regions += 1,
        |given| given.cycles -= 1,
        |given| given.corner_count = u32::MAX,
        |given| given.owners[2] = 0,
        |given| given.ends[0] = 12,
        |given| given.corners[17] += 1,
        |given| given.colours[1] = given.colours[0],
        |given| given.owners.clear(),
        |given| given.ends.truncate(2),
        |given| given.corners.truncate(17),
        |given| given.colours.clear(),
        |given| *given = Given::default(),
    ];
    let wrong = wrong.map(|change| (with(change), 18));
    [(right.clone(), 0), (longer, 0)].into_iter().chain(wrong).collect()
}

/// The dial from its outlines: 1 before 8, which one list that is too short suffices for, and that before 18. For n = 9 too there are lists
/// that are long enough, so that 1 is alone.
#[test]
fn causes_of_outlines() {
    let mut cases = Cases::of("causes of outlines");
    let mut random = Random::of("causes of outlines");
    let mut seen = BTreeSet::new();
    for (n, a) in [(2, 0), (9, 1), (10, 1), (256, 1), (258, 1), (1 << 31 | 2, 1), (u32::MAX, 1)] {
        let whole = if n == 9 { 1 << 18 } else { 16 };
        let need = [whole, whole, whole, 8 * whole];
        let short = [[1, 0, 0, 0], [0, 1, 0, 0], [0, 0, 1, 0], [0, 0, 0, 1], [1; 4], need].map(|short| (short, 8));
        for (given, c) in given_outlines() {
            for (short, b) in [([0; 4], 0)].into_iter().chain(short) {
                let lengths = [0, 1, 2, 3].map(|list| need[list] - short[list]);
                let number = [a, b, c].into_iter().find(|&number| number != 0);
                let expected = restored(n, &given, lengths);
                assert_eq!(expected.as_ref().err().copied(), number, "the model: n = {n}, {given}, {lengths:?}");
                let out = blocks_from_outlines(&mut random, n, &given, lengths);
                let difference = out.difference_from_model(&expected);
                agrees(format_args!("n = {n}, {given}, lists of {lengths:?}"), difference);
                seen.insert((a, b, c));
                cases.ran();
            }
        }
    }
    let numbers = [0, 1].into_iter().flat_map(|a| [0, 8].map(|b| (a, b)));
    assert_eq!(seen, numbers.flat_map(|(a, b)| [(a, b, 0), (a, b, 18)]).collect());
    cases.end();
}

/// Cycles, each with a count, and 22 where it is not below that, else 0: around powers of two, the highest too.
fn cycles_and_counts() -> Vec<(u32, u32, u32)> {
    let edges = [0, 1, 7, 8, 255, 256, 65_535, 65_536, (1 << 31) - 1, 1 << 31, u32::MAX - 1, u32::MAX];
    let pairs = edges.into_iter().flat_map(|cycle| edges.map(|count| (cycle, count)));
    pairs.map(|(cycle, count)| (cycle, count, if cycle < count { 0 } else { 22 })).collect()
}

/// Openings at the cutter: 22 before 23, and that before 24. The cycle is open at each place by turns, or stands at an unused one or at none;
/// the others differ from it in one digit each. A length above 8 counts as 8. Refused or not, the state is as the model says.
#[test]
fn causes_of_openings() {
    let mut cases = Cases::of("causes of openings");
    let mut random = Random::of("causes of openings");
    let mut seen = BTreeSet::new();
    for (cycle, count, a) in cycles_and_counts() {
        for length in (0..=9).chain([16, 17, 256, 263, 65_536, 1 << 31, u32::MAX]) {
            for place in (0..8).map(Some).chain([None]) {
                let mut state = State { length, ..State::default() };
                for (outline, digit) in state.outlines.iter_mut().zip((0..32).step_by(4)) {
                    *outline = OpenOutline { cycle: cycle ^ 8 << digit, handed: random.word() };
                }
                place.into_iter().for_each(|place: usize| state.outlines[place].cycle = cycle);
                let b = if place.is_some_and(|place| place < length as usize) { 23 } else { 0 };
                let c = if length < 8 { 0 } else { 24 };
                let number = [a, b, c].into_iter().find(|&number| number != 0).unwrap_or(0);
                let expected = opened(state, cycle, count);
                assert_eq!(expected.number, number, "the model: cycle {cycle} of {count} in {state:?}");
                let difference = answer(expected, open(state, cycle, count));
                agrees(format_args!("cycle {cycle} of {count} opened in {state:?}"), difference);
                seen.insert((a, b, c));
                cases.ran();
            }
        }
    }
    let numbers = [0, 22].into_iter().flat_map(|a| [0, 23].map(|b| (a, b)));
    assert_eq!(seen, numbers.flat_map(|(a, b)| [(a, b, 0), (a, b, 24)]).collect());
    cases.end();
}

#[test]
fn large_n_is_refused_before_all_else() {
    let mut cases = Cases::of("large n");
    let mut random = Random::of("large n");
    let mut sides: Vec<u32> = (9..80).collect();
    sides.extend([255, 256, 257, 264, 65535, 65536, 65544, 1 << 30, 1 << 31, (1 << 31) + 4, u32::MAX - 7, u32::MAX]);
    for n in sides {
        for row in ROWS {
            judged(row.what, &mut random, n, &Blocks::of(row.blocks), 1);
            cases.ran();
        }
    }
    cases.end();
}

/// Cause 7 looks at whole colours: four siblings have two colours in every way, which differ in one binary digit, in one byte or in
/// both. They are 7 exactly where one of the two is there alone.
#[test]
fn siblings_of_two_colours() {
    let mut cases = Cases::of("siblings of two colours");
    let mut random = Random::of("siblings of two colours");
    let digits = (0..16).map(|digit| 1 << digit);
    let differences: Vec<u16> = digits.chain([0x00FF, 0xFF00, 0xFFFF, 0x0101]).collect();
    for difference in differences {
        for colour in [0, 0x00FF, 0x0100, 0xFFFF, random.colour()] {
            for which in 0..16 {
                let siblings: Vec<u16> =
                    (0..4).map(|i| if which >> i & 1 == 1 { colour ^ difference } else { colour }).collect();
                let expected = if which == 0 || which == 15 { 7 } else { 0 };
                // four pixels, four squares of 2 by 2, then four pixels in each quadrant by turns, the others a block each
                let four = |first: u32, level: u8| {
                    (0..4)
                        .map(move |i| first + (i << (2 * level)))
                        .zip(&siblings)
                        .map(move |(code, &k)| (code, level, k))
                };
                let mut lists = vec![(1, four(0, 0).collect::<Vec<_>>()), (2, four(0, 1).collect())];
                for quadrant in 0..4 {
                    let block = |quadrant: u32| (4 * quadrant, 1, colour);
                    let (before, after) = ((0..quadrant).map(block), (quadrant + 1..4).map(block));
                    lists.push((2, before.chain(four(4 * quadrant, 0)).chain(after).collect()));
                }
                for (n, blocks) in lists {
                    judged("siblings", &mut random, n, &Blocks::of(&blocks), expected);
                    cases.ran();
                }
            }
        }
    }
    cases.end();
}

#[test]
fn every_small_list() {
    let mut cases = Cases::of("small lists");
    // colours: one, or two that differ in the low byte alone or in the high byte alone
    let rows: [(u32, usize, u32, u8, &[u16]); 5] = [
        (0, 3, 4, 3, &[0, 1]),
        (0, 3, 4, 3, &[0, 256]),
        (1, 4, 5, 3, &[0, 1]),
        (1, 4, 5, 3, &[0, 256]),
        (1, 5, 6, 2, &[0]),
    ];
    for (n, longest, codes, levels, colours) in rows {
        let letters: Vec<(u32, u8, u16)> =
            (0..codes).flat_map(|c| (0..levels).flat_map(move |l| colours.iter().map(move |&k| (c, l, k)))).collect();
        for length in 0..=longest {
            every_list(n, &letters, length, &mut Blocks::default(), &mut cases);
        }
    }
    cases.end();
}

/// Every list of `more` more blocks after those in `blocks`.
fn every_list(n: u32, letters: &[(u32, u8, u16)], more: usize, blocks: &mut Blocks, cases: &mut Cases) {
    let Blocks { codes, levels, colours } = &*blocks;
    if more == 0 {
        let expected = number(n, codes, levels, colours);
        assert_eq!(check(n, codes, levels, colours), expected, "n = {n}, {blocks}");
        cases.ran();
        return;
    }
    for &(code, level, colour) in letters {
        blocks.push(code, level, colour);
        every_list(n, letters, more - 1, blocks, cases);
        blocks.codes.pop();
        blocks.levels.pop();
        blocks.colours.pop();
    }
}

#[test]
fn damaged_lists() {
    let mut cases = Cases::of("damaged lists");
    let mut random = Random::of("damaged lists");
    let mut seen = BTreeSet::new();
    for n in 0..=8 {
        for _ in 0..if n < 7 { 40 } else { 4 } {
            for raster in rasters::of_every_kind(&mut random, n) {
                let mut blocks = quadtree(n, &raster);
                for _ in 0..=random.below(3) {
                    faults::in_blocks(&mut random, &mut blocks);
                }
                let Blocks { codes, levels, colours } = &blocks;
                let expected = number(n, codes, levels, colours);
                judged("damaged list", &mut random, n, &blocks, expected);
                // A list is accepted exactly where it is the quadtree of what it paints.
                assert!(expected != 0 || quadtree(n, &paint(n, &blocks)) == blocks, "n = {n}, {blocks}");
                seen.insert(expected);
                cases.ran();
            }
        }
    }
    assert_eq!(seen, BTreeSet::from([0, 2, 3, 4, 5, 6, 7]));
    cases.end();
}
