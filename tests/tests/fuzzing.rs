//! Random and damaged inputs over all functions of the library, each compared with the model: 200,000 of them, small
//! ones mostly. NETTLESTAIR_FUZZ_SECONDS=N goes on for N seconds after those.

use std::collections::BTreeSet;
use std::time::{Duration, Instant};
use tests::calls::{self, Out, PictureOut, Way, FROM_BLOCK_ORDER, TO_BLOCK_ORDER};
use tests::cases::Cases;
use tests::compare::Shown;
use tests::cutter::{any_lists, any_state};
use tests::damage::one_part;
use tests::expected::{needs, opened, order_needs, turned, Model};
use tests::faults;
use tests::lent::{Entry, GUARD};
use tests::model::blocks::{location_code, number, paint, quadtree, Blocks};
use tests::model::orders::{raster_number, rearranged};
use tests::model::overlay::overlay as overlaid;
use tests::model::paths;
use tests::model::pgm::read_into;
use tests::model::restoring::{restored, restoring_needs};
use tests::model::touching_up::{touch_up as touched_up, Speck};
use tests::nettlestair::{self, Stretch};
use tests::outlines::random_outline;
use tests::pictures::sample_bytes;
use tests::random::Random;
use tests::rasters;
use tests::traced::outlines;

/// One input of a function: the number that the model gives, and what differs in the library's answer. Where `wrong` is 1
/// instead of 0, the answer is changed before it is compared, so that something differs.
type Try = fn(random: &mut Random, wrong: u32) -> (u32, Option<String>);

/// Each function with the numbers that it can answer; a location code, the stretch of a cycle and a turn have none.
const FUNCTIONS: [(&str, Try, &[u32]); 19] = [
    ("fuzzing, codes", code, &[0]),
    ("fuzzing, check", check, &[0, 1, 2, 3, 4, 5, 6, 7]),
    ("fuzzing, raster to blocks", blocks_from_raster, &[0, 1, 8, 9]),
    ("fuzzing, blocks to raster", raster_from_blocks, &[0, 1, 2, 3, 4, 5, 6, 7, 8]),
    ("fuzzing, to block order", |random, wrong| rearranging(random, wrong, &TO_BLOCK_ORDER), &[0, 1, 8, 9]),
    ("fuzzing, from block order", |random, wrong| rearranging(random, wrong, &FROM_BLOCK_ORDER), &[0, 1, 8, 9]),
    ("fuzzing, one list over another", overlay, &[0, 1, 2, 3, 4, 5, 6, 7, 8]),
    ("fuzzing, one pixel touched up", touch_up, &[0, 1, 2, 3, 4, 5, 6, 7, 8, 21]),
    ("fuzzing, numbers", numbering, &[0, 1, 2, 3, 4, 5, 6, 7, 8]),
    ("fuzzing, orders judged", check_order, &[0, 1, 2, 3, 4, 5, 6, 7, 8, 19, 20]),
    ("fuzzing, least orders", least_order, &[0, 1, 2, 3, 4, 5, 6, 7, 8]),
    ("fuzzing, outlines", tracing, &[0, 1, 2, 3, 4, 5, 6, 7, 8]),
    ("fuzzing, images from outlines", blocks_from_outlines, &[0, 1, 8, 18]),
    ("fuzzing, stretches", cycle, &[0]),
    ("fuzzing, openings", open, &[0, 22, 23, 24]),
    ("fuzzing, turns", turn, &[0]),
    ("fuzzing, path data", svg, &[0, 8, 16]),
    ("fuzzing, chains read", read_chain, &[0, 8, 17]),
    ("fuzzing, pictures", read_pgm, &[0, 8, 10, 11, 12, 13, 14]),
];

#[test]
fn every_function() {
    let mut random = Random::of("fuzzing");
    let mut cases = FUNCTIONS.map(|(name, _, _)| Cases::of(name));
    let mut seen = FUNCTIONS.map(|_| BTreeSet::new());
    let seconds = std::env::var("NETTLESTAIR_FUZZ_SECONDS").ok().map(|text| text.parse().expect("a number of seconds"));
    let end = Instant::now() + Duration::from_secs(seconds.unwrap_or(0));
    let mut inputs = 0;
    while inputs < 200_000 || Instant::now() < end {
        let which = random.below(FUNCTIONS.len());
        let (name, function, _) = FUNCTIONS[which];
        let (number, difference) = function(&mut random, 0);
        calls::agrees(format_args!("{name}, input {inputs}"), difference);
        seen[which].insert(number);
        cases[which].ran();
        inputs += 1;
    }
    for ((name, _, numbers), seen) in FUNCTIONS.iter().zip(seen) {
        assert_eq!(seen, numbers.iter().copied().collect(), "{name}: the numbers answered");
    }
    println!("fuzzing: {inputs} inputs");
    cases.into_iter().for_each(Cases::end);
}

/// Each comparison can fail: another answer is seen, whatever the input.
#[test]
fn another_answer_is_seen() {
    let mut random = Random::of("fuzzing, another answer");
    let mut cases = Cases::of("fuzzing, another answer");
    for (name, function, _) in FUNCTIONS {
        for _ in 0..300 {
            let (_, difference) = function(&mut random, 1);
            assert!(difference.is_some(), "{name}: another answer is not seen");
            cases.ran();
        }
    }
    cases.end();
}

/// n: small mostly, large at times, at times above 8.
fn side(random: &mut Random) -> u32 {
    match random.below(1000) {
        0 => 7 + random.below(2) as u32,
        1..=5 => 5 + random.below(2) as u32,
        6..=30 => [9, 10, 16, 32, 255, 256, 65536, u32::MAX, random.word() | 16][random.below(9)],
        _ => [0, 1, 1, 2, 2, 2, 3, 3, 3, 4][random.below(10)],
    }
}

/// How many faults an input gets.
fn faulty(random: &mut Random) -> usize {
    [0, 0, 0, 1, 1, 2, 3][random.below(7)]
}

/// A length for a list with this need: enough mostly, at times too short.
fn length(random: &mut Random, need: usize) -> usize {
    match random.below(20) {
        0 => need.max(1) - 1,
        1 => random.below(need + 1),
        2..=8 => need,
        _ => need + random.below(9),
    }
}

/// The n of the rasters that are drawn for n, which may be above 8.
fn drawn(n: u32) -> u32 {
    if n > 8 {
        2
    } else {
        n
    }
}

/// n and a block list, faulty or not.
fn block_list(random: &mut Random) -> (u32, Blocks) {
    let n = side(random);
    let raster = rasters::any(random, drawn(n));
    (n, blocks_of(random, n, &raster))
}

/// The block list of a raster, faulty or not, at times with four siblings whose colours are equal but for one binary digit.
fn blocks_of(random: &mut Random, n: u32, raster: &[u16]) -> Blocks {
    let mut blocks = quadtree(drawn(n), raster);
    if random.below(3) == 0 {
        faults::split_unlike(random, &mut blocks);
    }
    for _ in 0..faulty(random) {
        faults::in_blocks(random, &mut blocks);
    }
    blocks
}

/// Coordinates of 1 to 16 digits.
fn code(random: &mut Random, wrong: u32) -> (u32, Option<String>) {
    let [x, y] = [0, 0].map(|_| (random.word() >> 16 >> random.below(16)) as u16);
    let expected = location_code(u32::from(x), u32::from(y));
    let found = nettlestair::code(x, y) ^ wrong;
    (0, (expected != found).then(|| format!("({x}, {y}): expected {expected}, found {found}")))
}

fn check(random: &mut Random, wrong: u32) -> (u32, Option<String>) {
    let (n, blocks) = block_list(random);
    let Blocks { codes, levels, colours } = &blocks;
    let expected = number(n, codes, levels, colours);
    let found = nettlestair::check(n, codes, levels, colours) + wrong;
    (expected, (expected != found).then(|| format!("n = {n}, {blocks}: expected {expected}, found {found}")))
}

/// n and a raster, at times of another length than 4^n.
fn raster(random: &mut Random) -> (u32, Vec<u16>) {
    let n = side(random);
    let mut raster = rasters::any(random, drawn(n));
    if random.below(8) == 0 {
        faults::in_list(random, &mut raster, &[0, 1]);
    }
    (n, raster)
}

fn blocks_from_raster(random: &mut Random, wrong: u32) -> (u32, Option<String>) {
    let (n, raster) = raster(random);
    let lengths = [1 << (2 * drawn(n)); 3].map(|need| length(random, need));
    let mut out = calls::blocks_from_raster(random, n, &raster, lengths);
    out.written.count += wrong;
    let [codes, levels, colours] = lengths;
    let number = raster_number(n, raster.len(), codes.min(levels).min(colours));
    let difference = match number {
        0 => out.difference(&quadtree(n, &raster)),
        _ => out.difference_from_refusal(number),
    };
    (number, difference.map(|d| format!("n = {n}, raster {}, lengths {lengths:?}: {d}", Shown(&raster))))
}

fn raster_from_blocks(random: &mut Random, wrong: u32) -> (u32, Option<String>) {
    let (n, blocks) = block_list(random);
    let need = if n > 8 { 1 } else { 1 << (2 * n) };
    let length = length(random, need);
    let mut out = calls::raster_from_blocks(random, n, &blocks, length);
    out.written.number += wrong;
    let number = match number(n, &blocks.codes, &blocks.levels, &blocks.colours) {
        0 if length < need => 8,
        number => number,
    };
    let difference = match number {
        0 => out.difference(&paint(n, &blocks)),
        _ => out.difference_from_refusal(number),
    };
    (number, difference.map(|d| format!("n = {n}, {blocks}, raster of {length}: {d}")))
}

fn rearranging(random: &mut Random, wrong: u32, way: &Way) -> (u32, Option<String>) {
    let (n, source) = raster(random);
    let length = length(random, 1 << (2 * drawn(n)));
    let expected = rearranged(n, &source, length, way.order);
    let mut out = way.call(random, n, &source, length);
    out.written.number += wrong;
    let difference = out.difference_from_model(&expected);
    let number = expected.err().unwrap_or(0);
    (number, difference.map(|d| format!("n = {n}, source {}, target of {length}: {d}", Shown(&source))))
}

/// The lists of two rasters, at times of one that is parted in two.
fn overlay(random: &mut Random, wrong: u32) -> (u32, Option<String>) {
    let n = side(random);
    let raster = rasters::any(random, drawn(n));
    let rasters = match random.below(3) {
        0 => rasters::parted(random, &raster),
        _ => [raster, rasters::any(random, drawn(n))],
    };
    let [first, second] = rasters.map(|raster| blocks_of(random, n, &raster));
    let lengths = [1 << (2 * drawn(n)); 3].map(|need| length(random, need));
    let expected = overlaid(n, &first, &second, lengths);
    let mut out = calls::overlay(random, n, &first, &second, lengths);
    out.written.count += wrong;
    let difference = out.difference_from_model(&expected);
    let number = expected.err().unwrap_or(0);
    (number, difference.map(|d| format!("n = {n}, {first} over {second}, lengths {lengths:?}: {d}")))
}

/// A coordinate: inside mostly, at times just outside or far, with low digits that are inside or any.
fn coordinate(random: &mut Random, n: u32) -> u32 {
    let inside = random.below(1 << drawn(n)) as u32;
    match random.below(20) {
        0 => 1 << drawn(n),
        1 => inside | 1 << random.below(32),
        2 => random.word() >> random.below(32),
        _ => inside,
    }
}

/// A pixel of a block list, in one of its colours mostly.
fn touch_up(random: &mut Random, wrong: u32) -> (u32, Option<String>) {
    let (n, blocks) = block_list(random);
    let [x, y] = [(); 2].map(|()| coordinate(random, n));
    let colour = match random.below(4) {
        0 => random.colour(),
        _ => blocks.colours.get(random.below(blocks.len().max(1))).copied().unwrap_or(0),
    };
    let speck = Speck { x, y, colour: if random.below(8) == 0 { colour ^ 1 << random.below(16) } else { colour } };
    let lengths = [1 << (2 * drawn(n)); 3].map(|need| length(random, need));
    let expected = touched_up(n, &blocks, speck, lengths);
    let mut out = calls::touch_up(random, n, &blocks, speck, lengths);
    out.written.count += wrong;
    let difference = out.difference_from_model(&expected);
    let number = expected.err().unwrap_or(0);
    (number, difference.map(|d| format!("n = {n}, {speck} of {blocks}, lengths {lengths:?}: {d}")))
}

fn numbering(random: &mut Random, wrong: u32) -> (u32, Option<String>) {
    let (n, blocks) = block_list(random);
    let [labels, work, ..] = needs(n, blocks.len());
    let lengths = [labels, work].map(|need| length(random, need));
    let expected = Model::of(n, &blocks).numbering(lengths);
    let mut out = calls::number(random, n, &blocks, lengths);
    out.answer.regions += wrong;
    let difference = out.difference(&expected);
    (expected.answer.number, difference.map(|d| format!("n = {n}, {blocks}, lengths {lengths:?}: {d}")))
}

/// n up to 5 or above 8, and a block list, faulty or not, with regions that surround others mostly.
fn nested_list(random: &mut Random) -> (u32, Blocks) {
    let n = match side(random) {
        6..=8 => 5,
        n => n,
    };
    let raster = match random.below(4) {
        0 => rasters::any(random, drawn(n)),
        _ => rasters::frames(random, drawn(n)),
    };
    (n, blocks_of(random, n, &raster))
}

/// An order of all regions: falling or the least, at times with entries exchanged or a fault.
fn order_of(random: &mut Random, model: &Model) -> Vec<u32> {
    let regions = model.regions.as_ref().map_or(3, |regions| regions.count);
    let mut order: Vec<u32> = match random.below(3) {
        0 if model.number == 0 => model.surrounding().least_order(),
        _ => (0..regions).rev().collect(),
    };
    for _ in 0..[0, 0, 1, 2][random.below(4)] {
        order.swap(random.below(regions as usize), random.below(regions as usize));
    }
    if random.below(3) == 0 {
        faults::in_list(random, &mut order, &[0, 1, regions - 1, regions, u32::MAX]);
    }
    order
}

fn check_order(random: &mut Random, wrong: u32) -> (u32, Option<String>) {
    let (n, blocks) = nested_list(random);
    let [labels, work, ..] = needs(n, blocks.len());
    let lengths = [labels, work].map(|need| length(random, need));
    let model = Model::of(n, &blocks);
    let order = order_of(random, &model);
    let expected = model.judging(&order, lengths);
    let mut out = calls::check_order(random, n, &blocks, &order, lengths);
    out.answer += wrong;
    let difference = out.difference(&expected);
    let what = format!("n = {n}, order {} of {blocks}, lengths {lengths:?}", Shown(&order));
    (expected.answer, difference.map(|d| format!("{what}: {d}")))
}

/// Where `wrong` is 1 and there is an order, either its length is changed or one of its entries.
fn least_order(random: &mut Random, wrong: u32) -> (u32, Option<String>) {
    let (n, blocks) = nested_list(random);
    let lengths = order_needs(n, blocks.len()).map(|need| length(random, need));
    let expected = Model::of(n, &blocks).least_order(lengths);
    let mut out = calls::least_order(random, n, &blocks, lengths);
    let count = expected.answer.count as usize;
    if wrong == 1 && count > 0 && random.below(2) == 0 {
        let place = GUARD + random.below(count);
        out.lists[2].damage(random, place);
    } else {
        out.answer.count += wrong;
    }
    let difference = out.difference(&expected);
    (expected.answer.number, difference.map(|d| format!("n = {n}, {blocks}, lengths {lengths:?}: {d}")))
}

/// Where `wrong` is 1 and there are cycles, either their count is changed or one of their areas.
fn tracing(random: &mut Random, wrong: u32) -> (u32, Option<String>) {
    let (n, blocks) = block_list(random);
    let lengths = needs(n, blocks.len()).map(|need| length(random, need));
    let expected = Model::of(n, &blocks).tracing(lengths);
    let mut out = calls::trace(random, n, &blocks, lengths);
    let cycles = expected.answer.cycles as usize;
    if wrong == 1 && cycles > 0 && random.below(2) == 0 {
        let place = GUARD + random.below(cycles);
        out.areas[0].damage(random, place);
    } else {
        out.answer.cycles += wrong;
    }
    let difference = out.difference(&expected);
    (expected.answer.number, difference.map(|d| format!("n = {n}, {blocks}, lengths {lengths:?}: {d}")))
}

/// The outlines of an image, faulty or not. Where `wrong` is 1 and the work list is cleared, either the count is changed or one of its entries.
fn blocks_from_outlines(random: &mut Random, wrong: u32) -> (u32, Option<String>) {
    let n = side(random);
    let raster = match random.below(2) {
        0 => rasters::any(random, drawn(n)),
        _ => rasters::frames(random, drawn(n)),
    };
    let mut given = outlines(random, drawn(n), &quadtree(drawn(n), &raster));
    if random.below(2) == 0 {
        given = given.counted().expect("a tracing has what it counts");
    }
    for _ in 0..faulty(random) {
        faults::in_outlines(random, &mut given);
    }
    let lengths = restoring_needs(n).map(|need| length(random, need));
    let expected = restored(n, &given, lengths);
    let mut out = calls::blocks_from_outlines(random, n, &given, lengths);
    if wrong == 1 && matches!(expected, Ok(_) | Err(18)) && random.below(2) == 0 {
        let place = GUARD + random.below(lengths[3]);
        out.work.damage(random, place);
    } else {
        out.blocks.written.count += wrong;
    }
    let difference = out.difference_from_model(&expected);
    (expected.err().unwrap_or(0), difference.map(|d| format!("n = {n}, {given}, lengths {lengths:?}: {d}")))
}

fn cycle(random: &mut Random, wrong: u32) -> (u32, Option<String>) {
    let corners = vec![7; random.below(9)];
    let mut ends: Vec<u32> = (0..random.below(6)).map(|_| random.below(11) as u32).collect();
    if random.below(2) == 0 {
        ends.sort();
    }
    if random.below(9) == 0 && !ends.is_empty() {
        let at = random.below(ends.len());
        ends[at] = random.word();
    }
    let [count, k] = [0, 0].map(|_| if random.below(9) == 0 { random.word() } else { random.below(7) as u32 });
    let (start, length) = paths::stretch(corners.len(), &ends, count, k);
    let mut found = nettlestair::cycle(&corners, &ends, count, k);
    found.length += wrong as usize;
    let differs = found != Stretch { start, length };
    (0, differs.then(|| format!("{} corners, ends {ends:?}, count {count}, k {k}: {found:?}", corners.len())))
}

/// An opening in a state of any make. Where `wrong` is 1, one part of the answer is changed.
fn open(random: &mut Random, wrong: u32) -> (u32, Option<String>) {
    let state = any_state(random);
    let cycle = match random.below(9) {
        0 => random.word(),
        1 | 2 => state.outlines[random.below(8)].cycle,
        _ => random.below(20) as u32,
    };
    let count = match random.below(9) {
        0 => random.word(),
        1 => cycle,
        2 => cycle.wrapping_add(1),
        _ => random.below(24) as u32,
    };
    let expected = opened(state, cycle, count);
    let mut found = nettlestair::open(state, cycle, count);
    (0..wrong).for_each(|_| one_part(random, &mut found));
    let difference = calls::answer(expected, found);
    (expected.number, difference.map(|d| format!("cycle {cycle} of {count} in {state:?}: {d}")))
}

/// A turn of a state of any make, with lists that are faulty or not. Where `wrong` is 1, one part of the answer is changed, or whether one was
/// served.
fn turn(random: &mut Random, wrong: u32) -> (u32, Option<String>) {
    let state = any_state(random);
    let lists = any_lists(random);
    let expected = turned(state, &lists);
    let mut found = calls::turn(random, state, &lists);
    if wrong == 1 && random.below(9) == 0 {
        found.served = !found.served;
    } else {
        (0..wrong).for_each(|_| one_part(random, &mut found));
    }
    let difference = calls::answer(expected, found);
    (0, difference.map(|d| format!("a turn of {state:?} with {lists}: {d}")))
}

/// A corner list, faulty or not.
fn corner_list(random: &mut Random) -> Vec<u32> {
    let most = if random.below(50) == 0 { 200 } else { 6 };
    let pairs = 2 + random.below(most);
    let most = [2, 3, 9, 99, 100, 256][random.below(6)];
    let mut corners = random_outline(random, pairs, most);
    for _ in 0..faulty(random) {
        faults::in_corners(random, &mut corners);
    }
    corners
}

/// What differs from the answer by the order: `number` where there is no cycle form, then 8, then acceptance.
fn judged<T: Entry>(out: Out<T>, form: Option<&[T]>, number: u32, room: bool, wrong: u32) -> (u32, Option<String>) {
    let Out { mut written, list } = out;
    written.count += wrong;
    let out = Out { written, list };
    match form {
        None => (number, out.difference_from_refusal(number)),
        Some(_) if !room => (8, out.difference_from_refusal(8)),
        Some(entries) => (0, out.difference(entries)),
    }
}

fn svg(random: &mut Random, wrong: u32) -> (u32, Option<String>) {
    let corners = corner_list(random);
    let text = paths::is_cycle_form(&corners).then(|| paths::svg(&corners).into_bytes());
    let need = 9 + 4 * corners.len();
    let length = length(random, need);
    let out = Out::of(random, length, |list| nettlestair::svg(&corners, list));
    let (number, difference) = judged(out, text.as_deref(), 16, need <= length, wrong);
    (number, difference.map(|d| format!("{}, room for {length}: {d}", Shown(&corners))))
}

fn read_chain(random: &mut Random, wrong: u32) -> (u32, Option<String>) {
    let pairs = 2 + random.below(6);
    let most = [2, 3, 9, 40][random.below(4)];
    let outline = random_outline(random, pairs, most);
    let mut digits = paths::chain(&outline);
    for _ in 0..faulty(random) {
        faults::in_list(random, &mut digits, b"0123");
    }
    let start = if random.below(9) == 0 { random.word() >> random.below(32) } else { outline[0] };
    let corners = paths::read_chain(start, &digits);
    let need = corners.as_ref().map_or(9, Vec::len);
    let length = length(random, need);
    let out = Out::of(random, length, |list| nettlestair::read_chain(start, &digits, list));
    let (number, difference) = judged(out, corners.as_deref(), 17, need <= length, wrong);
    (number, difference.map(|d| format!("from {start}, {}, room for {length}: {d}", Shown(&digits))))
}

/// Pictures of one byte a sample and of two.
fn read_pgm(random: &mut Random, wrong: u32) -> (u32, Option<String>) {
    let n = [0, 1, 1, 2, 2, 3, 4][random.below(7)];
    let maxval = [1, 9, 100, 254, 255, 255, 256, 257, 1000, 32_768, 65_534, 65_535, 65_535][random.below(13)];
    let space = [" ", "\n", "\t", "\r\n", "  ", "# 8\n", "#\r"][random.below(7)];
    let side = 1 << n;
    let raster: Vec<u16> = (0..side * side).map(|_| random.below(maxval + 1) as u16).collect();
    let mut bytes = format!("P5{space}{side}{space}{side}{space}{maxval}\n").into_bytes();
    for _ in 0..faulty(random) {
        faults::in_list(random, &mut bytes, b"P5 \n\t\r0123456789#");
    }
    bytes.extend(sample_bytes(maxval as u32, &raster));
    for _ in 0..faulty(random) / 2 {
        faults::in_list(random, &mut bytes, &[0, 255]);
    }
    let length = length(random, raster.len());
    let expected = read_into(&bytes, length);
    let mut out = PictureOut::call(random, &bytes, length);
    out.picture.count += wrong;
    let difference = out.difference(&expected);
    (expected.number, difference.map(|d| format!("{}, raster of {length}: {d}", Shown(&bytes))))
}
