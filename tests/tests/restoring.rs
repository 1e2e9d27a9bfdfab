//! The dial from its outlines (document 02, f), against the model: what the library traces is given back, and outlines that are changed
//! somewhere are judged as the model does, which paints by the parity of crossings and traces what is painted.

use std::collections::BTreeSet;
use tests::calls::{agrees, blocks_from_outlines, RestoredOut};
use tests::cases::Cases;
use tests::clock::processor_time;
use tests::damage::each_place;
use tests::faults;
use tests::figures::{self, FIGURE_5A, FIGURE_5B};
use tests::model::blocks::{location_code, quadtree, Blocks};
use tests::model::paths::{corner, svg};
use tests::model::regions::Regions;
use tests::model::restoring::{restored, restoring_needs, Given};
use tests::nettlestair::{self, Written};
use tests::random::Random;
use tests::rasters;
use tests::traced::outlines;

/// Judges given outlines with lists that are longer than needed by up to 3: the answer and all lists are as the model says, which is
/// returned. "When it is given back, tracing it yields the same cycles."
fn judged(random: &mut Random, n: u32, given: &Given) -> Result<Blocks, u32> {
    let lengths = restoring_needs(n).map(|need| need + random.below(4));
    let expected = restored(n, given, lengths);
    let out = blocks_from_outlines(random, n, given, lengths);
    agrees(format_args!("n = {n}, {given}, lists of {lengths:?}"), out.difference_from_model(&expected));
    if let Ok(blocks) = &expected {
        assert_eq!(outlines(random, n, blocks).counted(), given.counted(), "n = {n}, {blocks} traced again");
    }
    expected
}

/// The number of given outlines: it and all lists are as the model says.
fn number(random: &mut Random, n: u32, given: &Given) -> u32 {
    judged(random, n, given).err().unwrap_or(0)
}

/// Traces a block list: its outlines give it back, whatever stands beyond the counts. The outlines are returned.
fn there_and_back(random: &mut Random, n: u32, blocks: &Blocks) -> Given {
    let given = outlines(random, n, blocks);
    let lengths = restoring_needs(n).map(|need| need + random.below(4));
    let out = blocks_from_outlines(random, n, &given, lengths);
    agrees(format_args!("n = {n}, {blocks}, lists of {lengths:?}"), out.difference_from_model(&Ok(blocks.clone())));
    given
}

/// A list of cycles: the owner and the corners of each.
type CycleList = Vec<(u32, Vec<u32>)>;

/// The cycles of some lines, one line a region: the path data of its cycles joined.
fn cycles_of(lines: &[&str]) -> CycleList {
    let corners = |path: &str| {
        let numbers = path.split(|c: char| !c.is_ascii_digit()).filter(|word| !word.is_empty());
        let mut numbers = numbers.map(|word| word.parse::<u32>().expect("a number"));
        let (mut x, mut y) = (numbers.next().expect("x"), numbers.next().expect("y"));
        let mut corners = vec![corner(x, y)];
        for (i, number) in numbers.enumerate() {
            *[&mut x, &mut y][i % 2] = number;
            corners.push(corner(x, y));
        }
        assert_eq!(svg(&corners), format!("{path}Z"), "H and V by turns");
        corners
    };
    let of_line = |(owner, line): (u32, &&str)| {
        let paths: Vec<&str> = line.split_terminator('Z').collect();
        paths.into_iter().map(|path| (owner, corners(path))).collect::<Vec<_>>()
    };
    (0..).zip(lines).flat_map(of_line).collect()
}

/// Document 01's dials 1 to 5 and the accepted one of 12: the lines that it prints, a colour for each, and the block list.
#[test]
fn dials() {
    let mut cases = Cases::of("dials from their outlines");
    let mut random = Random::of("dials from their outlines");
    let pixels = |colours: &[u16]| (0..).zip(colours).map(|(code, &colour)| (code, 0, colour)).collect::<Vec<_>>();
    let second = [(0, 0, 1), (1, 0, 1), (2, 0, 1), (3, 0, 2), (4, 1, 1), (8, 1, 1), (12, 1, 3)];
    let third = pixels(&[1, 1, 1, 2, 1, 1, 2, 1, 1, 2, 1, 1, 2, 1, 1, 1]);
    let four: &[&str] = &["M0 0H1V1H0Z", "M1 0H2V1H1Z", "M0 1H1V2H0Z", "M1 1H2V2H1Z"];
    let rows: [(&str, u32, &[&str], &[u16], Vec<(u32, u8, u16)>); 6] = [
        ("1", 0, &["M0 0H1V1H0Z"], &[9], vec![(0, 0, 9)]),
        ("2", 2, &["M0 0H4V2H2V1H1V2H2V4H0Z", "M1 1H2V2H1Z", "M2 2H4V4H2Z"], &[1, 2, 3], second.to_vec()),
        ("3", 2, &["M0 0H4V4H0ZM1 3H3V1H1Z", "M1 1H3V3H1Z"], &[1, 2], third),
        ("4", 1, four, &[1, 2, 2, 1], pixels(&[1, 2, 2, 1])),
        ("5", 1, &["M0 0H2V1H0Z", "M0 1H2V2H0Z"], &[1, 2], pixels(&[1, 1, 2, 2])),
        ("12", 8, &["M0 0H256V256H0Z"], &[65_535], vec![(0, 8, 65_535)]),
    ];
    for (dial, n, lines, colours, rows) in rows {
        let (given, blocks) = (Given::of_cycles(&cycles_of(lines), colours), Blocks::of(&rows));
        assert_eq!(judged(&mut random, n, &given), Ok(blocks.clone()), "dial {dial}");
        assert_eq!(there_and_back(&mut random, n, &blocks).counted(), Some(given), "dial {dial}");
        cases.ran();
    }
    cases.end();
}

#[test]
fn figures_of_the_papers() {
    let mut cases = Cases::of("figures from their outlines");
    let mut random = Random::of("figures from their outlines");
    for (figure, n, raster) in figures::all() {
        let blocks = quadtree(n, &raster);
        let given = there_and_back(&mut random, n, &blocks);
        assert_eq!(judged(&mut random, n, &given), Ok(blocks), "{figure}");
        cases.ran();
    }
    cases.end();
}

/// Images of one pixel, every image of 2 by 2 in four colours and every one of 4 by 4 in two.
#[test]
fn smallest_images() {
    let mut cases = Cases::of("smallest images from their outlines");
    let mut random = Random::of("smallest images from their outlines");
    let pixels = [0, 1, 255, 256, 65_535].map(|colour| (0, vec![colour]));
    for (n, raster) in pixels.into_iter().chain(rasters::small()) {
        let blocks = quadtree(n, &raster);
        let given = there_and_back(&mut random, n, &blocks);
        if n < 2 || random.below(8) == 0 {
            assert_eq!(judged(&mut random, n, &given), Ok(blocks), "{raster:?}");
        }
        cases.ran();
    }
    cases.end();
}

/// Images of every kind: noise, squares, blobs, rings, spirals, combs, checkerboards, one colour.
#[test]
fn images_of_every_kind() {
    let mut cases = Cases::of("images from their outlines");
    let mut random = Random::of("images from their outlines");
    for n in 0..=8 {
        for _ in 0..[20, 20, 20, 20, 10, 5, 3, 2, 1][n as usize] {
            let frames = [(); 3].map(|()| rasters::frames(&mut random, n));
            for raster in rasters::with_structured(&mut random, n).into_iter().chain(frames) {
                let blocks = quadtree(n, &raster);
                let given = there_and_back(&mut random, n, &blocks);
                if n < 6 {
                    assert_eq!(judged(&mut random, n, &given), Ok(blocks), "n = {n}");
                }
                cases.ran();
            }
        }
    }
    cases.end();
}

/// Some images: random ones, frames, and ones of every kind.
fn some_images(random: &mut Random, n: u32, count: usize) -> Vec<Vec<u16>> {
    let kinds = rasters::with_structured(random, n);
    let any = |random: &mut Random| match random.below(3) {
        0 => rasters::any(random, n),
        1 => rasters::frames(random, n),
        _ => kinds[random.below(kinds.len())].clone(),
    };
    (0..count).map(|_| any(random)).collect()
}

/// Numbers to put in the place of another: those beside it, also by one row of corners, 0, large ones, ones that have a further binary digit,
/// and what else is named.
fn instead_of(random: &mut Random, number: u32, others: &[u32]) -> BTreeSet<u32> {
    let near = [1, 2, 512, 513].into_iter().flat_map(|by| [number.wrapping_add(by), number.wrapping_sub(by)]);
    let large = [1 << 16, 1 << 17, 1 << 31, u32::MAX, u32::MAX - 1, random.word()];
    let further = [16, 17, 31, random.below(32)].map(|digit| number ^ 1 << digit);
    let all = near.chain([0, 1]).chain(large).chain(further).chain(others.iter().copied());
    all.filter(|&other| other != number).collect()
}

/// The entries beside one in a list, and its length.
fn beside(list: &[u32], place: usize) -> Vec<u32> {
    let around = [place.wrapping_sub(1), place + 1].into_iter().filter_map(|place| list.get(place).copied());
    around.chain([list.len() as u32]).collect()
}

/// Given outlines with one count, owner, end, corner or colour replaced by others, by turns, up to one entry beyond each count: what stands
/// there makes no difference, another colour may be that of another image, and all else is 18. Gives how many are the outlines of an image
/// then, and how many are not.
fn each_entry_damaged(random: &mut Random, n: u32, given: &Given, cases: &mut Cases) -> [usize; 2] {
    let mut answers = [0; 2];
    let mut judge = |random: &mut Random, damaged: &Given, may_be: &[u32]| {
        let number = number(random, n, damaged);
        assert!(may_be.contains(&number), "n = {n}, {damaged}");
        answers[usize::from(number != 0)] += 1;
        cases.ran();
    };
    let counts: [fn(&mut Given) -> &mut u32; 3] = [|g| &mut g.regions, |g| &mut g.cycles, |g| &mut g.corner_count];
    for count in counts {
        let mut damaged = given.clone();
        let right = *count(&mut damaged);
        for other in instead_of(random, right, &[1 << (2 * n), 4 << (2 * n)]) {
            *count(&mut damaged) = other;
            judge(random, &damaged, &[18]);
        }
    }
    let lists: [(fn(&mut Given) -> &mut Vec<u32>, u32); 3] =
        [(|g| &mut g.owners, given.cycles), (|g| &mut g.ends, given.cycles), (|g| &mut g.corners, given.corner_count)];
    for (list, count) in lists {
        let mut damaged = given.clone();
        for place in 0..list(&mut damaged).len().min(count as usize + 1) {
            let right = list(&mut damaged)[place];
            let others = beside(list(&mut damaged), place);
            for other in instead_of(random, right, &others) {
                list(&mut damaged)[place] = other;
                judge(random, &damaged, if place < count as usize { &[18] } else { &[0] });
            }
            list(&mut damaged)[place] = right;
        }
    }
    let mut damaged = given.clone();
    for place in 0..given.colours.len().min(given.regions as usize + 1) {
        let right = given.colours[place];
        let digits = [0, 7, 8, 15].map(|digit| right ^ 1 << digit);
        let others: BTreeSet<u16> = given.colours.iter().copied().chain(digits).chain([0, 65_535]).collect();
        for other in others {
            damaged.colours[place] = other;
            judge(random, &damaged, if place < given.regions as usize { &[0, 18] } else { &[0] });
        }
        damaged.colours[place] = right;
    }
    answers
}

/// Every image of 2 by 2 in four colours, and some of 4 by 4 and 8 by 8: with one entry of one list damaged.
#[test]
fn every_entry_damaged() {
    let mut cases = Cases::of("entries damaged");
    let mut random = Random::of("entries damaged");
    let pixels = [0, 257].map(|colour| (0, vec![colour]));
    let mut images: Vec<(u32, Vec<u16>)> = pixels.into_iter().chain(rasters::small().take(256)).collect();
    for (n, count) in [(2, 60), (3, 6)] {
        images.extend(some_images(&mut random, n, count).into_iter().map(|raster| (n, raster)));
    }
    let mut answers = [0; 2];
    for (n, raster) in images {
        let given = there_and_back(&mut random, n, &quadtree(n, &raster));
        // with garbage beyond the counts, or nothing
        let given = if random.below(2) == 0 { given } else { given.counted().expect("a tracing has what it counts") };
        let [accepted, refused] = each_entry_damaged(&mut random, n, &given, &mut cases);
        answers = [answers[0] + accepted, answers[1] + refused];
    }
    println!("{} of these are the outlines of an image, and {} are not", answers[0], answers[1]);
    assert!(answers[0] > 0 && answers[1] > 0);
    cases.end();
}

/// Several changes of any kind.
#[test]
fn damaged_somewhere() {
    let mut cases = Cases::of("outlines damaged somewhere");
    let mut random = Random::of("outlines damaged somewhere");
    let mut seen = BTreeSet::new();
    for (n, rounds) in [(0, 500), (1, 4000), (2, 6000), (3, 3000), (4, 800), (5, 100), (6, 10)] {
        for raster in some_images(&mut random, n, rounds) {
            let mut given = outlines(&mut random, n, &quadtree(n, &raster));
            if random.below(2) == 0 {
                given = given.counted().expect("a tracing has what it counts");
            }
            for _ in 0..=random.below(3) {
                faults::in_outlines(&mut random, &mut given);
            }
            seen.insert((n, number(&mut random, n, &given)));
            cases.ran();
        }
    }
    assert!((0..=4).flat_map(|n| [(n, 0), (n, 18)]).all(|row| seen.contains(&row)), "{seen:?}");
    cases.end();
}

/// Every list of some corners, as the one outline of an image of one pixel and of one of 2 by 2: of each side one is accepted.
#[test]
fn every_small_outline() {
    let mut cases = Cases::of("small outlines");
    let mut random = Random::of("small outlines");
    for (n, last) in [(0, 1), (1, 2)] {
        let points: Vec<u32> = (0..=last).flat_map(|y| (0..=last).map(move |x| corner(x, y))).collect();
        let mut accepted = vec![];
        for length in 0..=if n == 0 { 6 } else { 4 } {
            for which in 0..points.len().pow(length) {
                let corners: Vec<u32> =
                    (0..length).map(|i| points[which / points.len().pow(i) % points.len()]).collect();
                if number(&mut random, n, &Given::of_cycles(&[(0, corners.clone())], &[300])) == 0 {
                    accepted.push(corners);
                }
                cases.ran();
            }
        }
        assert_eq!(accepted, [[(0, 0), (last, 0), (last, last), (0, last)].map(|(x, y)| corner(x, y))]);
    }
    cases.end();
}

/// The corners of one image with every owner, end and count out of a few numbers: one of them all is accepted.
#[test]
fn every_small_owner_end_and_count() {
    let mut cases = Cases::of("small owners, ends and counts");
    let mut random = Random::of("small owners, ends and counts");
    for raster in [[7; 4], [7, 7, 8, 8]] {
        let right = Given::of(1, &raster);
        let mut accepted = 0;
        let ends = [0, 3, 4, 5, 8];
        for which in 0..2 * 2 * 5 * 5 * 4 * 4 * 4 {
            let digit = |place: usize, base: usize| which / place % base;
            let given = Given {
                owners: vec![digit(1, 2) as u32, digit(2, 2) as u32],
                ends: vec![ends[digit(4, 5)], ends[digit(20, 5)]],
                regions: digit(100, 4) as u32,
                cycles: digit(400, 4) as u32,
                corner_count: [0, 4, 8, 9][digit(1600, 4)],
                // what follows the counts could be one more outline
                corners: [&right.corners[..], &[0, 1, 513, 512]].concat(),
                colours: vec![7, 8, 9],
            };
            accepted += u32::from(number(&mut random, 1, &given) == 0);
            cases.ran();
        }
        // where there is one cycle, the second owner and the second end are not looked at
        assert_eq!(accepted, if right.cycles == 1 { 2 * 5 } else { 1 });
    }
    cases.end();
}

/// Which regions share a side of a pixel.
fn neighbours(n: u32, raster: &[u16]) -> BTreeSet<(u32, u32)> {
    let regions = Regions::of(n, raster);
    let side = i64::from(regions.side());
    let pixels = (0..side * side).map(|place| (place % side, place / side));
    let beside = pixels.flat_map(|(x, y)| [((x, y), (x + 1, y)), ((x, y), (x, y + 1))]);
    let pairs = beside.filter_map(|(a, b)| Some((regions.at(a.0, a.1)?, regions.at(b.0, b.1)?)));
    pairs.filter(|(a, b)| a != b).flat_map(|(a, b)| [(a, b), (b, a)]).collect()
}

/// The colours that the regions of an image get instead of their own: its raster then.
fn recoloured(n: u32, raster: &[u16], colours: &[u16]) -> Vec<u16> {
    let regions = Regions::of(n, raster);
    let places = 0..raster.len() as i64;
    let region = |place: i64| regions.at(place % (1 << n), place >> n).expect("a pixel is in a region");
    places.map(|place| colours[region(place) as usize]).collect()
}

/// Regions of unlike colours, of which one gets the colour of another: 18 exactly where the two share a side.
#[test]
fn neighbours_of_one_colour() {
    let mut cases = Cases::of("neighbours of one colour");
    let mut random = Random::of("neighbours of one colour");
    let mut seen = BTreeSet::new();
    for (n, count) in [(1, 60), (2, 100), (3, 60), (4, 20), (5, 4), (6, 1)] {
        for raster in some_images(&mut random, n, count) {
            let given = outlines(&mut random, n, &quadtree(n, &raster));
            let regions = given.regions as usize;
            // unlike in the high byte, in the low byte or in both
            let unlike: Vec<u16> = (0..regions as u16).map(|region| region.wrapping_mul(0x101)).collect();
            let neighbours = neighbours(n, &raster);
            let some: Vec<(u32, u32)> = neighbours.iter().copied().filter(|_| random.below(4) == 0).take(20).collect();
            let pairs = (0..20).map(|_| (random.below(regions) as u32, random.below(regions) as u32));
            for (a, b) in pairs.collect::<Vec<_>>().into_iter().chain(some) {
                let mut colours = unlike.clone();
                colours[a as usize] = colours[b as usize];
                let expected = match neighbours.contains(&(a, b)) {
                    true => Err(18),
                    false => Ok(quadtree(n, &recoloured(n, &raster, &colours))),
                };
                let given = Given { colours, ..given.clone() };
                assert_eq!(judged(&mut random, n, &given), expected, "n = {n}, {a} and {b} of {given}");
                seen.insert((a == b, expected.is_ok()));
                cases.ran();
            }
        }
    }
    assert_eq!(seen, BTreeSet::from([(true, true), (false, true), (false, false)]));
    cases.end();
}

/// Two regions with their colours exchanged: another image where no neighbours are then of one colour, else 18.
#[test]
fn colours_exchanged() {
    let mut cases = Cases::of("colours exchanged");
    let mut random = Random::of("colours exchanged");
    let mut seen = BTreeSet::new();
    for (n, count) in [(1, 60), (2, 100), (3, 60), (4, 20), (5, 5)] {
        for raster in some_images(&mut random, n, count) {
            let given = outlines(&mut random, n, &quadtree(n, &raster));
            let regions = given.regions as usize;
            let neighbours = neighbours(n, &raster);
            for _ in 0..10 {
                let mut colours = given.colours[..regions].to_vec();
                colours.swap(random.below(regions), random.below(regions));
                let alike = neighbours.iter().any(|&(a, b)| colours[a as usize] == colours[b as usize]);
                let expected = if alike { Err(18) } else { Ok(quadtree(n, &recoloured(n, &raster, &colours))) };
                let same = colours == given.colours[..regions];
                let given = Given { colours, ..given.clone() };
                assert_eq!(judged(&mut random, n, &given), expected, "n = {n}, {given}");
                seen.insert((same, expected.is_ok()));
                cases.ran();
            }
        }
    }
    assert_eq!(seen, BTreeSet::from([(true, true), (false, true), (false, false)]));
    cases.end();
}

/// What becomes of a list of cycles if one of them, or two, are changed. Each is no longer the list of any image.
fn changed(random: &mut Random, cycles: &CycleList) -> Vec<(&'static str, CycleList)> {
    let with = |change: &dyn Fn(&mut CycleList)| {
        let mut list = cycles.clone();
        change(&mut list);
        list
    };
    let [a, b] = [(); 2].map(|()| random.below(cycles.len()));
    let (owner, corners) = &cycles[a];
    let by = 1 + random.below(corners.len() - 1);
    let place = random.below(cycles.len() + 1);
    // other corners in the place of these
    let instead = |change: &dyn Fn(&mut Vec<u32>)| with(&|list| change(&mut list[a].1));
    let mut changed = vec![
        ("left out", with(&|list| drop(list.remove(a)))),
        ("listed twice", with(&|list| list.insert(a, cycles[a].clone()))),
        ("listed again elsewhere", with(&|list| list.insert(place, cycles[a].clone()))),
        ("a cycle without corners", with(&|list| list.insert(place, (*owner, vec![])))),
        ("the owner before", with(&|list| list[a].0 = owner.wrapping_sub(1))),
        ("the owner after", with(&|list| list[a].0 = owner + 1)),
        ("parted", with(&|list| list.splice(a..=a, corners.chunks(by).map(|c| (*owner, c.to_vec()))).for_each(drop))),
        ("all moved east", with(&|list| list.iter_mut().for_each(|(_, list)| list.iter_mut().for_each(|c| *c += 1)))),
        ("moved east", instead(&|list| list.iter_mut().for_each(|corner| *corner += 1))),
        ("moved south", instead(&|list| list.iter_mut().for_each(|corner| *corner += 512))),
        ("turned round", instead(&|list| list.reverse())),
        ("turned round from the same corner", instead(&|list| list[1..].reverse())),
        ("from the next corner", instead(&|list| list.rotate_left(1))),
        ("from the next eastward corner or the one after", instead(&|list| list.rotate_left(2))),
        ("from another corner", instead(&|list| list.rotate_left(by))),
        ("without corners", instead(&|list| list.clear())),
        ("walked twice", instead(&|list| list.extend(corners))),
        ("without a corner", instead(&|list| list.retain(|&corner| corner != corners[by]))),
        ("without two corners", instead(&|list| drop(list.drain(by - 1..=by)))),
        ("a corner listed twice", instead(&|list| list.insert(by, corners[by]))),
        ("the first corner again at the end", instead(&|list| list.push(corners[0]))),
    ];
    let (other_owner, other_corners) = &cycles[b];
    if a != b {
        let exchanged = |list: &mut CycleList| {
            list[a].1 = other_corners.clone();
            list[b].1 = corners.clone();
        };
        let in_one = |list: &mut CycleList| {
            list[a].1.extend(other_corners);
            list.remove(b);
        };
        changed.extend([
            ("two exchanged", with(&|list| list.swap(a, b))),
            ("corners of two exchanged", with(&exchanged)),
            ("two in one", with(&in_one)),
            ("in the place of another", with(&|list| list[b] = cycles[a].clone())),
        ]);
    }
    if owner != other_owner {
        let for_both = |list: &mut CycleList| {
            list.push((*other_owner, corners.clone()));
            list.sort_by_key(|(owner, corners)| (*owner, location_code(corners[0] % 512, corners[0] / 512)));
        };
        changed.extend([
            ("two owners exchanged", with(&|list| (list[a].0, list[b].0) = (*other_owner, *owner))),
            ("listed for another region too", with(&for_both)),
        ]);
    }
    changed
}

/// Cycles changed in ways that leave each list in good order: 18, with the number of regions and the colours of the image.
#[test]
fn cycles_changed() {
    let mut cases = Cases::of("cycles changed");
    let mut random = Random::of("cycles changed");
    let mut seen = BTreeSet::new();
    for (n, count) in [(0, 3), (1, 60), (2, 150), (3, 100), (4, 40), (5, 6), (6, 1)] {
        for raster in some_images(&mut random, n, count) {
            let blocks = quadtree(n, &raster);
            let given = there_and_back(&mut random, n, &blocks).counted().expect("a tracing has what it counts");
            let cycles = given.listed().expect("the ends of a tracing rise");
            for _ in 0..3 {
                for (what, cycles) in changed(&mut random, &cycles) {
                    let changed = Given::of_cycles(&cycles, &given.colours);
                    assert_eq!(number(&mut random, n, &changed), 18, "{what}: n = {n}, {changed}, and {given} before");
                    seen.insert(what);
                    cases.ran();
                }
            }
        }
    }
    assert_eq!(seen.len(), 27);
    cases.end();
}

/// A region gone with its cycles and its colour, and the numbers of those after it moved up; or regions numbered in another order, with their
/// cycles and colours: 18.
#[test]
fn regions_changed() {
    let mut cases = Cases::of("regions changed");
    let mut random = Random::of("regions changed");
    for (n, count) in [(1, 60), (2, 100), (3, 60), (4, 20), (5, 4)] {
        for raster in some_images(&mut random, n, count) {
            let given = there_and_back(&mut random, n, &quadtree(n, &raster)).counted().expect("counts of a tracing");
            let cycles = given.listed().expect("the ends of a tracing rise");
            let regions = given.regions as usize;
            for _ in 0..5 {
                let [a, b] = [(); 2].map(|()| random.below(regions));
                let without = cycles.iter().filter(|(owner, _)| *owner != a as u32);
                let without = without.map(|(owner, corners)| (owner - u32::from(*owner > a as u32), corners.clone()));
                let mut colours = given.colours.clone();
                colours.remove(a);
                let gone = Given::of_cycles(&without.collect::<CycleList>(), &colours);
                assert_eq!(number(&mut random, n, &gone), 18, "n = {n}, {gone}, without {a}");
                cases.ran();
                if a != b {
                    let other = |owner: u32| match owner as usize {
                        owner if owner == a => b as u32,
                        owner if owner == b => a as u32,
                        _ => owner,
                    };
                    let mut moved: CycleList = cycles.iter().map(|(o, corners)| (other(*o), corners.clone())).collect();
                    moved.sort_by_key(|(owner, _)| *owner);
                    let mut colours = given.colours.clone();
                    colours.swap(a, b);
                    let renumbered = Given::of_cycles(&moved, &colours);
                    assert_eq!(number(&mut random, n, &renumbered), 18, "n = {n}, {renumbered}, {a} and {b} exchanged");
                    cases.ran();
                }
            }
        }
    }
    cases.end();
}

/// Outlines by their lines, with unlike colours, that no image of this n has.
const NONE_SUCH: &[(&str, u32, &[&str])] = &[
    ("no outline", 0, &[]),
    ("a region without an outline", 0, &["M0 0H1V1H0Z", ""]),
    ("a region without an outline before the last", 1, &["M0 0H2V1H0Z", "", "M0 1H2V2H0Z"]),
    ("of a smaller image", 2, &["M0 0H2V2H0Z"]),
    ("of a larger image", 1, &["M0 0H4V4H0Z"]),
    ("moved east, as the outline of one pixel", 0, &["M1 0H2V1H1Z"]),
    ("a pixel too many", 1, &["M0 0H2V1H0Z", "M0 1H2V2H0Z", "M1 1H2V2H1Z"]),
    ("a pixel too few", 1, &["M0 0H2V1H0Z", "M0 1H1V2H0Z"]),
    (
        "figure 5(b), its outline in two parts at the pinch",
        2,
        &["M0 0H4V2H2V4H0ZM1 2H2V1H1Z", "M1 1H2V2H1Z", "M2 2H4V4H2Z"],
    ),
    ("figure 5(b) from another corner", 2, &["M1 2H2V4H0V0H4V2H2V1H1Z", "M1 1H2V2H1Z", "M2 2H4V4H2Z"]),
    ("figure 5(b), its regions in another order", 2, &["M0 0H4V2H2V1H1V2H2V4H0Z", "M2 2H4V4H2Z", "M1 1H2V2H1Z"]),
    ("figure 5(a), its hole the other way round", 2, &["M0 0H4V4H0ZM1 1H3V3H1Z", "M1 1H3V3H1Z"]),
    ("figure 5(a), its hole before its outer outline", 2, &["M1 3H3V1H1ZM0 0H4V4H0Z", "M1 1H3V3H1Z"]),
    ("figure 5(a) without its hole", 2, &["M0 0H4V4H0Z", "M1 1H3V3H1Z"]),
    ("figure 5(a) without its middle", 2, &["M0 0H4V4H0ZM1 3H3V1H1Z"]),
    ("figure 5(a) without its outer outline", 2, &["M1 3H3V1H1Z", "M1 1H3V3H1Z"]),
    ("figure 5(a), its middle in two parts of one region", 2, &["M0 0H4V4H0ZM1 3H3V1H1Z", "M1 1H2V3H1ZM2 1H3V3H2Z"]),
    ("dial 4, equal colours joined over the corner", 1, &["M0 0H1V1H0ZM1 1H2V2H1Z", "M1 0H2V1H1Z", "M0 1H1V2H0Z"]),
    ("the same as one outline", 1, &["M0 0H1V1H2V2H1V1H0Z", "M1 0H2V1H1Z", "M0 1H1V2H0Z"]),
    ("two squares apart as one region", 2, &["M0 0H2V2H0ZM2 2H4V4H2Z", "M2 0H4V2H2Z", "M0 2H2V4H0Z"]),
    ("two that overlap", 1, &["M0 0H2V1H0Z", "M0 0H1V2H0Z", "M1 1H2V2H1Z"]),
    ("an outline within itself", 2, &["M0 0H4V4H0ZM1 1H3V3H1ZM1 3H3V1H1Z"]),
    ("a leg there and back", 2, &["M0 0H4V4H2V2H2V4H0Z"]),
    ("a leg there and back beside the image", 1, &["M0 0H4V0H2V2H0Z"]),
    ("numbers by rows and not by codes", 2, &["M0 0H2V1H3V0H4V4H0V2H1V1H0Z", "M2 0H3V1H2Z", "M0 1H1V2H0Z"]),
    ("holes by rows and not by codes", 3, &["M0 0H8V8H0ZM6 2H7V1H6ZM1 3H2V2H1Z", "M1 2H2V3H1Z", "M6 1H7V2H6Z"]),
    ("a hole's start by rows and not by codes", 3, &["M0 0H8V8H0ZM2 2H7V1H1V3H2Z", "M1 1H7V2H2V3H1Z"]),
];

/// The right lists beside some of these.
const SUCH: &[(u32, &[&str])] = &[
    (2, &["M0 0H2V1H3V0H4V4H0V2H1V1H0Z", "M0 1H1V2H0Z", "M2 0H3V1H2Z"]),
    (3, &["M0 0H8V8H0ZM1 3H2V2H1ZM6 2H7V1H6Z", "M1 2H2V3H1Z", "M6 1H7V2H6Z"]),
    (3, &["M0 0H8V8H0ZM1 3H2V2H7V1H1Z", "M1 1H7V2H2V3H1Z"]),
    (2, &["M0 0H2V2H0Z", "M2 0H4V2H2Z", "M0 2H2V4H0Z", "M2 2H4V4H2Z"]),
];

#[test]
fn drawn_outlines() {
    let mut cases = Cases::of("drawn outlines");
    let mut random = Random::of("drawn outlines");
    let unlike = |lines: &[&str]| (0..lines.len() as u16).map(|k| 257 * k).collect::<Vec<u16>>();
    for (what, n, lines) in NONE_SUCH {
        let given = Given::of_cycles(&cycles_of(lines), &unlike(lines));
        assert_eq!(number(&mut random, *n, &given), 18, "{what}");
        cases.ran();
    }
    for (n, lines) in SUCH {
        let given = Given::of_cycles(&cycles_of(lines), &unlike(lines));
        assert_eq!(number(&mut random, *n, &given), 0, "{lines:?}");
        cases.ran();
    }
    cases.end();
}

/// The outlines of an image given with another n: 18.
#[test]
fn another_n() {
    let mut cases = Cases::of("outlines with another n");
    let mut random = Random::of("outlines with another n");
    for n in 0..=6 {
        for raster in some_images(&mut random, n, 10) {
            let given = outlines(&mut random, n, &quadtree(n, &raster));
            for other in (0..=6).filter(|&other| other != n) {
                assert_eq!(number(&mut random, other, &given), 18, "n = {other}, {given}");
                cases.ran();
            }
        }
    }
    cases.end();
}

/// A count that is one more or less, 0 or large, alone and with others, in lists that are just as long as the right counts say and in longer
/// ones: 18. A list that is shorter than its count: 18. What stands beyond the counts makes no difference.
#[test]
fn counts() {
    let mut cases = Cases::of("counts of outlines");
    let mut random = Random::of("counts of outlines");
    for (n, count) in [(0, 3), (1, 20), (2, 30), (3, 20), (4, 8), (8, 1)] {
        for raster in some_images(&mut random, n, count) {
            let blocks = quadtree(n, &raster);
            let with_garbage = there_and_back(&mut random, n, &blocks);
            let exact = with_garbage.counted().expect("a tracing has what it counts");
            let mut again = exact.clone();
            // the same lists once more behind the first
            again.owners.extend_from_slice(&exact.owners);
            again.ends.extend(exact.ends.iter().map(|end| end + exact.corner_count));
            again.corners.extend_from_slice(&exact.corners);
            again.colours.extend_from_slice(&exact.colours);
            for given in [&with_garbage, &exact, &again] {
                let right = [given.regions, given.cycles, given.corner_count];
                let [regions, cycles, corner_count] = right;
                let others = |count: u32| {
                    [count, count + 1, count - 1, 0, 2 * count, u32::MAX, count | 1 << 16, count | 1 << 31]
                };
                for which in 0..8 * 8 * 8 {
                    let counts = [which % 8, which / 8 % 8, which / 64];
                    // for larger images one count at a time
                    if n > 3 && counts.iter().filter(|&&which| which != 0).count() > 1 {
                        continue;
                    }
                    let [regions, cycles, corner_count] = [0, 1, 2].map(|i| others(right[i])[counts[i]]);
                    let counted = Given { regions, cycles, corner_count, ..given.clone() };
                    let same = [regions, cycles, corner_count] == right;
                    let lengths = restoring_needs(n);
                    let expected = if same { Ok(blocks.clone()) } else { Err(18) };
                    let out = blocks_from_outlines(&mut random, n, &counted, lengths);
                    agrees(format_args!("n = {n}, {counted}"), out.difference_from_model(&expected));
                    cases.ran();
                }
                // each list with one entry less than its count, with half of them and with none
                let cut = |length: u32| [length as usize - 1, length as usize / 2, 0];
                let lists: [(fn(&mut Given, usize), u32); 4] = [
                    (|given, length| given.owners.truncate(length), cycles),
                    (|given, length| given.ends.truncate(length), cycles),
                    (|given, length| given.corners.truncate(length), corner_count),
                    (|given, length| given.colours.truncate(length), regions),
                ];
                for (truncate, count) in lists {
                    for length in cut(count) {
                        let mut short = given.clone();
                        truncate(&mut short, length);
                        assert_eq!(number(&mut random, n, &short), 18, "n = {n}, {short}");
                        cases.ran();
                    }
                }
            }
        }
    }
    cases.end();
}

/// Outlines with each number that lists which are long enough bring: those of an image, and others.
fn by_number(random: &mut Random, n: u32, raster: &[u16]) -> [(Given, u32); 3] {
    let right = outlines(random, n, &quadtree(n, raster));
    let mut wrong = right.clone();
    wrong.corners[right.corner_count as usize - 1] += 1;
    let short = Given { owners: vec![], ..right.clone() };
    [(right, 0), (wrong, 18), (short, 18)]
}

/// Each list one too short, or empty, alone and with others, is 8 and all lists stay, whatever is given; longer lists keep their tails, and
/// of the work list the first 8 times 4^n entries are 0 after 0 and after 18.
#[test]
fn lengths() {
    let mut cases = Cases::of("lengths for outlines");
    let mut random = Random::of("lengths for outlines");
    let mut seen = BTreeSet::new();
    for (n, count) in [(0, 2), (1, 10), (2, 10), (3, 5), (4, 3), (6, 1), (8, 1)] {
        for raster in some_images(&mut random, n, count) {
            let need = restoring_needs(n);
            let mut lengths = vec![(need, 0), (need.map(|need| need + 1), 0), (need.map(|need| 2 * need + 7), 0)];
            for short in 1..16 {
                for missing in [1, usize::MAX] {
                    let length = |list: usize| match short >> list & 1 {
                        1 => need[list].saturating_sub(missing),
                        _ => need[list] + list,
                    };
                    lengths.push(([0, 1, 2, 3].map(length), 8));
                }
            }
            // room for each block, and half of the work list
            let [pixels, .., work] = need;
            lengths.extend([([pixels / 2; 4], 8), ([pixels, pixels, pixels, work / 2], 8)]);
            for (given, number) in by_number(&mut random, n, &raster) {
                for &(lengths, first) in &lengths {
                    let expected = restored(n, &given, lengths);
                    let number = if first == 0 { number } else { first };
                    assert_eq!(expected.as_ref().err().copied().unwrap_or(0), number, "the model: n = {n}, {given}");
                    let out = blocks_from_outlines(&mut random, n, &given, lengths);
                    let difference = out.difference_from_model(&expected);
                    agrees(format_args!("n = {n}, {given}, lists of {lengths:?}"), difference);
                    seen.insert(number);
                    cases.ran();
                }
            }
        }
    }
    assert_eq!(seen, BTreeSet::from([0, 8, 18]));
    cases.end();
}

/// Lists that are lent, for calls that are timed or whose steps are counted.
struct Lists {
    n: u32,
    codes: Vec<u32>,
    levels: Vec<u8>,
    colours: Vec<u16>,
    work: Vec<u32>,
}

impl Lists {
    fn of(n: u32) -> Lists {
        let whole = 1 << (2 * n);
        Lists { n, codes: vec![9; whole], levels: vec![9; whole], colours: vec![9; whole], work: vec![9; 8 * whole] }
    }

    fn call(&mut self, given: &Given) -> u32 {
        let Given { regions, cycles, corner_count, owners, ends, corners, colours } = given;
        let Lists { n, codes, levels, colours: colours_out, work } = self;
        let written = nettlestair::blocks_from_outlines(
            *n,
            *regions,
            *cycles,
            *corner_count,
            owners,
            ends,
            corners,
            colours,
            codes,
            levels,
            colours_out,
            work,
        );
        written.number
    }

    /// The number of given outlines, and how many machine instructions the call takes.
    #[cfg(all(target_arch = "x86_64", target_os = "linux"))]
    fn stepped(&mut self, given: &Given) -> (u32, u64) {
        let mut number = 0;
        let steps = tests::steps::steps(|| number = self.call(given));
        (number, steps)
    }

    /// The number of given outlines, and the processor time of the call, in seconds: the least of some calls.
    fn timed(&mut self, given: &Given, calls: usize) -> (u32, f64) {
        let mut least = f64::INFINITY;
        let mut number = 0;
        for _ in 0..calls {
            let began = processor_time();
            number = self.call(given);
            least = least.min(processor_time() - began);
        }
        (number, least)
    }
}

/// A closed path of so many corners over the whole height of an image, from column to column and back.
fn zigzag(side: u32, count: usize) -> Vec<u32> {
    let columns: Vec<u32> = (0..side).chain((1..side).rev()).collect();
    let turn = |i: usize| {
        let [x, east] = [i, i + 1].map(|i| columns[i % columns.len()]);
        let y = if i % 2 == 0 { 0 } else { side };
        [corner(x, y), corner(east, y)]
    };
    (0..count / 2).flat_map(turn).collect()
}

/// Outlines at n = 8 that would take long if they were followed without a bound: legs over the whole height again and again, legs that are
/// millions long, as many cycles and corners as there may be, and more; and outlines that are wrong in the last place that is looked at.
fn hard_to_refuse(random: &mut Random) -> Vec<(&'static str, Given)> {
    let whole = vec![0, 256, corner(256, 256), corner(0, 256)];
    let squares = |count: usize| vec![(0, whole.clone()); count];
    let numbered = |count: u32| (0..count).map(|owner| (owner, whole.clone())).collect::<CycleList>();
    let many = vec![7; 65_536];
    // y up to 8,388,607: a leg northward and a leg southward by turns
    let far = |count: usize| (0..count).map(|i| [0, u32::MAX - 511][i / 2 % 2] + [0, 1][(i + 1) / 2 % 2]).collect();
    let mut rows = vec![
        ("2^18 corners over the whole height", Given::of_cycles(&[(0, zigzag(256, 1 << 18))], &[7])),
        ("2^18 + 4 corners", Given::of_cycles(&[(0, zigzag(256, (1 << 18) + 4))], &[7])),
        ("2^18 corners in one place", Given::of_cycles(&[(0, vec![0; 1 << 18])], &[7])),
        ("2^18 corners far apart", Given::of_cycles(&[(0, far(1 << 18))], &[7])),
        ("four corners far apart", Given::of_cycles(&[(0, far(4))], &[7])),
        ("65,536 equal cycles of one region", Given::of_cycles(&squares(65_536), &[7])),
        ("65,536 equal cycles of as many regions", Given::of_cycles(&numbered(65_536), &many)),
        ("65,537 equal cycles", Given::of_cycles(&squares(65_537), &[7])),
        ("one northward unit side a pixel", Given::of_cycles(&squares(256), &[7])),
        ("four northward unit sides a pixel", Given::of_cycles(&squares(1024), &[7])),
        ("some more than four", Given::of_cycles(&squares(1025), &[7])),
        ("65,536 cycles without corners", Given::of_cycles(&vec![(0, vec![]); 65_536], &[7])),
    ];
    for counts in [[u32::MAX; 3], [u32::MAX, 1, 4], [1, u32::MAX, 4], [1, 1, u32::MAX], [65_536, 65_536, 1 << 18]] {
        let [regions, cycles, corner_count] = counts;
        let given = Given { regions, cycles, corner_count, ..Given::of_cycles(&squares(1), &[7]) };
        rows.push(("large counts of short lists", given));
    }
    for (_, raster) in rasters::structured(random, 8) {
        let given = outlines(random, 8, &quadtree(8, &raster)).counted().expect("a tracing has what it counts");
        let last = given.corners.len() - 1;
        let mut wrong = given.clone();
        wrong.corners[last] ^= 1;
        rows.push(("the last corner wrong", wrong));
        let mut cycles = given.listed().expect("the ends of a tracing rise");
        let twice = cycles[cycles.len() - 1].clone();
        cycles.push(twice);
        rows.push(("the last cycle twice", Given::of_cycles(&cycles, &given.colours)));
        let hole = cycles.windows(2).rposition(|two| two[0].0 == two[1].0 && two[0].1 != two[1].1);
        cycles.pop();
        if let Some(before) = hole {
            cycles.remove(before + 1);
            rows.push(("the last hole left out", Given::of_cycles(&cycles, &given.colours)));
        }
        if given.regions > 1 {
            rows.push(("all regions of one colour", Given { colours: vec![7; given.colours.len()], ..given }));
        }
    }
    rows
}

/// How many times the slowest of some acceptances a refusal may take. Both are a few passes over the image and over the lists, so that one
/// would do.
const TIMES: f64 = 4.0;

/// A refusal takes no longer than some acceptances, whatever is given. Times are processor times of the thread, and the least of some calls,
/// so that what else the machine does hardly shows; a refusal that is above the bound nonetheless is timed again, with the acceptances.
#[test]
fn refusals_take_no_longer() {
    let mut cases = Cases::of("time of refusals");
    let mut random = Random::of("time of refusals");
    let mut lists = Lists::of(8);
    let accepted: Vec<Given> =
        rasters::structured(&mut random, 8).iter().map(|(_, r)| outlines(&mut random, 8, &quadtree(8, r))).collect();
    let slowest = |lists: &mut Lists| {
        let time = |given: &Given| {
            let (number, time) = lists.timed(given, 3);
            assert_eq!(number, 0, "n = 8, {given}");
            time
        };
        accepted.iter().map(time).fold(0.0, f64::max)
    };
    let mut bound = TIMES * slowest(&mut lists);
    let mut longest: (f64, &str) = (0.0, "");
    for (what, given) in hard_to_refuse(&mut random) {
        assert_eq!(number(&mut random, 8, &given), 18, "{what}");
        let (mut number, mut time) = lists.timed(&given, 2);
        for _ in 0..5 {
            if time > bound {
                bound = TIMES * slowest(&mut lists);
                (number, time) = lists.timed(&given, 5);
            }
        }
        assert_eq!(number, 18, "{what}");
        assert!(time <= bound, "{what}: {time} seconds, and {TIMES} times the slowest acceptance is {bound}");
        longest = if time > longest.0 { (time, what) } else { longest };
        cases.ran();
    }
    let microseconds = |seconds: f64| (1e6 * seconds) as u32;
    println!("the slowest of some acceptances took {} microseconds", microseconds(bound / TIMES));
    println!("the slowest of some refusals took {} microseconds: {}", microseconds(longest.0), longest.1);
    cases.end();
}

/// The same in machine instructions, at n = 3: no refusal takes more than the longest of some acceptances, and what is given beyond what an
/// image can have costs next to nothing.
#[cfg(all(target_arch = "x86_64", target_os = "linux"))]
#[test]
fn refusals_in_steps() {
    let mut cases = Cases::of("steps of refusals");
    let mut random = Random::of("steps of refusals");
    let side = 8;
    let mut lists = Lists::of(3);
    let mut longest = 0;
    for (what, raster) in rasters::structured(&mut random, 3) {
        let (number, steps) = lists.stepped(&outlines(&mut random, 3, &quadtree(3, &raster)));
        assert_eq!(number, 0, "{what}");
        longest = longest.max(steps);
        cases.ran();
    }
    let mut refused = |what: &str, given: Given| {
        let (number, steps) = lists.stepped(&given);
        assert_eq!(number, 18, "{what}");
        assert!(0 < steps && steps <= longest, "{what}: {steps} steps, and the longest acceptance takes {longest}");
        cases.ran();
        steps
    };
    let legs = |count| Given::of_cycles(&[(0, zigzag(side, count))], &[7]);
    let square = vec![0, side, corner(side, side), corner(0, side)];
    let squares = |count| Given::of_cycles(&vec![(0, square.clone()); count], &[7]);
    let empty = Given::of_cycles(&vec![(0, vec![]); 64], &[7]);
    let [few, many] = [36, 256].map(|count| refused("legs over the height", legs(count)));
    assert!(many <= few + 64, "220 corners more cost {many} steps in place of {few}");
    let [nine, all] = [9, 64].map(|count| refused("equal cycles", squares(count)));
    assert!(all <= nine + 16 * 55, "55 equal cycles more cost {all} steps in place of {nine}");
    refused("empty cycles", empty);
    refused("counts of 2^32 - 1", Given { cycles: u32::MAX, corner_count: u32::MAX, ..squares(1) });
    println!("the longest of some acceptances took {longest} steps");
    cases.end();
}

/// The comparison can fail: with one entry of a list damaged, also one of a tail or a guard, or with another answer, it says so.
#[test]
fn damage_is_seen() {
    let mut cases = Cases::of("damage of images from outlines");
    let mut random = Random::of("damage of images from outlines");
    let figures = [FIGURE_5A, FIGURE_5B].map(|raster| (2, raster.to_vec()));
    let mut images: Vec<(u32, Vec<u16>)> = figures.to_vec();
    for n in 0..=2 {
        images.extend(some_images(&mut random, n, 6).into_iter().map(|raster| (n, raster)));
    }
    for (n, raster) in images {
        let need = restoring_needs(n);
        let [codes, levels, colours, work] = need;
        for (given, _) in by_number(&mut random, n, &raster) {
            for lengths in [need, need.map(|need| need + 2), [codes, levels, colours, work - 1]] {
                let expected = restored(n, &given, lengths);
                let mut out = blocks_from_outlines(&mut random, n, &given, lengths);
                let blocks = expected.clone().unwrap_or_default();
                let zeros = vec![0; if matches!(expected, Err(8)) { 0 } else { work }];
                let differs = |out: &RestoredOut| out.difference_from_model(&expected);
                each_place(&mut random, &mut cases, &mut out, |o| &mut o.blocks.codes, &blocks.codes, differs);
                each_place(&mut random, &mut cases, &mut out, |o| &mut o.blocks.levels, &blocks.levels, differs);
                each_place(&mut random, &mut cases, &mut out, |o| &mut o.blocks.colours, &blocks.colours, differs);
                each_place(&mut random, &mut cases, &mut out, |o| &mut o.work, &zeros, differs);
                let Written { number, count } = out.blocks.written;
                for other in [Written { number: number ^ 18, count }, Written { number, count: count + 1 }] {
                    out.blocks.written = other;
                    assert!(differs(&out).is_some(), "another answer: {other:?}");
                }
            }
        }
    }
    cases.end();
}
