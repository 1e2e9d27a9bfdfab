//! Cutting from the inside out (document 02, h), against the model: every order of a few regions, orders one change away from a right one,
//! images whose regions surround one another in known ways, and what becomes of the lent lists.

use std::collections::BTreeSet;
use tests::calls::{agrees, check_order, least_order, CheckOrderOut, Expected, LeastOrderOut};
use tests::cases::Cases;
use tests::compare::Shown;
use tests::damage::each_place;
use tests::expected::{order_needs, Model};
use tests::figures;
use tests::model::blocks::{pixel, quadtree, Blocks};
use tests::model::regions::Regions;
use tests::nettlestair::Written;
use tests::permutations::permutations;
use tests::random::Random;
use tests::rasters;

/// An image: its block list, and what the model says of it.
struct Image {
    n: u32,
    blocks: Blocks,
    model: Model,
}

impl Image {
    fn of(n: u32, raster: &[u16]) -> Image {
        let blocks = quadtree(n, raster);
        Image { n, model: Model::of(n, &blocks), blocks }
    }

    fn regions(&self) -> u32 {
        self.model.regions.as_ref().expect("a quadtree is accepted").count
    }

    /// The needs, each with up to 3 entries more.
    fn lengths(&self, random: &mut Random) -> [usize; 3] {
        order_needs(self.n, self.blocks.len()).map(|need| need + random.below(4))
    }

    /// The number of an order: it and both lists are as the model says.
    fn judged(&self, random: &mut Random, order: &[u32]) -> u32 {
        let Image { n, ref blocks, ref model } = *self;
        let [labels, work, _] = self.lengths(random);
        let out = check_order(random, n, blocks, order, [labels, work]);
        let difference = out.difference(&model.judging(order, [labels, work]));
        agrees(format_args!("n = {n}, {blocks}, order {}", Shown(order)), difference);
        out.answer
    }

    /// The least order: the answer and all lists are as the model says.
    fn least_order(&self, random: &mut Random) -> Vec<u32> {
        let Image { n, ref blocks, ref model } = *self;
        let lengths = self.lengths(random);
        let mut out = least_order(random, n, blocks, lengths);
        agrees(format_args!("n = {n}, {blocks}"), out.difference(&model.least_order(lengths)));
        out.lists[2].lend()[..out.answer.count as usize].to_vec()
    }

    /// An order of all regions with each surrounded region before those that surround it, and nothing else that it keeps to.
    fn allowed_order(&self, random: &mut Random) -> Vec<u32> {
        let surrounding = self.model.surrounding();
        let mut left: Vec<u32> = (0..self.regions()).collect();
        let mut order = vec![];
        while !left.is_empty() {
            let first = random.below(left.len());
            let free = |&place: &usize| left.iter().all(|&s| !surrounding.surrounds(left[place], s));
            let place =
                (first..left.len()).chain(0..first).find(free).expect("some region surrounds none of those left");
            order.push(left.remove(place));
        }
        order
    }
}

/// Orders that are not every region once: a right one with one entry missing, more, twice or too large, and others.
fn not_every_region_once(random: &mut Random, order: &[u32]) -> Vec<Vec<u32>> {
    let count = order.len();
    let large = [count as u32, count as u32 + 1, 65_536, 1 << 31, u32::MAX, u32::MAX - 1, random.word() | 1 << 17];
    let mut orders = vec![vec![], [order, order].concat()];
    for extra in [order[0], order[count - 1], large[random.below(7)]] {
        for place in [0, random.below(count), count] {
            orders.push([&order[..place], &[extra], &order[place..]].concat());
        }
    }
    // an entry gone, another one in its place, the same with a further digit
    for place in [0, random.below(count), count - 1] {
        let [before, after] = [&order[..place], &order[place + 1..]];
        orders.push([before, after].concat());
        let further = order[place] + (1 << (16 + random.below(16)));
        let others = [large[random.below(7)], u32::MAX, count as u32, further];
        let again = (count > 1).then(|| order[(place + 1 + random.below(count - 1)) % count]);
        orders.extend(others.into_iter().chain(again).map(|other| [before, &[other], after].concat()));
    }
    orders
}

/// The least order, right orders, and orders one change away from them.
fn tried(random: &mut Random, image: &Image, cases: &mut Cases) {
    let surrounding = image.model.surrounding();
    let what = format!("n = {}, {}", image.n, image.blocks);
    let regions = image.regions();
    let least = image.least_order(random);
    let falling: Vec<u32> = (0..regions).rev().collect();
    for order in [&least, &falling, &image.allowed_order(random)] {
        assert_eq!(image.judged(random, order), 0, "{what}, order {}", Shown(order));
        // read beyond its end, an order without its last entry would be right
        assert_eq!(image.judged(random, &order[..order.len() - 1]), 19, "{what}, order {}", Shown(order));
        cases.ran();
    }
    let rising: Vec<u32> = (0..regions).collect();
    image.judged(random, &rising);
    for _ in 0..2 {
        let mut order = image.allowed_order(random);
        order.swap(random.below(regions as usize), random.below(regions as usize));
        image.judged(random, &order);
        cases.ran();
    }
    let pairs = surrounding.pairs();
    for (r, s) in (0..4.min(pairs.len())).map(|_| pairs[random.below(pairs.len())]).collect::<Vec<_>>() {
        let order = [least.clone(), falling.clone(), image.allowed_order(random)][random.below(3)].clone();
        let place = |region: u32| order.iter().position(|&v| v == region).expect("every region is there");
        let mut swapped = order.clone();
        swapped.swap(place(r), place(s));
        assert_eq!(image.judged(random, &swapped), 20, "{what}, {r} and {s} swapped in {}", Shown(&order));
        // r straight after the last one that it surrounds, and straight before it
        let last = order.iter().rposition(|&v| surrounding.surrounds(r, v)).expect("r surrounds s");
        for (to, number) in [(last + 1, 0), (last, 20)] {
            let mut moved = order.clone();
            moved.remove(place(r));
            moved.insert(to, r);
            assert_eq!(image.judged(random, &moved), number, "{what}, {r} moved to {to} in {}", Shown(&order));
        }
        // both faults: 19 is looked for first
        let third = order.iter().position(|&v| v != r && v != s);
        let mut replaced = swapped.clone();
        third.into_iter().for_each(|place| replaced[place] = r);
        swapped.push([r, s, regions, u32::MAX][random.below(4)]);
        for order in [Some(swapped), third.map(|_| replaced)].into_iter().flatten() {
            assert_eq!(image.judged(random, &order), 19, "{what}, order {}", Shown(&order));
        }
        cases.ran();
    }
    let right = image.allowed_order(random);
    for order in not_every_region_once(random, &right) {
        assert_eq!(image.judged(random, &order), 19, "{what}, order {}", Shown(&order));
        cases.ran();
    }
}

/// Each order of the regions, of which there are up to 6: the least one that is answered 0 is the least order. Of up to 4 regions, then each
/// of them with one entry replaced by each region and by one number more, with one entry gone, and with one more at the end.
fn every_order(random: &mut Random, image: &Image, cases: &mut Cases) {
    let regions = image.regions();
    let order_of = |places: &Vec<usize>| places.iter().map(|&place| place as u32).collect::<Vec<u32>>();
    let orders: BTreeSet<Vec<u32>> = permutations(regions as usize).iter().map(order_of).collect();
    let mut judged = |order: &[u32]| {
        cases.ran();
        image.judged(random, order)
    };
    let accepted: Vec<&Vec<u32>> = orders.iter().filter(|order| judged(order) == 0).collect();
    for order in orders.iter().filter(|_| regions <= 4) {
        for place in 0..order.len() {
            let [before, after] = [&order[..place], &order[place + 1..]];
            let others = (0..=regions).filter(|&other| other != order[place]);
            let replaced = others.map(|other| [before, &[other], after].concat());
            for changed in replaced.chain([[before, after].concat()]) {
                assert_eq!(judged(&changed), 19, "order {changed:?} of n = {}, {}", image.n, image.blocks);
            }
        }
        for changed in (0..=regions).map(|more| [&order[..], &[more]].concat()) {
            assert_eq!(judged(&changed), 19, "order {changed:?} of n = {}, {}", image.n, image.blocks);
        }
    }
    assert_eq!(*accepted[0], image.least_order(random), "n = {}, {}", image.n, image.blocks);
}

/// Images of one pixel, and every image of 2 by 2 in three colours: each order is right, and the least one rises.
#[test]
fn smallest_images() {
    let mut cases = Cases::of("orders of the smallest images");
    let mut random = Random::of("orders of the smallest images");
    let squares = (0..81).map(|k| (1, [1, 3, 9, 27].map(|place| k / place % 3).to_vec()));
    for (n, raster) in [(0, vec![0]), (0, vec![65_535])].into_iter().chain(squares) {
        let image = Image::of(n, &raster);
        assert_eq!(image.least_order(&mut random), (0..image.regions()).collect::<Vec<_>>(), "{raster:?}");
        assert!(image.model.surrounding().pairs().is_empty(), "{raster:?}");
        every_order(&mut random, &image, &mut cases);
        tried(&mut random, &image, &mut cases);
    }
    cases.end();
}

/// Every image of 4 by 4 in two colours: the least order; and, where a region surrounds another, every order of up to 6 regions.
#[test]
fn images_of_two_colours() {
    let mut cases = Cases::of("orders of images of two colours");
    let mut random = Random::of("orders of images of two colours");
    let mut surrounding = 0;
    for (n, raster) in rasters::small().filter(|(n, _)| *n == 2) {
        let image = Image::of(n, &raster);
        let order = image.least_order(&mut random);
        assert_eq!(image.judged(&mut random, &order), 0, "{raster:?}");
        if image.model.surrounding().pairs().is_empty() {
            assert!(order.is_sorted(), "{raster:?}");
        } else {
            assert!(!order.is_sorted(), "{raster:?}");
            surrounding += 1;
            if image.regions() <= 6 {
                every_order(&mut random, &image, &mut cases);
            }
        }
        cases.ran();
    }
    println!("{surrounding} images of 4 by 4 in two colours have a region that surrounds another");
    assert!(surrounding > 0);
    cases.end();
}

/// Every order of the regions of random images that have 2 to 6 of them, of which one surrounds another; as many of each count.
#[test]
fn every_order_of_few_regions() {
    let mut cases = Cases::of("every order of few regions");
    let mut random = Random::of("every order of few regions");
    for (count, rounds) in [(2, 100), (3, 100), (4, 60), (5, 60), (6, 40)] {
        let mut found = 0;
        while found < rounds {
            let n = 2 + random.below(3) as u32;
            let image = Image::of(n, &rasters::frames(&mut random, n));
            if image.regions() == count && !image.model.surrounding().pairs().is_empty() {
                every_order(&mut random, &image, &mut cases);
                found += 1;
            }
        }
    }
    cases.end();
}

/// Random images: frames over one another, noise with few pixels of one colour and with many, and images of every kind.
#[test]
fn random_images() {
    let mut cases = Cases::of("orders of random images");
    let mut random = Random::of("orders of random images");
    let mut deepest = 0;
    for n in 0..=5 {
        for _ in 0..[10, 20, 60, 60, 30, 10][n as usize] {
            for raster in
                [rasters::frames(&mut random, n), rasters::frames(&mut random, n), rasters::any(&mut random, n)]
            {
                let image = Image::of(n, &raster);
                tried(&mut random, &image, &mut cases);
                let surrounding = image.model.surrounding();
                let depth = |s: u32| (0..image.regions()).filter(|&r| surrounding.surrounds(r, s)).count();
                deepest = deepest.max((0..image.regions()).map(depth).max().unwrap_or(0));
            }
        }
        for sixteenths in [1, 4, 6, 7, 8, 9, 10, 12, 15] {
            for _ in 0..[1, 5, 20, 10, 4, 1][n as usize] {
                let image = Image::of(n, &rasters::sprinkled(&mut random, n, sixteenths));
                tried(&mut random, &image, &mut cases);
            }
        }
        for raster in rasters::with_structured(&mut random, n) {
            tried(&mut random, &Image::of(n, &raster), &mut cases);
        }
    }
    println!("a region has up to {deepest} around it");
    assert!(deepest >= 2);
    cases.end();
}

/// Larger images of frames.
#[test]
fn larger_images() {
    let mut cases = Cases::of("orders of larger images");
    let mut random = Random::of("orders of larger images");
    for n in [6, 6, 6, 6, 7, 7, 8] {
        let image = Image::of(n, &rasters::frames(&mut random, n));
        tried(&mut random, &image, &mut cases);
    }
    cases.end();
}

/// The figures of the papers.
#[test]
fn figures_of_the_papers() {
    let mut cases = Cases::of("orders of figures");
    let mut random = Random::of("orders of figures");
    for (figure, n, raster) in figures::all() {
        let image = Image::of(n, &raster);
        let expected: &[u32] = match figure {
            "000, figure 5(a)" | "001, figure 1(a)" => &[1, 0],
            "000, figure 5(b)" => &[0, 1, 2],
            _ => &[0, 1],
        };
        assert_eq!(image.least_order(&mut random), expected, "{figure}");
        every_order(&mut random, &image, &mut cases);
        tried(&mut random, &image, &mut cases);
    }
    cases.end();
}

/// Images by their rows, and the pairs of which the first surrounds the second, by the letters of their pixels.
const IMAGES: &[(&str, &[&str], &[&str])] = &[
    ("a hole", &["AAAA", "ASSA", "ASSA", "AAAA"], &["AS"]),
    ("a hole of two", &["AAAA", "ASTA", "ASTA", "AAAA"], &["AS", "AT"]),
    ("two that touch at a corner", &["AAAA", "ASAA", "AATA", "AAAA"], &["AS", "AT"]),
    ("a diagonal step to a corner of the image", &["TAAA", "ASAA", "AAAA", "AAAA"], &[]),
    ("a diagonal step to an edge of the image", &["AAAA", "ASAA", "TAAA", "AAAA"], &[]),
    ("two diagonal steps", &["AAAA", "ASAA", "AATA", "AAAU"], &[]),
    ("at the edge, not surrounded", &["AAAA", "SAAA", "AAAA", "AATA"], &[]),
    ("at the edge, and one inside", &["AAAA", "SAUA", "AAAA", "AAAA"], &["AU"]),
    ("closed only by two together", &["AAAA", "ASSB", "ASSB", "BBBB"], &[]),
    ("closed but for one pixel of the edge", &["AAAA", "ASSA", "ASSA", "AATA"], &[]),
    ("closed but for a corner of the image", &["AAAA", "ASSA", "ASSA", "AAAT"], &[]),
    (
        "a diamond of walls that touch at corners",
        &["AAAWBBBB", "AAWGWBBB", "AWGGGWBB", "WGGSGGWB", "CWGGGWDD", "CCWGWDDD", "CCCWDDDD", "CCCCDDDD"],
        &["GS"],
    ),
    (
        "a diamond of walls that touch at sides",
        &["AAAWWBBB", "AAWWWWBB", "AWWGGWWB", "WWGGGGWW", "WWGGGGWW", "CWWGGWWD", "CCWWWWDD", "CCCWWDDD"],
        &["WG"],
    ),
    (
        "the same with a step between two pixels that touch at a corner",
        &["AAAWWBBB", "AAWWWWBB", "AWTGGWWB", "WWGGGGWW", "WWGGGGWW", "CWWGGWWD", "CCWWWWDD", "CCCWWDDD"],
        &[],
    ),
    (
        "nested rings",
        &["AAAAAAAA", "ABBBBBBA", "ABCCCCBA", "ABCDDCBA", "ABCDDCBA", "ABCCCCBA", "ABBBBBBA", "AAAAAAAA"],
        &["AB", "AC", "AD", "BC", "BD", "CD"],
    ),
    (
        "nested rings, the second one of two halves",
        &["AAAAAAAA", "ABBBEEEA", "ABCCCCEA", "ABCDDCEA", "ABCDDCEA", "ABCCCCEA", "ABBBEEEA", "AAAAAAAA"],
        &["AB", "AE", "AC", "AD", "CD"],
    ),
    (
        "nested rings, the second one open at a corner",
        &["AAAAAAAA", "AABBBBBA", "ABCCCCBA", "ABCDDCBA", "ABCDDCBA", "ABCCCCBA", "ABBBBBBA", "AAAAAAAA"],
        &["AB", "AC", "AD", "CD"],
    ),
    (
        "nested rings, the first one open",
        &["AAAXAAAA", "ABBBBBBA", "ABCCCCBA", "ABCDDCBA", "ABCDDCBA", "ABCCCCBA", "ABBBBBBA", "AAAAAAAA"],
        &["BC", "BD", "CD"],
    ),
    (
        "rings side by side",
        &["AAAAAAAA", "ABBBACCA", "ABDBACEA", "ABBBACCA", "AAAAAAAA", "AFFFFFFA", "AFGFHFIA", "AFFFFFFA"],
        &["AB", "AD", "BD", "AC", "AE", "FG", "FH"],
    ),
    (
        "a ring around two, and an island beside it",
        &["AAAAAAAA", "ABBBBBAA", "ABSBTBAA", "ABBBBBAA", "AAAAAAAA", "AAAAAAUA", "AAAAAAAA", "AAAAAAAA"],
        &["AB", "AS", "AT", "AU", "BS", "BT"],
    ),
    (
        "a ring with a gap, through which the ground comes in",
        &["AAAAAAAA", "AGGGGGGA", "AGAAAAGA", "AGASSAGA", "AGASSAGA", "AGAAAAGA", "AGGAGGGA", "AAAAAAAA"],
        &["AG", "AS"],
    ),
];

/// The letter of each region.
fn letters(image: &Image, raster: &[u16]) -> Vec<char> {
    let regions = image.model.regions.as_ref().expect("a quadtree is accepted");
    let side = i64::from(regions.side());
    let mut letters = vec![' '; regions.count as usize];
    for (place, &colour) in (0..).zip(raster) {
        let region = regions.at(place % side, place / side).expect("a pixel is in a region");
        letters[region as usize] = char::from(colour as u8);
    }
    letters
}

#[test]
fn drawn_images() {
    let mut cases = Cases::of("orders of drawn images");
    let mut random = Random::of("orders of drawn images");
    for (what, rows, expected) in IMAGES {
        let raster: Vec<u16> = rows.concat().bytes().map(u16::from).collect();
        let image = Image::of(rows.len().trailing_zeros(), &raster);
        let letters = letters(&image, &raster);
        let pairs = image.model.surrounding().pairs();
        let found: BTreeSet<String> =
            pairs.iter().map(|&(r, s)| [r, s].map(|v| letters[v as usize]).iter().collect()).collect();
        assert_eq!(found, expected.iter().map(|pair| pair.to_string()).collect(), "{what}");
        tried(&mut random, &image, &mut cases);
        if image.regions() <= 6 {
            every_order(&mut random, &image, &mut cases);
        }
    }
    cases.end();
}

/// An image whose least order is known: the least order, then orders by their numbers, then orders that are not every region once. The model
/// gives the labels alone.
fn known(random: &mut Random, cases: &mut Cases, n: u32, raster: &[u16], least: &[u32], orders: &[(Vec<u32>, u32)]) {
    let blocks = quadtree(n, raster);
    let labels = Regions::of(n, raster).labels(&blocks);
    let need = order_needs(n, blocks.len());
    let zeros = vec![0; need[1]];
    let lengths = need.map(|need| need + random.below(4));
    let out = least_order(random, n, &blocks, lengths);
    let answer = Written { number: 0, count: least.len() as u32 };
    let expected = Expected { answer, lists: [labels.clone(), zeros.clone(), least.to_vec()], areas: [] };
    agrees(format_args!("n = {n}, {blocks}"), out.difference(&expected));
    let falling: Vec<u32> = (0..least.len() as u32).rev().collect();
    let right = [least.to_vec(), falling].map(|order| (order, 0));
    let wrong = not_every_region_once(random, least).into_iter().map(|order| (order, 19));
    for (order, answer) in right.into_iter().chain(orders.iter().cloned()).chain(wrong) {
        let [labels_length, work, _] = need.map(|need| need + random.below(4));
        let out = check_order(random, n, &blocks, &order, [labels_length, work]);
        let expected = Expected { answer, lists: [labels.clone(), zeros.clone()], areas: [] };
        agrees(format_args!("n = {n}, {blocks}, order {}", Shown(&order)), out.difference(&expected));
        cases.ran();
    }
}

/// Square rings, each inside the one before, 2^(n-1) of them: the northwest corners of the rings have rising codes, so the rings are
/// numbered from the outside in. Falling numbers are the only right order.
#[test]
fn nested_rings() {
    let mut cases = Cases::of("orders of nested rings");
    let mut random = Random::of("orders of nested rings");
    for n in 1..=8 {
        let last = (1u32 << n) - 1;
        let depth =
            |i: u32| [i % (last + 1), i >> n].into_iter().map(|z| z.min(last - z)).min().expect("two coordinates");
        let rings = 1u32 << (n - 1);
        let falling: Vec<u32> = (0..rings).rev().collect();
        let mut orders = vec![];
        for place in (0..rings as usize - 1).filter(|place| n < 8 || place % 9 == 0 || *place + 2 == rings as usize) {
            let mut swapped = falling.clone();
            swapped.swap(place, place + 1);
            orders.push((swapped, 20));
        }
        if rings > 1 {
            orders.push(((0..rings).collect(), 20));
            let [mut first, mut second] = [(); 2].map(|()| falling.clone());
            first.rotate_left(1);
            second.rotate_right(1);
            orders.extend([(first, 20), (second, 20)]);
        }
        for colour in [|depth: u32| depth as u16, |depth: u32| (depth % 2) as u16 * 256] {
            let raster: Vec<u16> = (0..1 << (2 * n)).map(|i| colour(depth(i))).collect();
            known(&mut random, &mut cases, n, &raster, &falling, &orders);
        }
    }
    cases.end();
}

/// Three quadrants are a checkerboard, of which nothing is surrounded, and the last one has square rings, whose numbers are large: these
/// fall at the end of the least order.
#[test]
fn large_numbers() {
    let mut cases = Cases::of("orders of large numbers");
    let mut random = Random::of("orders of large numbers");
    for n in 2..=8 {
        let (half, last) = (1u32 << (n - 1), (1u32 << n) - 1);
        let ring = |x: u32, y: u32| [x - half, y - half, last - x, last - y].into_iter().min().expect("four sides");
        let colour = |x: u32, y: u32| if x.min(y) < half { (x ^ y) & 1 } else { 2 + ring(x, y) };
        let raster: Vec<u16> = (0..1 << (2 * n)).map(|i: u32| colour(i & last, i >> n) as u16).collect();
        let (first, rings) = (3 << (2 * n - 2), half / 2);
        let least: Vec<u32> = (0..first).chain((first..first + rings).rev()).collect();
        let rings_first: Vec<u32> = (first..first + rings).rev().chain(0..first).collect();
        let mut orders = vec![(rings_first, 0)];
        if rings > 1 {
            let mut swapped = least.clone();
            swapped.swap(first as usize + random.below(rings as usize - 1), (first + rings) as usize - 1);
            orders.extend([((0..first + rings).collect(), 20), (swapped, 20)]);
        }
        known(&mut random, &mut cases, n, &raster, &least, &orders);
    }
    cases.end();
}

/// A ground with an island at each place whose coordinates are both odd. The ground, which is region 0, surrounds those that are not at
/// the edge, and comes straight after the last of them.
#[test]
fn many_islands() {
    let mut cases = Cases::of("orders of many islands");
    let mut random = Random::of("orders of many islands");
    for n in 2..=8 {
        let last = (1u32 << n) - 1;
        let raster: Vec<u16> = (0..1 << (2 * n)).map(|i: u32| u16::from(i & (i >> n) & 1 == 1)).collect();
        // by rising code; the first number is the ground's
        let islands: Vec<(u32, u32)> = (0..1 << (2 * n)).map(pixel).filter(|(x, y)| x & y & 1 == 1).collect();
        let inside: Vec<u32> =
            (1..).zip(&islands).filter(|(_, (x, y))| *x < last && *y < last).map(|(k, _)| k).collect();
        let count = islands.len() as u32;
        let last_inside = inside[inside.len() - 1];
        let least: Vec<u32> = (1..=last_inside).chain([0]).chain(last_inside + 1..=count).collect();
        let too_early: Vec<u32> = (1..last_inside).chain([0, last_inside]).chain(last_inside + 1..=count).collect();
        let at_the_edge_last: Vec<u32> =
            inside.iter().copied().chain([0]).chain((1..=count).filter(|k| inside.binary_search(k).is_err())).collect();
        let mut first = at_the_edge_last.clone();
        first.swap(0, inside.len());
        let orders = [(too_early, 20), (at_the_edge_last, 0), (first, 20), ((0..=count).collect(), 20)];
        known(&mut random, &mut cases, n, &raster, &least, &orders);
    }
    cases.end();
}

/// Images in which nothing is surrounded, however many regions there are: each order of all regions is right.
#[test]
fn nothing_surrounded() {
    let mut cases = Cases::of("orders where nothing is surrounded");
    let mut random = Random::of("orders where nothing is surrounded");
    let names = ["checkerboard", "comb joined in the north", "comb joined in the east", "spiral", "diagonal chain"];
    for n in 0..=8 {
        for (name, raster) in rasters::structured(&mut random, n).into_iter().filter(|(name, _)| names.contains(name)) {
            let count = Regions::of(n, &raster).count;
            let rising: Vec<u32> = (0..count).collect();
            let mut shuffled = rising.clone();
            for place in (1..shuffled.len()).rev() {
                shuffled.swap(place, random.below(place + 1));
            }
            assert!(count > 1 || n == 0 || name == "spiral", "n = {n}, {name}");
            known(&mut random, &mut cases, n, &raster, &rising, &[(shuffled, 0)]);
        }
    }
    cases.end();
}

/// Orders of an image's regions whose numbers are 0, 19 and 20. There is no 20 where no region surrounds another.
fn orders_by_number(random: &mut Random, image: &Image) -> Vec<(Vec<u32>, u32)> {
    let right = image.allowed_order(random);
    let wrong = not_every_region_once(random, &right);
    let swapped = image.model.surrounding().pairs().first().map(|&(r, s)| {
        let mut order = right.clone();
        let [first, second] =
            [s, r].map(|region| right.iter().position(|&v| v == region).expect("every region is there"));
        order.swap(first, second);
        order
    });
    let faulty = wrong[random.below(wrong.len())].clone();
    [(right, 0), (faulty, 19)].into_iter().chain(swapped.map(|order| (order, 20))).collect()
}

/// A list one too short, or empty, is 8 and all lists stay, whatever the order; longer lists keep their tails. An order list that has room
/// for each region is too short where there are more blocks.
#[test]
fn lengths() {
    let mut cases = Cases::of("lengths for orders");
    let mut random = Random::of("lengths for orders");
    let mut seen = BTreeSet::new();
    for n in 0..=4 {
        let rasters = rasters::structured(&mut random, n).into_iter().map(|(_, raster)| raster);
        let frames: Vec<Vec<u16>> = (0..20).map(|_| rasters::frames(&mut random, n)).collect();
        for raster in rasters.chain(frames).collect::<Vec<_>>() {
            let image = Image::of(n, &raster);
            let Image { ref blocks, ref model, .. } = image;
            let need = order_needs(n, blocks.len());
            let [labels, work, order] = need;
            let long_enough =
                [need, need.map(|need| need + 1), [2 * labels + 7, work, order], [labels, 2 * work + 7, order]];
            let too_short =
                [[labels - 1, work, order], [labels, work - 1, order], [labels - 1, work - 1, order], [0; 3]];
            let for_the_order = [order - 1, 0, image.regions() as usize].map(|order| [labels + 1, work + 1, order]);
            for lengths in long_enough.into_iter().chain(too_short).chain(for_the_order) {
                let out = least_order(&mut random, n, blocks, lengths);
                let difference = out.difference(&model.least_order(lengths));
                agrees(format_args!("n = {n}, {blocks}, lists of {lengths:?}"), difference);
                cases.ran();
            }
            for (order, number) in orders_by_number(&mut random, &image) {
                for ([labels, work, _], first) in
                    long_enough.map(|l| (l, 0)).into_iter().chain(too_short.map(|l| (l, 8)))
                {
                    let out = check_order(&mut random, n, blocks, &order, [labels, work]);
                    let what = format!("n = {n}, {blocks}, order {}, lists of {labels} and {work}", Shown(&order));
                    assert_eq!(out.answer, if first == 0 { number } else { first }, "{what}");
                    agrees(what, out.difference(&model.judging(&order, [labels, work])));
                    seen.insert((first, number));
                    cases.ran();
                }
            }
        }
    }
    assert_eq!(seen, [0, 8].into_iter().flat_map(|a| [0, 19, 20].map(|b| (a, b))).collect());
    cases.end();
}

/// The comparisons can fail: with one entry of a list damaged, also one of a tail or a guard, or with another answer, they say so.
#[test]
fn damage_is_seen() {
    let mut cases = Cases::of("damage of orders");
    let mut random = Random::of("damage of orders");
    for n in 0..=3 {
        for _ in 0..20 {
            let image = Image::of(n, &rasters::frames(&mut random, n));
            let Image { ref blocks, ref model, .. } = image;
            let need = order_needs(n, blocks.len());
            for lengths in [need.map(|need| need + 2), [need[0], need[1], need[2] - 1]] {
                let expected = model.least_order(lengths);
                let mut out = least_order(&mut random, n, blocks, lengths);
                for list in 0..3 {
                    let difference = |out: &LeastOrderOut| out.difference(&expected);
                    let written = &expected.lists[list];
                    each_place(&mut random, &mut cases, &mut out, |out| &mut out.lists[list], written, difference);
                }
                let Written { number, count } = out.answer;
                for other in [Written { number: number + 1, count }, Written { number, count: count + 1 }] {
                    out.answer = other;
                    assert!(out.difference(&expected).is_some(), "another answer: {other:?}");
                }
            }
            for (order, _) in orders_by_number(&mut random, &image) {
                for lengths in [[need[0] + 2, need[1] + 2], [need[0], need[1] - 1]] {
                    let expected = model.judging(&order, lengths);
                    let mut out = check_order(&mut random, n, blocks, &order, lengths);
                    for list in 0..2 {
                        let difference = |out: &CheckOrderOut| out.difference(&expected);
                        let written = &expected.lists[list];
                        each_place(&mut random, &mut cases, &mut out, |out| &mut out.lists[list], written, difference);
                    }
                    for other in [0, 8, 19, 20].into_iter().filter(|&number| number != expected.answer) {
                        out.answer = other;
                        assert!(out.difference(&expected).is_some(), "another answer: {other}");
                    }
                }
            }
        }
    }
    cases.end();
}
