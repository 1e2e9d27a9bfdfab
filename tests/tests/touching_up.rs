//! One pixel touched up (document 02, j), against the model: every pixel of small images, random pixels of every side, chains of
//! repaintings, and how far the number of regions and that of the unit edges move.

use std::collections::BTreeSet;
use tests::calls::{agrees, number, raster_from_blocks, touch_up, trace, TraceOut};
use tests::cases::Cases;
use tests::expected::needs;
use tests::lent::Lent;
use tests::model::blocks::{location_code, quadtree, Blocks};
use tests::model::paths::chain;
use tests::model::touching_up::{repainted, unit_edges, Speck};
use tests::nettlestair::{check, cycle};
use tests::random::Random;
use tests::rasters;

/// The pixel at a place of a raster of side 2^n, and the colour that it gets.
fn speck(n: u32, place: usize, colour: u16) -> Speck {
    Speck { x: place as u32 % (1 << n), y: place as u32 >> n, colour }
}

/// What touching up writes. The call answers 0, and the entries beyond its count are as they were, in lists that are longer than needed
/// by up to 3.
fn written(random: &mut Random, n: u32, blocks: &Blocks, speck: Speck) -> Blocks {
    let lengths = [(); 3].map(|()| (1 << (2 * n)) + random.below(4));
    let mut out = touch_up(random, n, blocks, speck, lengths);
    let new = out.blocks();
    agrees(format_args!("n = {n}, {speck}, lists of {lengths:?}, {blocks}"), out.difference(&new));
    new
}

/// An image: its raster, and its block list.
struct Image {
    n: u32,
    raster: Vec<u16>,
    blocks: Blocks,
}

impl Image {
    fn of(n: u32, raster: Vec<u16>) -> Image {
        Image { n, blocks: quadtree(n, &raster), raster }
    }

    /// The image with one pixel touched up. The list written is the model's and the check accepts it; its raster is the one before but
    /// for one place.
    fn touched_up(&self, random: &mut Random, speck: Speck) -> Image {
        let Image { n, ref raster, ref blocks } = *self;
        let new = Image { n, blocks: written(random, n, blocks, speck), raster: repainted(n, raster, speck) };
        let found = &new.blocks;
        assert_eq!(*found, quadtree(n, &new.raster), "n = {n}, {speck}, {blocks}");
        assert_eq!(check(n, &found.codes, &found.levels, &found.colours), 0, "n = {n}, {speck}, {blocks}: {found}");
        let painted = raster_from_blocks(random, n, found, raster.len());
        agrees(format_args!("n = {n}, {speck}, {blocks}: the raster"), painted.difference(&new.raster));
        new
    }

    /// The number of regions by the numbering, which is the tracing's too, and that of the unit edges by the tracing; the raster's colours
    /// give as many edges.
    fn counts(&self, random: &mut Random) -> [i64; 2] {
        let Image { n, ref raster, ref blocks } = *self;
        let lengths = needs(n, blocks.len());
        let numbered = number(random, n, blocks, [lengths[0], lengths[1]]).answer;
        let mut traced = trace(random, n, blocks, lengths);
        assert_eq!([numbered.number, traced.answer.number], [0, 0], "n = {n}, {blocks}");
        assert_eq!(numbered.regions, traced.answer.regions, "the regions of n = {n}, {blocks}");
        let edges = walked(&mut traced);
        assert_eq!(edges, unit_edges(n, raster), "the unit edges of n = {n}, {blocks}");
        [i64::from(numbered.regions), edges as i64]
    }

    /// Colours to try at a place: that of the pixel, those of the pixels around it, one that differs from it in one binary digit, and
    /// any.
    fn colours(&self, random: &mut Random, place: usize) -> BTreeSet<u16> {
        let side = 1 << self.n;
        let around = [place, place + 1, place.wrapping_sub(1), place + side, place.wrapping_sub(side)];
        let own = self.raster[place];
        let beside = around.into_iter().filter_map(|place| self.raster.get(place).copied());
        beside.chain([own ^ 1 << random.below(16), random.colour()]).collect()
    }
}

/// The unit edges of all outlines: straight from each corner to the next, and from the last to the first.
fn walked(out: &mut TraceOut) -> usize {
    let cycles = out.answer.cycles;
    let [_, _, _, ends, corners] = out.lists.each_mut().map(Lent::lend);
    (0..cycles).map(|k| chain(cycle(corners, ends, cycles, k).of(corners)).len()).sum()
}

/// How far the two counts move from one image to another.
fn apart(before: [i64; 2], after: [i64; 2]) -> [i64; 2] {
    [0, 1].map(|i| after[i] - before[i])
}

/// What moves too far: "The number of regions then moves by at most 4, up or down. The number of directed unit edges over all regions
/// moves by at most 8."
fn too_far([regions, edges]: [i64; 2]) -> Option<String> {
    let of_regions = (regions.abs() > 4).then(|| format!("the number of regions moves by {regions}"));
    of_regions.or_else(|| (edges.abs() > 8).then(|| format!("the number of unit edges moves by {edges}")))
}

/// Touches up an image. The two counts do not move too far.
fn touched_up_and_counted(random: &mut Random, image: &Image, before: [i64; 2], speck: Speck) {
    let after = image.touched_up(random, speck).counts(random);
    agrees(format_args!("n = {}, {speck}, {}", image.n, image.blocks), too_far(apart(before, after)));
}

/// Images of one pixel, and every image of 2 by 2 in three colours: every pixel in each of the three and in a fourth one.
#[test]
fn smallest_images() {
    let mut cases = Cases::of("the smallest images touched up");
    let mut random = Random::of("the smallest images touched up");
    for colours in [[0, 1, 2, 3], [255, 256, 511, 65_535]] {
        let pixels = colours.map(|colour| (0, vec![colour]));
        let squares = (0..81).map(|k| (1, [1, 3, 9, 27].map(|place| colours[k / place % 3]).to_vec()));
        for (n, raster) in pixels.into_iter().chain(squares) {
            let image = Image::of(n, raster);
            let before = image.counts(&mut random);
            for place in 0..image.raster.len() {
                for colour in colours {
                    touched_up_and_counted(&mut random, &image, before, speck(n, place, colour));
                    cases.ran();
                }
            }
        }
    }
    cases.end();
}

/// Every image of 4 by 4 in two colours, which differ in one byte alone: every pixel in the other colour gives another one of these
/// images. The two counts move by as much as they may.
#[test]
fn images_of_two_colours() {
    let mut cases = Cases::of("images of two colours touched up");
    let mut random = Random::of("images of two colours touched up");
    for colours in [[0, 1], [255, 511]] {
        let of_two = |k: usize| Image::of(2, (0..16).map(|place| colours[k >> place & 1]).collect());
        let images: Vec<Image> = (0..1 << 16).map(of_two).collect();
        let counts: Vec<[i64; 2]> = images.iter().map(|image| image.counts(&mut random)).collect();
        let (mut regions, mut edges) = (BTreeSet::new(), BTreeSet::new());
        for (k, image) in images.iter().enumerate() {
            for place in 0..16 {
                let other = k ^ 1 << place;
                let speck = speck(2, place, colours[other >> place & 1]);
                let found = written(&mut random, 2, &image.blocks, speck);
                assert_eq!(found, images[other].blocks, "{speck}, {}", image.blocks);
                let moves = apart(counts[k], counts[other]);
                agrees(format_args!("{speck}, {}", image.blocks), too_far(moves));
                regions.insert(moves[0]);
                edges.insert(moves[1]);
                cases.ran();
            }
        }
        assert_eq!(regions, (-4..=4).collect());
        assert_eq!(edges, (-4..=4).map(|half| 2 * half).collect());
    }
    cases.end();
}

/// Every image of 4 by 4 in two colours, pixels of it in a third one.
#[test]
fn a_third_colour() {
    let mut cases = Cases::of("a third colour");
    let mut random = Random::of("a third colour");
    for (n, raster) in rasters::small().filter(|(n, _)| *n == 2) {
        let image = Image::of(n, raster);
        let before = image.counts(&mut random);
        for _ in 0..3 {
            let place = random.below(16);
            touched_up_and_counted(&mut random, &image, before, speck(n, place, 257));
            cases.ran();
        }
    }
    cases.end();
}

/// A test over images of every kind, from `first` on with so many rounds for each n.
fn images_of_every_kind(
    name: &'static str,
    first: u32,
    rounds: &[usize],
    test: impl Fn(&mut Random, &mut Cases, &Image),
) {
    let (mut cases, mut random) = (Cases::of(name), Random::of(name));
    for (n, &rounds) in (first..).zip(rounds) {
        for raster in (0..rounds).flat_map(|_| rasters::with_structured(&mut random, n)).collect::<Vec<_>>() {
            test(&mut random, &mut cases, &Image::of(n, raster));
        }
    }
    cases.end();
}

/// Every pixel of small images, in several colours.
#[test]
fn every_pixel() {
    images_of_every_kind("every pixel", 0, &[20, 10, 5, 3, 1], |random, cases, image| {
        let before = image.counts(random);
        for place in 0..image.raster.len() {
            for colour in image.colours(random, place) {
                touched_up_and_counted(random, image, before, speck(image.n, place, colour));
                cases.ran();
            }
        }
    });
}

/// Pixels here and there in larger images.
#[test]
fn random_pixels() {
    images_of_every_kind("random pixels", 5, &[3, 2, 1, 1], |random, cases, image| {
        let before = image.counts(random);
        for _ in 0..[10, 6, 6, 3][image.n as usize - 5] {
            let place = random.below(image.raster.len());
            let colours: Vec<u16> = image.colours(random, place).into_iter().collect();
            let colour = colours[random.below(colours.len())];
            touched_up_and_counted(random, image, before, speck(image.n, place, colour));
            cases.ran();
        }
    });
}

/// A pixel in the colour that it has: the list is the same.
#[test]
fn the_colour_that_is_there() {
    images_of_every_kind("the colour that is there", 0, &[9, 9, 9, 9, 9, 5, 2, 1, 1], |random, cases, image| {
        for place in [(); 3].map(|()| random.below(image.raster.len())) {
            let there = speck(image.n, place, image.raster[place]);
            assert_eq!(written(random, image.n, &image.blocks, there), image.blocks, "n = {}, {there}", image.n);
            cases.ran();
        }
    });
}

/// Hundreds of pixels touched up one after another, each in the list that the one before gave: a raster is kept beside. Backwards, each
/// in the colour that it had, they give each list again, and at last the first.
#[test]
fn chains_of_repaintings() {
    let mut cases = Cases::of("chains of repaintings");
    let mut random = Random::of("chains of repaintings");
    for n in 0..=8 {
        let (mut longer, mut shorter) = (0, 0);
        for _ in 0..[4, 8, 8, 8, 6, 4, 3, 2, 2][n as usize] {
            let first = Image::of(n, rasters::any(&mut random, n));
            let few = [first.raster[0], random.colour()];
            let (mut raster, mut lists, mut back) = (first.raster.clone(), vec![first.blocks], vec![]);
            for _ in 0..400 {
                // mostly in a small square and in two colours, so that blocks part and merge
                let [x, y] = [(); 2].map(|()| random.below(4.min(1 << n)));
                let place = if random.below(4) == 0 { random.below(raster.len()) } else { (y << n) + x };
                let colour = if random.below(8) == 0 { random.colour() } else { few[random.below(2)] };
                back.push(speck(n, place, raster[place]));
                raster[place] = colour;
                lists.push(written(&mut random, n, &lists[lists.len() - 1], speck(n, place, colour)));
                cases.ran();
            }
            longer += lists.windows(2).filter(|two| two[0].len() < two[1].len()).count();
            shorter += lists.windows(2).filter(|two| two[0].len() > two[1].len()).count();
            let mut last = lists.pop().expect("a list for each step");
            assert_eq!(last, quadtree(n, &raster), "n = {n}, after the last step");
            while let (Some(speck), Some(before)) = (back.pop(), lists.pop()) {
                last = written(&mut random, n, &last, speck);
                assert_eq!(last, before, "n = {n}, {speck} undone, {} steps left", back.len());
                cases.ran();
            }
            assert_eq!(last, quadtree(n, &first.raster), "n = {n}, all undone");
        }
        assert!(n == 0 || longer > 0 && shorter > 0, "n = {n}: {longer} lists grew longer and {shorter} shorter");
    }
    cases.end();
}

/// The list of an image of one colour with one speck: on each level the three quadrants that do not have the speck.
fn one_speck(n: u32, ground: u16, speck: Speck) -> Blocks {
    let code = location_code(speck.x, speck.y);
    let mut rows = vec![(code, 0, speck.colour)];
    for level in 0..n {
        let quadrants = (0..4).map(|quadrant| (code >> (2 * level + 2) << 2 | quadrant) << (2 * level));
        let without = quadrants.filter(|first| first >> (2 * level) != code >> (2 * level));
        rows.extend(without.map(|first| (first, level as u8, ground)));
    }
    rows.sort();
    Blocks::of(&rows)
}

/// Places to put a speck: all of a small image; of a larger one its corners, its middle and some more.
fn places(random: &mut Random, n: u32) -> Vec<usize> {
    let pixels = 1usize << (2 * n);
    let side = 1 << n;
    if n <= 3 {
        return (0..pixels).collect();
    }
    let fixed = [0, side - 1, pixels - side, pixels - 1, pixels / 2 + side / 2, pixels / 2 - side / 2 - 1];
    fixed.into_iter().chain((0..20).map(|_| random.below(pixels))).collect()
}

/// One block parts into 3n + 1 around a speck, over all levels, and these grow together again when the speck is painted over.
#[test]
fn a_speck_put_in_and_taken_out() {
    let mut cases = Cases::of("a speck put in and taken out");
    let mut random = Random::of("a speck put in and taken out");
    for n in 0..=8 {
        for place in places(&mut random, n) {
            for (ground, colour) in [(7, 8), (1, 257), (0, 65_535)] {
                let (put_in, taken_out) = (speck(n, place, colour), speck(n, place, ground));
                let one = Blocks::of(&[(0, n as u8, ground)]);
                let parted = written(&mut random, n, &one, put_in);
                assert_eq!(parted, one_speck(n, ground, put_in), "n = {n}, {put_in}");
                assert_eq!(parted.len(), 3 * n as usize + 1, "n = {n}, {put_in}");
                assert_eq!(written(&mut random, n, &parted, taken_out), one, "n = {n}, {taken_out}");
                cases.ran();
            }
        }
    }
    cases.end();
}

/// Two specks in one colour, the second one taken out: blocks merge up to the level below the smallest quadrant that has both, and no
/// further. Then the first one is taken out, and one block is left.
#[test]
fn two_specks() {
    let mut cases = Cases::of("two specks");
    let mut random = Random::of("two specks");
    for turn in 0..1600 {
        let n = 1 + turn % 8;
        let pixels = 1 << (2 * n);
        let first = random.below(pixels);
        let second = (first + 1 + random.below(pixels - 1)) % pixels;
        let [a, b] = [speck(n, first, 300), speck(n, second, 301)];
        let [code, other] = [a, b].map(|speck| location_code(speck.x, speck.y));
        let level = (1..=n).find(|level| code >> (2 * level) == other >> (2 * level)).expect("the whole has both");
        let one = Blocks::of(&[(0, n as u8, 299)]);
        let with_first = written(&mut random, n, &one, a);
        assert_eq!(with_first, one_speck(n, 299, a), "n = {n}, {a}");
        let with_both = written(&mut random, n, &with_first, b);
        assert_eq!(with_both.len(), (3 * n + 1 + 3 * (level - 1)) as usize, "n = {n}, {a}, {b}");
        let without = [b, a].map(|speck| Speck { colour: 299, ..speck });
        assert_eq!(written(&mut random, n, &with_both, without[0]), with_first, "n = {n}, {a}, {b}");
        assert_eq!(written(&mut random, n, &with_first, without[1]), one, "n = {n}, {a}");
        cases.ran();
    }
    cases.end();
}

/// A speck in a checkerboard of squares of level m parts one of them into 3m + 1 blocks; painted over, these merge up to level m.
#[test]
fn specks_in_squares() {
    let mut cases = Cases::of("specks in squares");
    let mut random = Random::of("specks in squares");
    for n in 0..=8 {
        for m in 0..=n {
            let squares = |i: u32| (((i % (1 << n)) ^ (i >> n)) >> m & 1) as u16;
            let image = Image::of(n, (0..1 << (2 * n)).map(squares).collect());
            assert_eq!(image.blocks.len(), 1 << (2 * (n - m)));
            for _ in 0..5 {
                let place = random.below(image.raster.len());
                let own = image.raster[place];
                for colour in [2, 1 - own, own | 256] {
                    let with_speck = image.touched_up(&mut random, speck(n, place, colour));
                    let expected = image.blocks.len() + 3 * m as usize;
                    assert_eq!(with_speck.blocks.len(), expected, "n = {n}, m = {m}, place {place}, colour {colour}");
                    let back = with_speck.touched_up(&mut random, speck(n, place, own));
                    assert_eq!(back.blocks, image.blocks, "n = {n}, m = {m}, place {place}");
                    cases.ran();
                }
            }
        }
    }
    cases.end();
}

/// By how much an image's counts of regions and of unit edges move when a pixel is touched up. Painted back, it gives the first list.
fn there_and_back(random: &mut Random, image: &Image, place: usize, colour: u16) -> [i64; 2] {
    let n = image.n;
    let new = image.touched_up(random, speck(n, place, colour));
    let back = new.touched_up(random, speck(n, place, image.raster[place]));
    assert_eq!(back.blocks, image.blocks, "n = {n}, place {place}");
    let [before, after] = [image, &new].map(|image| image.counts(random));
    apart(before, after)
}

/// Images by their rows whose pixel (1, 1) is painted, and by how much the two counts then move.
#[test]
fn bounds_reached() {
    let mut cases = Cases::of("bounds reached");
    let mut random = Random::of("bounds reached");
    let rows: [(&str, [&str; 4], char, [i64; 2]); 14] = [
        ("a plus parted into its arms", ["BACD", "AAAE", "FAGH", "IJKL"], 'Z', [4, 8]),
        ("a plus of two colours", ["BABB", "AAAB", "BABB", "BBBB"], 'B', [4, 8]),
        ("a checkerboard joined", ["ABAB", "BABA", "ABAB", "BABA"], 'B', [-4, -8]),
        ("four regions joined by a speck", ["BACD", "AZAE", "FAGH", "IJKL"], 'A', [-4, -8]),
        ("three joined", ["BACD", "AZAE", "FMGH", "IJKL"], 'A', [-3, -6]),
        ("three parted", ["BACD", "AAAE", "FMGH", "IJKL"], 'Z', [3, 6]),
        ("a speck put in", ["AAAA", "AAAA", "AAAA", "AAAA"], 'Z', [1, 8]),
        ("a speck taken out", ["AAAA", "AZAA", "AAAA", "AAAA"], 'A', [-1, -8]),
        ("a speck in yet another colour", ["AAAA", "AZAA", "AAAA", "AAAA"], 'Y', [0, 0]),
        ("one bridge in place of another", ["CBCC", "AAAC", "CBCC", "CCCC"], 'B', [0, 0]),
        ("a speck taken by one of four", ["CBCC", "AZDC", "CECC", "CCCC"], 'B', [-1, -2]),
        ("an end cut off", ["AAAA", "ABBA", "AABA", "AAAA"], 'A', [0, -4]),
        ("three joined that meet elsewhere", ["AAAA", "AZBA", "AAAA", "CCCC"], 'A', [-1, -6]),
        ("two parted that meet elsewhere", ["AAAA", "AABA", "ABBA", "AAAA"], 'Z', [1, 4]),
    ];
    for (what, rows, colour, expected) in rows {
        let image = Image::of(2, rows.concat().bytes().map(u16::from).collect());
        assert_eq!(there_and_back(&mut random, &image, 5, colour as u16), expected, "{what}");
        cases.ran();
    }
    for n in 2..=8 {
        let side = 1usize << n;
        let checkerboard = Image::of(n, (0..side * side).map(|i| ((i ^ i >> n) & 1) as u16).collect());
        assert_eq!(checkerboard.counts(&mut random), [1, 4].map(|each| each << (2 * n)), "n = {n}");
        // inside, at an edge, at a corner
        let between = |random: &mut Random| 1 + random.below(side - 2);
        let (x, y) = (between(&mut random), between(&mut random));
        for (place, expected) in [(y * side + x, [-4, -8]), (y * side, [-3, -6]), (side * side - 1, [-2, -4])] {
            let other = 1 - checkerboard.raster[place];
            let moves = there_and_back(&mut random, &checkerboard, place, other);
            assert_eq!(moves, expected, "n = {n}, place {place}");
            cases.ran();
        }
        // two lines that cross in a ground of four colours, in a fifth one where they cross
        let ground = |i: usize| 1 + u16::from(i % side > x) + 2 * u16::from(i / side > y);
        let lines = |i: usize| if i % side == x || i / side == y { 0 } else { ground(i) };
        let cross = Image::of(n, (0..side * side).map(lines).collect());
        assert_eq!(there_and_back(&mut random, &cross, y * side + x, 256), [4, 8], "n = {n}, ({x}, {y})");
        cases.ran();
    }
    cases.end();
}

/// The comparison can fail: two pixels touched up move both counts further than one may.
#[test]
fn two_pixels_move_too_far() {
    let mut cases = Cases::of("two pixels");
    let mut random = Random::of("two pixels");
    let board = |colours: [u16; 2]| Image::of(3, (0..64).map(|i| colours[(i ^ i >> 3) & 1]).collect());
    for image in [board([0, 1]), board([0, 256])] {
        let before = image.counts(&mut random);
        // (1, 1) and (5, 6), each in the colour of the pixel east of it
        let [first, second] = [9, 53].map(|place| speck(3, place, image.raster[place + 1]));
        let one = image.touched_up(&mut random, first);
        let two = one.touched_up(&mut random, second);
        let [moves, further] = [&one, &two].map(|image| apart(before, image.counts(&mut random)));
        assert_eq!((moves, further), ([-4, -8], [-8, -16]));
        assert_eq!((too_far(moves), too_far(further).is_some()), (None, true));
        cases.ran();
    }
    for (moves, far) in [([5, 0], true), ([-5, 0], true), ([0, 9], true), ([0, -9], true), ([4, -8], false)] {
        assert_eq!(too_far(moves).is_some(), far, "{moves:?}");
        cases.ran();
    }
    cases.end();
}
