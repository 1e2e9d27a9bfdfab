//! The pictures: rasters of side 2^n, the same on every run. A kind has different pictures for different seeds, but for the
//! regular ones.

use crate::dial;
use crate::random::Random;

/// A kind of picture: its name, and its raster for n and a seed.
pub struct Kind {
    pub name: &'static str,
    pub raster: fn(u32, u64) -> Vec<u16>,
}

const NOISE_OF_2: Kind = Kind { name: "noise of 2 colours", raster: |n, seed| noise(n, 2, seed) };
pub const NOISE_OF_256: Kind = Kind { name: "noise of 256 colours", raster: |n, seed| noise(n, 256, seed) };
const ONE_COLOUR: Kind = Kind { name: "one colour", raster: |n, _| vec![7; 1 << (2 * n)] };
const CLOCK_DIAL: Kind = Kind { name: "clock dial", raster: clock };
const BLOBS: Kind = Kind { name: "blobs", raster: blobs };
const RINGS: Kind = Kind { name: "rings", raster: rings };
const SPIRAL: Kind = Kind { name: "spiral", raster: |n, _| spiral(n) };

pub const KINDS: [Kind; 9] = [
    NOISE_OF_2,
    NOISE_OF_256,
    BLOBS,
    RINGS,
    Kind { name: "checkerboard", raster: |n, _| checkerboard(n) },
    SPIRAL,
    Kind { name: "comb", raster: |n, _| comb(n) },
    ONE_COLOUR,
    CLOCK_DIAL,
];

/// Pictures that are laid over one another: the name of the two, and their kinds.
pub const PAIRS: [(&str, [Kind; 2]); 5] = [
    ("two noises of 2 colours", [NOISE_OF_2, NOISE_OF_2]),
    ("two noises of 256 colours", [NOISE_OF_256, NOISE_OF_256]),
    ("one colour over noise of 256", [ONE_COLOUR, NOISE_OF_256]),
    ("noise of 256 over one colour", [NOISE_OF_256, ONE_COLOUR]),
    ("two clock dials", [CLOCK_DIAL, CLOCK_DIAL]),
];

/// Pictures of which single pixels are touched up.
pub const TOUCHED_UP: [Kind; 5] = [CLOCK_DIAL, BLOBS, NOISE_OF_2, NOISE_OF_256, ONE_COLOUR];

/// Pictures that are cut from the inside out.
pub const CUT: [Kind; 9] = [
    CLOCK_DIAL,
    BLOBS,
    RINGS,
    Kind { name: "nested squares", raster: |n, _| nested_squares(n) },
    SPIRAL,
    Kind { name: "islands", raster: |n, _| drawn(n, |x, y| (x & y & 1) as u16) },
    NOISE_OF_2,
    NOISE_OF_256,
    ONE_COLOUR,
];

/// A colour that no picture has.
pub const NEW_COLOUR: u16 = 256;

/// The raster whose pixel (x, y) has the colour `colour(x, y)`.
fn drawn(n: u32, colour: impl Fn(usize, usize) -> u16) -> Vec<u16> {
    let side = 1 << n;
    (0..side * side).map(|i| colour(i % side, i / side)).collect()
}

fn noise(n: u32, colours: usize, seed: u64) -> Vec<u16> {
    let mut random = Random::new(seed);
    (0..1 << (2 * n)).map(|_| random.below(colours) as u16).collect()
}

/// The file of a picture whose samples are noise up to maxval: a binary PGM of one byte a sample or, above 255, two.
pub fn file(n: u32, maxval: u16, seed: u64) -> Vec<u8> {
    let side = 1 << n;
    let width = if maxval > 255 { 2 } else { 1 };
    let samples = noise(n, usize::from(maxval) + 1, seed).into_iter().map(u16::to_be_bytes);
    let header = format!("P5\n{side} {side}\n{maxval}\n").into_bytes();
    header.into_iter().chain(samples.flat_map(|bytes| bytes.into_iter().skip(2 - width))).collect()
}

/// Discs of five colours laid over one another, larger in a larger picture.
fn blobs(n: u32, seed: u64) -> Vec<u16> {
    let side = 1 << n;
    let mut random = Random::new(seed);
    let mut raster = vec![0; side * side];
    for _ in 0..150 {
        let (x, y) = (random.below(side), random.below(side));
        let (radius, colour) = (1 + random.below(side / 8), random.below(5) as u16);
        for (i, pixel) in raster.iter_mut().enumerate() {
            let (dx, dy) = ((i % side).abs_diff(x), (i / side).abs_diff(y));
            if dx * dx + dy * dy <= radius * radius {
                *pixel = colour;
            }
        }
    }
    raster
}

/// Rings two pixels wide around a place near the middle, of two colours by turns.
fn rings(n: u32, seed: u64) -> Vec<u16> {
    let mut random = Random::new(seed);
    let mut near_the_middle = || (1 << (n - 2)) + random.below(1 << (n - 1));
    let (middle_x, middle_y) = (near_the_middle(), near_the_middle());
    drawn(n, |x, y| {
        let (dx, dy) = (x.abs_diff(middle_x), y.abs_diff(middle_y));
        ((dx * dx + dy * dy).isqrt() / 2 % 2) as u16
    })
}

/// Rings one pixel wide along the edge and inward, each around all that follow, of two colours by turns.
fn nested_squares(n: u32) -> Vec<u16> {
    let last = (1 << n) - 1;
    drawn(n, |x, y| (x.min(y).min(last - x).min(last - y) % 2) as u16)
}

/// A clock face at some time.
fn clock(n: u32, seed: u64) -> Vec<u16> {
    let face = dial::clock(1 << n, Random::new(seed).below(12 * 60 * 60) as u32);
    face.into_iter().map(u16::from).collect()
}

fn checkerboard(n: u32) -> Vec<u16> {
    drawn(n, |x, y| ((x + y) % 2) as u16)
}

/// A line one pixel wide that winds from the northwest corner inward, with a gap of one pixel between its turns.
fn spiral(n: u32) -> Vec<u16> {
    let side: i32 = 1 << n;
    let mut raster = vec![0; (side * side) as usize];
    let inside = |x: i32, y: i32| (0..side).contains(&x) && (0..side).contains(&y);
    let (mut x, mut y, mut dx, mut dy) = (0, 0, 1, 0);
    loop {
        raster[(y * side + x) as usize] = 1;
        // straight on while the next two pixels are free (the second may lie outside), else right, if it is free there
        let drawn = |x: i32, y: i32| inside(x, y) && raster[(y * side + x) as usize] == 1;
        let free =
            |dx: i32, dy: i32| inside(x + dx, y + dy) && !drawn(x + dx, y + dy) && !drawn(x + 2 * dx, y + 2 * dy);
        if !free(dx, dy) {
            (dx, dy) = (-dy, dx);
            if !free(dx, dy) {
                return raster;
            }
        }
        (x, y) = (x + dx, y + dy);
    }
}

/// Teeth one pixel wide, joined along the south edge.
fn comb(n: u32) -> Vec<u16> {
    let last = (1 << n) - 1;
    drawn(n, |x, y| (x % 2 == 0 || y == last) as u16)
}
