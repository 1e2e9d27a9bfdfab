//! Rasters to try, for every side: random ones of several kinds, and ones with a structure that is hard on numbering or tracing.

use crate::model::blocks::{location_code, pixel};
use crate::random::Random;

/// A colour, one that differs from it in the high byte alone and one that differs from it in the low byte alone, by one binary digit
/// each: equal to a comparison that leaves a byte out.
fn alike(random: &mut Random) -> [u16; 3] {
    let colour = random.colour();
    [colour, colour ^ 0x100 << random.below(8), colour ^ 1 << random.below(8)]
}

/// One raster of side 2^n of each kind.
pub fn of_every_kind(random: &mut Random, n: u32) -> Vec<Vec<u16>> {
    let pixels = 1usize << (2 * n);
    let [colour, high, low] = alike(random);
    let spot = |random: &mut Random, other: u16| {
        let mut raster = vec![colour; pixels];
        raster[random.below(pixels)] = other;
        raster
    };
    vec![
        vec![colour; pixels],
        spot(random, colour.wrapping_add(1)),
        spot(random, high),
        spot(random, low),
        drawn(n, |x, y| (x ^ y) & 1),
        drawn(n, |_, y| y),
        random.colours(pixels),
        noise(random, n, &[0, 1]),
        noise(random, n, &[colour, high]),
        noise(random, n, &[colour, low]),
        squares(random, n, &[colour, high]),
        squares(random, n, &[colour, low]),
        squares_of(random, n, 2),
        squares_of(random, n, 3),
        squares_of(random, n, 200),
    ]
}

/// A raster of squares: in code order, from each place on, a random quadrant that may start there has one of the colours.
fn squares(random: &mut Random, n: u32, colours: &[u16]) -> Vec<u16> {
    let pixels = 1u32 << (2 * n);
    let mut raster = vec![0; pixels as usize];
    let mut code = 0;
    while code < pixels {
        let largest = (0..=n).rev().find(|level| code % (1 << (2 * level)) == 0).unwrap_or(0);
        let level = random.below(largest as usize + 1);
        let colour = colours[random.below(colours.len())];
        for c in code..code + (1 << (2 * level)) {
            let (x, y) = pixel(c);
            debug_assert_eq!(location_code(x, y), c);
            raster[(y << n | x) as usize] = colour;
        }
        code += 1 << (2 * level);
    }
    raster
}

/// A raster of squares of so many random colours.
fn squares_of(random: &mut Random, n: u32, count: usize) -> Vec<u16> {
    let colours = random.colours(count);
    squares(random, n, &colours)
}

/// A raster whose every pixel has one of the colours.
fn noise(random: &mut Random, n: u32, colours: &[u16]) -> Vec<u16> {
    (0..1usize << (2 * n)).map(|_| colours[random.below(colours.len())]).collect()
}

/// Noise of so many random colours.
fn noise_of(random: &mut Random, n: u32, count: usize) -> Vec<u16> {
    let colours = random.colours(count);
    noise(random, n, &colours)
}

/// A random raster: noise or squares, of few colours or of many, at times of colours that differ in one byte alone.
pub fn any(random: &mut Random, n: u32) -> Vec<u16> {
    let count = [1, 2, 2, 3, 4, 256][random.below(6)];
    let colours = match random.below(4) {
        0 => alike(random).to_vec(),
        _ => random.colours(count),
    };
    match random.below(2) {
        0 => noise(random, n, &colours),
        _ => squares(random, n, &colours),
    }
}

/// Rectangles laid over one another, each anywhere or just inside the one before, filled or as frames one pixel wide, with some specks on
/// top: regions that surround others, at times many deep, and walls with a gap somewhere.
pub fn frames(random: &mut Random, n: u32) -> Vec<u16> {
    let side = 1usize << n;
    let count = 2 + random.below(4);
    let colours = random.colours(count);
    let mut raster = vec![colours[0]; side * side];
    let mut ranges = [(0, side - 1); 2];
    for _ in 0..1 + random.below(3 << (n / 2)) {
        let anywhere = random.below(3) == 0;
        ranges = ranges.map(|(low, high)| {
            let (a, b) = (random.below(side), random.below(side));
            match high - low {
                4.. if !anywhere => (low + 1 + a % 2, high - 1 - b % 2),
                _ => (a.min(b), a.max(b)),
            }
        });
        let [(west, east), (north, south)] = ranges;
        let (colour, filled) = (colours[random.below(count)], random.below(3) == 0);
        for y in north..=south {
            for x in west..=east {
                if filled || x == west || x == east || y == north || y == south {
                    raster[y * side + x] = colour;
                }
            }
        }
    }
    for _ in 0..random.below(1 + side / 2) {
        raster[random.below(side * side)] = colours[random.below(count)];
    }
    raster
}

/// Noise of two colours of which one has so many pixels in 16.
pub fn sprinkled(random: &mut Random, n: u32, sixteenths: usize) -> Vec<u16> {
    (0..1 << (2 * n)).map(|_| u16::from(random.below(16) < sixteenths)).collect()
}

/// A raster parted into several: each pixel keeps its colour in one of them, and has any colour up to it in the others. Laid over one
/// another they give the raster again, however little of it each shows.
pub fn parted<const PARTS: usize>(random: &mut Random, raster: &[u16]) -> [Vec<u16>; PARTS] {
    let mut parts = [(); PARTS].map(|()| raster.to_vec());
    for (place, &colour) in raster.iter().enumerate() {
        let keeps = random.below(PARTS);
        for part in (0..PARTS).filter(|&part| part != keeps) {
            parts[part][place] = random.below(usize::from(colour) + 1) as u16;
        }
    }
    parts
}

/// Every raster of 2 by 2 pixels in four colours, and every one of 4 by 4 in two, each with its n. Any two of the four differ in the
/// low byte alone, in the high byte alone or in both. The two differ in the low byte alone where the first pixel has the one, and in
/// the high byte alone where it has the other, so that each way to part the pixels in two is there with both.
pub fn small() -> impl Iterator<Item = (u32, Vec<u16>)> {
    let colours = [0, 1, 256, 257];
    let of_four = (0..1usize << 8).map(move |k| (1, (0..4).map(|i| colours[k >> (2 * i) & 3]).collect()));
    let of_two = (0..1usize << 16).map(|k| {
        let other = if k & 1 == 0 { 1 } else { 256 };
        (2, (0..16).map(|i| if k >> i & 1 == 0 { 0 } else { other }).collect())
    });
    of_four.chain(of_two)
}

/// A raster by the colour of each pixel.
fn drawn(n: u32, colour: impl Fn(usize, usize) -> usize) -> Vec<u16> {
    let side = 1usize << n;
    (0..side * side).map(|i| colour(i % side, i / side) as u16).collect()
}

/// Rasters of side 2^n with a name each: noise, colours that differ in one byte alone, and regions that touch at corners, wind, nest or
/// meet late.
pub fn structured(random: &mut Random, n: u32) -> Vec<(&'static str, Vec<u16>)> {
    let last = (1usize << n) - 1;
    let ring = |x: usize, y: usize| x.min(y).min(last - x).min(last - y);
    let [colour, high, low] = alike(random);
    let two = noise(random, n, &[0, 1]);
    vec![
        ("noise of 2 colours", noise_of(random, n, 2)),
        ("noise of 3 colours", noise_of(random, n, 3)),
        ("noise of 4 colours", noise_of(random, n, 4)),
        ("noise of 65,536 colours", random.colours(1 << (2 * n))),
        ("noise of 2 colours, unlike in the high byte alone", noise(random, n, &[colour, high])),
        ("noise of 2 colours, unlike in the low byte alone", noise(random, n, &[colour, low])),
        ("squares of 2 colours, unlike in the high byte alone", squares(random, n, &[colour, high])),
        ("squares of 2 colours, unlike in the low byte alone", squares(random, n, &[colour, low])),
        ("blobs", smoothed(n, &smoothed(n, &two))),
        ("squares of 3 colours", squares_of(random, n, 3)),
        ("checkerboard", drawn(n, |x, y| (x ^ y) & 1)),
        ("checkerboard of squares", drawn(n, |x, y| ((x ^ y) >> (n / 2)) & 1)),
        ("spiral", spiral(n)),
        ("comb joined in the north", drawn(n, |x, y| usize::from(y == 0 || x % 2 == 0))),
        ("comb joined in the south", drawn(n, |x, y| usize::from(y == last || x % 2 == 0))),
        ("comb joined in the east", drawn(n, |x, y| usize::from(x == last || y % 2 == 0))),
        ("rings of 2 colours", drawn(n, |x, y| ring(x, y) & 1)),
        ("rings of many colours", drawn(n, ring)),
        ("diagonal chain", drawn(n, |x, y| usize::from(x == y))),
        ("diagonal chain, the other way", drawn(n, |x, y| usize::from(x + y == last))),
        ("diagonal chains", drawn(n, |x, y| usize::from((x + y) % 3 == 0))),
        ("diagonal stairs", drawn(n, |x, y| ((x + y) / 2) & 1)),
        ("pixels apart, each a hole", drawn(n, |x, y| x & y & 1)),
        ("nested triangles", drawn(n, |x, y| usize::from(x & y == 0))),
    ]
}

/// Rasters of every kind, structured ones too.
pub fn with_structured(random: &mut Random, n: u32) -> Vec<Vec<u16>> {
    let structured = structured(random, n).into_iter().map(|(_, raster)| raster);
    of_every_kind(random, n).into_iter().chain(structured).collect()
}

/// Two colours, each pixel with the one that most of the nine around it have.
fn smoothed(n: u32, raster: &[u16]) -> Vec<u16> {
    let side = 1usize << n;
    drawn(n, |x, y| {
        let rows = y.saturating_sub(1)..(y + 2).min(side);
        let around: Vec<u16> =
            rows.flat_map(|y| (x.saturating_sub(1)..(x + 2).min(side)).map(move |x| raster[y * side + x])).collect();
        usize::from(2 * around.iter().filter(|&&c| c == 1).count() > around.len())
    })
}

/// A path one pixel wide that winds inward from the northwest pixel, with one pixel between its turns.
fn spiral(n: u32) -> Vec<u16> {
    let side = 1i32 << n;
    let mut raster = vec![0; (side * side) as usize];
    let inside = |x: i32, y: i32| (0..side).contains(&x) && (0..side).contains(&y);
    let (mut x, mut y, mut turns) = (0, 0, 0);
    raster[0] = 1;
    for direction in [(1, 0), (0, 1), (-1, 0), (0, -1)].into_iter().cycle() {
        let (dx, dy) = direction;
        let free = |x: i32, y: i32, raster: &[u16]| !inside(x, y) || raster[(y * side + x) as usize] == 0;
        let mut steps = 0;
        while inside(x + dx, y + dy) && free(x + 2 * dx, y + 2 * dy, &raster) && free(x + dx, y + dy, &raster) {
            (x, y, steps) = (x + dx, y + dy, steps + 1);
            raster[(y * side + x) as usize] = 1;
        }
        turns = if steps == 0 { turns + 1 } else { 0 };
        if turns == 2 {
            break;
        }
    }
    raster
}

#[cfg(test)]
mod tests {
    use super::*;
    use std::collections::BTreeSet;

    #[test]
    fn alike_in_one_byte() {
        let mut random = Random::new(1);
        for _ in 0..1000 {
            let [colour, high, low] = alike(&mut random).map(u16::to_be_bytes);
            assert!(colour[0] != high[0] && colour[1] == high[1], "{colour:?} {high:?}");
            assert!(colour[0] == low[0] && colour[1] != low[1], "{colour:?} {low:?}");
        }
    }

    #[test]
    fn small_ones_are_all_there() {
        let all: BTreeSet<(u32, Vec<u16>)> = small().collect();
        assert_eq!(all.len(), 4usize.pow(4) + 2usize.pow(16));
    }
}
