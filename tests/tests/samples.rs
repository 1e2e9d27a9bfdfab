//! Each colour from 0 to 65,535 on its way from a file to a raster, to blocks and to a raster again, held to the colour itself at each
//! step.

use tests::calls::{agrees, blocks_from_raster, raster_from_blocks, PictureOut};
use tests::cases::Cases;
use tests::compare::Shown;
use tests::model::blocks::{pixel, Blocks};
use tests::model::pgm::Read;
use tests::pictures::pgm;
use tests::random::Random;

/// The way of a picture of side 2^n of which no two pixels have the same colour. Each function takes what the one before it wrote.
fn goes_its_way(random: &mut Random, n: u32, maxval: u32, colours: &[u16]) {
    let whole = colours.len();
    let bytes = &pgm(n, maxval, colours)[..];
    let mut read = PictureOut::call(random, bytes, whole);
    let picture = Read { number: 0, n, maxval, samples: colours.to_vec() };
    agrees(format_args!("raster of {}", Shown(bytes)), read.difference(&picture));

    let mut merged = blocks_from_raster(random, n, read.raster.lend(), [whole; 3]);
    let mut pixels = Blocks::default();
    for code in 0..whole as u32 {
        let (x, y) = pixel(code);
        pixels.push(code, 0, colours[(y << n | x) as usize]);
    }
    agrees(format_args!("blocks of {}", Shown(bytes)), merged.difference(&pixels));

    let back = raster_from_blocks(random, n, &merged.blocks(), whole);
    agrees(format_args!("raster again of {}", Shown(bytes)), back.difference(colours));
}

/// A picture of 256 by 256 that has every colour once, in several orders.
#[test]
fn every_colour_in_one_picture() {
    let mut cases = Cases::of("every colour in one picture");
    let mut random = Random::of("every colour in one picture");
    let rising: Vec<u16> = (0..=u16::MAX).collect();
    let falling: Vec<u16> = (0..=u16::MAX).rev().collect();
    // unlike the two before, neighbours in a row differ in the high byte alone and those in a column in the low byte alone
    let across: Vec<u16> = (0..=u16::MAX).map(|i| i % 256 * 256 + i / 256).collect();
    let mut orders = vec![rising, falling, across];
    for _ in 0..5 {
        let mut shuffled: Vec<u16> = (0..=u16::MAX).collect();
        for end in (1..shuffled.len()).rev() {
            shuffled.swap(end, random.below(end + 1));
        }
        orders.push(shuffled);
    }
    for colours in orders {
        goes_its_way(&mut random, 8, 65_535, &colours);
        cases.ran();
    }
    cases.end();
}

/// Each colour as a picture of one pixel: in two bytes, and up to 255 in one byte too.
#[test]
fn each_colour_alone() {
    let mut cases = Cases::of("each colour alone");
    let mut random = Random::of("each colour alone");
    for colour in 0..=u16::MAX {
        goes_its_way(&mut random, 0, 65_535, &[colour]);
        cases.ran();
    }
    for colour in 0..=255 {
        goes_its_way(&mut random, 0, 255, &[colour]);
        cases.ran();
    }
    cases.end();
}

/// A picture of 16 by 16 that has every colour up to 255 once, in one byte a sample and in two.
#[test]
fn colours_of_one_byte() {
    let mut cases = Cases::of("colours of one byte");
    let mut random = Random::of("colours of one byte");
    for maxval in [255, 256] {
        goes_its_way(&mut random, 4, maxval, &(0..=255).collect::<Vec<u16>>());
        goes_its_way(&mut random, 4, maxval, &(0..=255).rev().collect::<Vec<u16>>());
        cases.ran();
    }
    cases.end();
}
