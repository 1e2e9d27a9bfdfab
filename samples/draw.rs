//! Draws the sample dials as binary PGM files into the folder that is named on the command line. `samples/draw` runs it.

mod dial;

use std::path::Path;
use std::{env, fs, io};

/// The time that the clocks show: eight past ten, and 32 seconds.
const TIME: u32 = (10 * 60 + 8) * 60 + 32;

const DIAL_2: [u8; 16] = [1, 1, 1, 1, 1, 2, 1, 1, 1, 1, 3, 3, 1, 1, 3, 3];
const DIAL_3: [u8; 16] = [1, 1, 1, 1, 1, 2, 2, 1, 1, 2, 2, 1, 1, 1, 1, 1];

/// A binary PGM with a maxval of 255.
fn pgm(width: usize, height: usize, raster: &[u8]) -> Vec<u8> {
    [format!("P5\n{width} {height}\n255\n").as_bytes(), raster].concat()
}

/// A binary PGM with a maxval above 255: two bytes a sample, the most significant first.
fn wide_pgm(side: usize, maxval: u16, raster: &[u16]) -> Vec<u8> {
    let samples = raster.iter().flat_map(|colour| colour.to_be_bytes()).collect();
    [format!("P5\n{side} {side}\n{maxval}\n").into_bytes(), samples].concat()
}

/// The pixels of a square in block order: those of its quadrants northwest, northeast, southwest and southeast, each in
/// block order itself.
fn block_order(x: usize, y: usize, side: usize) -> Vec<(usize, usize)> {
    if side == 1 {
        return vec![(x, y)];
    }
    let half = side / 2;
    let quadrants = [(x, y), (x + half, y), (x, y + half), (x + half, y + half)];
    quadrants.into_iter().flat_map(|(x, y)| block_order(x, y, half)).collect()
}

/// A raster, row by row, with its samples put into block order.
fn stored<T: Copy>(side: usize, raster: &[T]) -> Vec<T> {
    block_order(0, 0, side).into_iter().map(|(x, y)| raster[y * side + x]).collect()
}

/// Each file with its bytes.
fn samples() -> Vec<(&'static str, Vec<u8>)> {
    let wide_dial = DIAL_2.map(|colour| [0, 0xFFFF, 0xFEFF, 0xFFFE][usize::from(colour)]);
    let wide_clock: Vec<u16> = dial::clock(64, TIME).into_iter().map(|colour| u16::from(colour) * 25 / 6).collect();
    vec![
        ("clock-64.pgm", pgm(64, 64, &dial::clock(64, TIME))),
        ("clock-256.pgm", pgm(256, 256, &dial::clock(256, TIME))),
        // dials 1 to 5 of document 01
        ("dial-1.pgm", pgm(1, 1, &[1])),
        ("dial-2.pgm", pgm(4, 4, &DIAL_2)),
        ("dial-3.pgm", pgm(4, 4, &DIAL_3)),
        ("dial-4.pgm", pgm(2, 2, &[1, 2, 2, 1])),
        ("dial-5.pgm", pgm(2, 2, &[1, 1, 2, 2])),
        // dial 3 as GIMP writes it, with a remark
        ("remark.pgm", [b"P5\n# Created by GIMP version 2.10.34 PNM plug-in\n4 4\n255\n", &DIAL_3[..]].concat()),
        // dial 2 in colours of which the second and the third differ from the first in one byte alone
        ("wide-65535.pgm", wide_pgm(4, 65_535, &wide_dial)),
        // the clock in colours up to 1,000
        ("wide-1000.pgm", wide_pgm(64, 1000, &wide_clock)),
        // the clock, dial 2 and the clock in colours up to 1,000, with their samples in block order
        ("clock-64-stored.pgm", pgm(64, 64, &stored(64, &dial::clock(64, TIME)))),
        ("dial-2-stored.pgm", pgm(4, 4, &stored(4, &DIAL_2))),
        ("wide-1000-stored.pgm", wide_pgm(64, 1000, &stored(64, &wide_clock))),
        // a number sign straight after maxval
        ("refused-remark.pgm", [b"P5\n4 4\n255# levels\n", &DIAL_3[..]].concat()),
        // one picture for each number with which a picture is refused, from 10 to 14; clock-256.pgm is refused with 15
        ("refused-10.pgm", b"P2\n2 2\n255\n1 2\n2 1\n".to_vec()),
        ("refused-11.pgm", pgm(3, 2, &[1, 1, 2, 2, 2, 1])),
        ("refused-12.pgm", b"P5\n2 2\n65536\n\x01\x02\x02\x01".to_vec()),
        ("refused-13.pgm", pgm(2, 2, &[1, 2, 2])),
        ("refused-14.pgm", b"P5\n2 2\n9\n\x01\x02\x02\x0a".to_vec()),
    ]
}

fn main() -> io::Result<()> {
    let folder = env::args().nth(1).expect("usage: draw FOLDER");
    for (name, bytes) in samples() {
        fs::write(Path::new(&folder).join(name), &bytes)?;
        println!("{name}: {} bytes", bytes.len());
    }
    Ok(())
}
