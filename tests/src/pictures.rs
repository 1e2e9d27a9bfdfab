//! Pictures to try: rasters as the bytes of a binary PGM; and the reader held to the model on them.

use crate::calls::{agrees, PictureOut};
use crate::compare::Shown;
use crate::faults;
use crate::model::orders::in_rows;
use crate::model::pgm::{read, read_into, samples, Read};
use crate::random::Random;
use crate::rasters;

/// A header and what follows it.
pub fn picture(header: &str, raster: &[u8]) -> Vec<u8> {
    [header.as_bytes(), raster].concat()
}

/// A picture of side 2^n.
pub fn pgm(n: u32, maxval: u32, raster: &[u16]) -> Vec<u8> {
    let side = 1 << n;
    [format!("P5\n{side} {side}\n{maxval}\n").into_bytes(), sample_bytes(maxval, raster)].concat()
}

/// Random samples up to maxval.
pub fn samples_up_to(random: &mut Random, maxval: u32, count: usize) -> Vec<u16> {
    (0..count).map(|_| random.below(maxval as usize + 1) as u16).collect()
}

/// Colours as a file has them: in one byte each for a maxval up to 255, else in two, the most significant first.
pub fn sample_bytes(maxval: u32, colours: &[u16]) -> Vec<u8> {
    match maxval {
        0..=255 => colours.iter().map(|&colour| u8::try_from(colour).expect("a colour of one byte")).collect(),
        _ => colours.iter().flat_map(|&colour| colour.to_be_bytes()).collect(),
    }
}

/// A raster as two pictures: one byte a sample, which has the low bytes of its colours alone, and two bytes.
pub fn of_both_widths(n: u32, raster: &[u16]) -> [Vec<u8>; 2] {
    let low: Vec<u16> = raster.iter().map(|colour| colour & 0xFF).collect();
    [pgm(n, 255, &low), pgm(n, 65_535, raster)]
}

/// A picture of up to 128 by 128, at times with faults near its front or anywhere.
pub fn any_file(random: &mut Random) -> Vec<u8> {
    let n = [0, 1, 2, 2, 3, 3, 4, 5, 6, 7][random.below(10)];
    let maxval = [0, 1, 9, 200, 255, 255, 256, 1000, 65_535, 65_535, 65_536][random.below(11)];
    let raster = rasters::any(random, n).into_iter().map(|colour| (u32::from(colour) % (maxval + 1)) as u16);
    let mut bytes = pgm(n, maxval, &raster.collect::<Vec<u16>>());
    let front = [16, bytes.len()][random.below(2)].min(bytes.len());
    let behind = bytes.split_off(front);
    for _ in 0..[0, 0, 1, 2][random.below(4)] {
        faults::in_list(random, &mut bytes, b"0123456789 #\n\xff");
    }
    [bytes, behind].concat()
}

/// A file with its samples, which stand in block order, put into rows; one refused with 10 to 13 as it stands.
pub fn put_into_rows(bytes: &[u8]) -> Vec<u8> {
    let Ok(Read { n, maxval, samples, .. }) = samples(bytes) else { return bytes.to_vec() };
    let rows = sample_bytes(maxval, &in_rows(n, &samples));
    [&bytes[..bytes.len() - rows.len()], &rows].concat()
}

/// Holds the reader to the model on these bytes with a raster of this length, and gives the number.
pub fn lent(random: &mut Random, bytes: &[u8], length: usize) -> u32 {
    let expected = read_into(bytes, length);
    let out = PictureOut::call(random, bytes, length);
    agrees(format_args!("raster of {length}, {}", Shown(bytes)), out.difference(&expected));
    expected.number
}

/// The same with a raster as long as needed, a longer one, one that is an entry too short and an empty one. A picture that is refused
/// whatever the raster gets one with more room than it has bytes for, and an empty one. Gives the number that a long raster brings.
pub fn judged(random: &mut Random, bytes: &[u8]) -> u32 {
    let Read { number, samples, .. } = read(bytes);
    let lengths = match number {
        0 => vec![samples.len(), samples.len() + 5, samples.len() - 1, 0],
        _ => vec![bytes.len(), 0],
    };
    for length in lengths {
        lent(random, bytes, length);
    }
    number
}

#[cfg(test)]
mod tests {
    use super::*;

    #[test]
    fn both_widths() {
        assert_eq!(pgm(0, 255, &[65]), b"P5\n1 1\n255\nA");
        assert_eq!(pgm(0, 256, &[65]), b"P5\n1 1\n256\n\0A");
        assert_eq!(of_both_widths(0, &[0x4142]), [b"P5\n1 1\n255\nB".to_vec(), b"P5\n1 1\n65535\nAB".to_vec()]);
    }

    #[test]
    fn stored_samples_put_into_rows() {
        assert_eq!(put_into_rows(b"P5#\n4 4 255 abcdefghijklmnop"), b"P5#\n4 4 255 abefcdghijmnklop");
        let wide = put_into_rows(b"P5 4 4 65535 AaBbCcDdEeFfGgHhIiJjKkLlMmNnOoPp");
        assert_eq!(wide, b"P5 4 4 65535 AaBbEeFfCcDdGgHhIiJjMmNnKkLlOoPp");
        assert_eq!(put_into_rows(b"P5 4 4 99 abcdefghijklmnop"), b"P5 4 4 99 abefcdghijmnklop", "samples above maxval");
        for refused in [&b"P5 4 4 255 abcdefghijklmno"[..], b"P5 3 3 255 abcdefghi", b""] {
            assert_eq!(put_into_rows(refused), refused);
        }
    }
}
