//! Binary PGM pictures against a separate reader, at one byte a sample and at two: causes 10 to 14 and 8, their order, and what becomes
//! of the lent raster.

use std::collections::BTreeSet;
use tests::calls::{agrees, PictureOut};
use tests::cases::Cases;
use tests::compare::Shown;
use tests::damage::each_place;
use tests::model::pgm::{read, read_into, Read};
use tests::nettlestair::Picture;
use tests::pictures::{judged, lent, pgm, picture, sample_bytes, samples_up_to};
use tests::random::Random;

/// Maxvals of both widths of a sample.
const MAXVALS: [u32; 16] = [1, 2, 9, 10, 99, 100, 254, 255, 256, 257, 999, 1000, 32_767, 32_768, 65_534, 65_535];

#[test]
fn accepted_pictures() {
    let mut cases = Cases::of("accepted pictures");
    let mut random = Random::of("accepted pictures");
    for n in 0..=8 {
        let side = 1usize << n;
        for maxval in MAXVALS {
            for space in [" ", "\n", "\t", "\r", " \t\r\n\n ", "#\n", "\n# a remark\n", "#\r#9 9\r\n"] {
                let colours = samples_up_to(&mut random, maxval, side * side);
                let header = format!("P5{space}{side}{space}{side}{space}{maxval}\n");
                let bytes = picture(&header, &sample_bytes(maxval, &colours));
                assert_eq!(read(&bytes), Read { number: 0, n, maxval, samples: colours }, "the model");
                assert_eq!(judged(&mut random, &bytes), 0);
                cases.ran();
            }
        }
    }
    cases.end();
}

/// What is read of pictures, by hand.
#[test]
fn samples_by_hand() {
    let mut cases = Cases::of("samples by hand");
    let mut random = Random::of("samples by hand");
    let rows: &[(&[u8], u32, u32, &[u16])] = &[
        (b"P5 1 1 255 A", 0, 255, &[65]),
        (b"P5 1 1 255 \xff", 0, 255, &[255]),
        (b"P5 1 1 256 \x00A", 0, 256, &[65]),
        (b"P5 1 1 256 \x01\x00", 0, 256, &[256]),
        (b"P5 1 1 65535 AB", 0, 65_535, &[65 * 256 + 66]),
        (b"P5 1 1 65535 \x00\xff", 0, 65_535, &[255]),
        (b"P5 1 1 65535 \xff\x00", 0, 65_535, &[65_280]),
        (b"P5 2 2 4 \x01\x02\x03\x04", 1, 4, &[1, 2, 3, 4]),
        (b"P5 2 2 1000 \x00\x05\x01\x00\x03\xe8\x02\xff", 1, 1000, &[5, 256, 1000, 767]),
        // samples that look like white space and a remark
        (b"P5#\n2 2 09999\r\n\x00#\n\x00\x00 \x00", 1, 9999, &[2560, 8970, 0, 8192]),
    ];
    for &(bytes, n, maxval, samples) in rows {
        let expected = Read { number: 0, n, maxval, samples: samples.to_vec() };
        assert_eq!(read(bytes), expected, "the model: {}", Shown(bytes));
        let out = PictureOut::call(&mut random, bytes, samples.len() + 2);
        agrees(Shown(bytes), out.difference(&expected));
        cases.ran();
    }
    cases.end();
}

/// The document's causes by hand: each alone, and pairs with the earlier one answered.
#[test]
fn causes() {
    let mut cases = Cases::of("causes of pictures");
    let mut random = Random::of("causes of pictures");
    let rows: &[(&[u8], u32)] = &[
        (b"", 10),
        (b"P", 10),
        (b"P5", 10),
        (b"P5 ", 10),
        (b"P6 1 1 255 x", 10),
        (b" P5 1 1 255 x", 10),
        (b"P51 1 255 x", 10),
        (b"P5\x0b1 1 255 x", 10),
        (b"P5\x0c1 1 255 x", 10),
        (b"P5\x001 1 255 x", 10),
        (b"P5 #", 10),
        (b"P5 #1 1 255 x", 10),
        (b"P5 1 1 #255 x", 10),
        (b"P5 1 1 255#", 10),
        (b"P5 1 1 255#\nx", 10),
        (b"P5 1 1 25#\n5 x", 10),
        (b"P5 1 1 2\n#\n55 x", 13),
        (b"P#\n5 1 1 255 x", 10),
        (b"#\nP5 1 1 255 x", 10),
        (b"P5#\n\x0b1 1 255 x", 10),
        (b"P5 #\n1 1 255 x", 0),
        (b"P5#\n1 1 255 x", 0),
        (b"P5#\r1#\r1#\r255 x", 0),
        (b"P5#\r\n1#\r\n1#\r\n255 x", 0),
        (b"P5#\x00\x0b\xff#P5 4 4\n1 1 255 x", 0),
        (b"P5 1 1 255 #", 0),
        (b"P5 1 1 255 #\n", 13),
        (b"P5 1 1 9999 #\n", 0),
        (b"P5 1#x\n6 255 x", 11),
        (b"P5 1 1 9 #", 14),
        (b"P5 1 1 255", 10),
        (b"P5 1 1 255x", 10),
        (b"P5 1 1 255#x", 10),
        (b"P5 1 1 000255 x", 10),
        (b"P5 1 1 065535 xy", 10),
        (b"P5 1 1 100000 xy", 10),
        (b"P5 100000 1 255 x", 10),
        (b"P5 -1 1 255 x", 10),
        (b"P5 1 1 25a x", 10),
        (b"P5 00001 00001 00255 x", 0),
        (b"P5 00001 00001 00256 \x00x", 0),
        (b"P5 1 1 255\r\n", 0),
        (b"P5 1 1 255\r\n\n", 13),
        (b"P5 1 1 9999\r\n\n", 0),
        (b"P5 3 3 255 123456789", 11),
        (b"P5 1 2 255 xx", 11),
        (b"P5 0 0 255 ", 11),
        (b"P5 512 512 255 ", 11),
        (b"P5 65536 65536 255 ", 11),
        (b"P5 99999 99999 99999 ", 11),
        (b"P5 1 1 0 \x00", 12),
        (b"P5 1 1 00000 \x00\x00", 12),
        (b"P5 1 1 65536 \x00", 12),
        (b"P5 1 1 65536 \x00\x00", 12),
        // 1, 255 and 256 more than 65,536
        (b"P5 1 1 65537 \x00", 12),
        (b"P5 1 1 65791 x", 12),
        (b"P5 1 1 65792 \x00x", 12),
        (b"P5 1 1 99999 x", 12),
        (b"P5 1 1 255 ", 13),
        (b"P5 1 1 255 xx", 13),
        (b"P5 2 2 255 abc", 13),
        (b"P5 2 2 255 abcdefgh", 13),
        (b"P5 1 1 256 ", 13),
        (b"P5 1 1 256 \x00", 13),
        (b"P5 1 1 256 \x00\x00\x00", 13),
        (b"P5 1 1 65535 x", 13),
        (b"P5 2 2 256 \x00\x00\x00\x00", 13),
        (b"P5 2 2 256 \x00\x00\x00\x00\x00\x00\x00", 13),
        (b"P5 2 2 256 \x00\x00\x00\x00\x00\x00\x00\x00\x00", 13),
        (b"P5 1 1 9 \x0a", 14),
        (b"P5 1 1 9 \x09", 0),
        (b"P5 2 2 9 \x00\x00\x00\xff", 14),
        (b"P5 1 1 254 \xfe", 0),
        (b"P5 1 1 254 \xff", 14),
        (b"P5 1 1 256 \x00\xff", 0),
        (b"P5 1 1 256 \x01\x00", 0),
        (b"P5 1 1 256 \x01\x01", 14),
        (b"P5 1 1 257 \x01\x01", 0),
        (b"P5 1 1 257 \x01\x02", 14),
        (b"P5 1 1 999 \x03\xe7", 0),
        (b"P5 1 1 999 \x03\xe8", 14),
        (b"P5 1 1 1000 \x03\xe8", 0),
        (b"P5 1 1 1000 \x03\xe9", 14),
        // the low byte above that of maxval, then below it; then the bytes of maxval exchanged
        (b"P5 1 1 1000 \x02\xff", 0),
        (b"P5 1 1 1000 \x04\x00", 14),
        (b"P5 1 1 1000 \xe8\x03", 14),
        (b"P5 1 1 32767 \x80\x00", 14),
        (b"P5 1 1 32768 \x80\x00", 0),
        (b"P5 1 1 32768 \x80\x01", 14),
        (b"P5 1 1 65534 \xff\xfe", 0),
        (b"P5 1 1 65534 \xff\xff", 14),
        (b"P5 1 1 65535 \xff\xff", 0),
        (b"P5 2 2 999 \x03\xe7\x00\xff\x02\xff\x03\xe7", 0),
        (b"P5 2 2 999 \x03\xe8\x00\xff\x02\xff\x03\xe7", 14),
        (b"P5 2 2 999 \x03\xe7\x00\xff\x02\xff\x03\xe8", 14),
        // pairs
        (b"P5 3 3", 10),
        (b"P5 3 3 0", 10),
        (b"P5 1 2 0 xx", 11),
        (b"P5 1 2 65536 xxxx", 11),
        (b"P5 3 3 255 ", 11),
        (b"P5 3 1 9 xyz", 11),
        (b"P5 3 1 999 xxyyzz", 11),
        (b"P5 1 1 0 ", 12),
        (b"P5 1 1 0 x", 12),
        (b"P5 1 1 65536 ", 12),
        (b"P5 2 2 9 xyz", 13),
        (b"P5 2 2 999 xyz", 13),
        (b"P5 1 1 999 xyz", 13),
    ];
    let mut seen = BTreeSet::new();
    for &(bytes, expected) in rows {
        assert_eq!(read(bytes).number, expected, "the model: {}", String::from_utf8_lossy(bytes));
        assert_eq!(judged(&mut random, bytes), expected);
        seen.insert(expected);
        cases.ran();
    }
    assert_eq!(seen, BTreeSet::from([0, 10, 11, 12, 13, 14]));
    cases.end();
}

/// The raster that is lent: 8 where it is too short, after every other cause. Its entries after the 4^n stay.
#[test]
fn rasters_lent() {
    let mut cases = Cases::of("rasters lent to the reader");
    let mut random = Random::of("rasters lent to the reader");
    let rows: &[(&[u8], usize, u32)] = &[
        (b"P5 1 1 255 x", 1, 0),
        (b"P5 1 1 255 x", 0, 8),
        (b"P5 1 1 65535 xy", 1, 0),
        (b"P5 1 1 65535 xy", 0, 8),
        (b"P5 2 2 255 abcd", 4, 0),
        (b"P5 2 2 255 abcd", 3, 8),
        (b"P5 2 2 65535 abcdefgh", 4, 0),
        (b"P5 2 2 65535 abcdefgh", 3, 8),
        (b"", 0, 10),
        (b"P5 1 1 255", 0, 10),
        (b"P5 2 2 65535", 3, 10),
        (b"P5 3 3 255 abcdefghi", 0, 11),
        (b"P5 1 2 999 xxxx", 1, 11),
        (b"P5 1 1 0 x", 0, 12),
        (b"P5 2 2 65536 abcdefgh", 3, 12),
        (b"P5 2 2 255 abc", 3, 13),
        (b"P5 1 1 255 xy", 0, 13),
        (b"P5 1 1 256 x", 0, 13),
        (b"P5 2 2 65535 abcdefg", 3, 13),
        (b"P5 1 1 9 x", 0, 14),
        (b"P5 2 2 9 \x00\x00\x00\x0a", 3, 14),
        (b"P5 1 1 999 xy", 0, 14),
        (b"P5 2 2 999 \x00\x00\x00\x00\x00\x00\x03\xe8", 3, 14),
    ];
    for &(bytes, length, expected) in rows {
        assert_eq!(lent(&mut random, bytes, length), expected, "raster of {length}, {}", Shown(bytes));
        cases.ran();
    }
    for n in 0..=8 {
        let need = 1usize << (2 * n);
        for maxval in [1, 255, 256, 65_535] {
            let bytes = pgm(n, maxval, &samples_up_to(&mut random, maxval, need));
            for length in [need, need + 1, need + 17, 3 * need] {
                assert_eq!(lent(&mut random, &bytes, length), 0, "n = {n}, maxval {maxval}, raster of {length}");
                cases.ran();
            }
            for length in [need - 1, need / 2, 0].into_iter().filter(|&length| length < need) {
                assert_eq!(lent(&mut random, &bytes, length), 8, "n = {n}, maxval {maxval}, raster of {length}");
                cases.ran();
            }
        }
    }
    cases.end();
}

/// Every maxval of up to five digits, over a picture of one pixel that has one byte, two or three.
#[test]
fn every_maxval() {
    let mut cases = Cases::of("every maxval");
    let mut random = Random::of("every maxval");
    for maxval in 0..100_000 {
        let width = match maxval {
            1..=255 => Some(1),
            256..=65_535 => Some(2),
            _ => None,
        };
        for bytes in 1..=3 {
            let expected = match width {
                None => 12,
                Some(width) if width != bytes => 13,
                _ => 0,
            };
            let file = picture(&format!("P5 1 1 {maxval} "), &[0; 3][..bytes]);
            assert_eq!(lent(&mut random, &file, 1), expected, "{}", Shown(&file));
        }
        cases.ran();
    }
    cases.end();
}

/// Each maxval as the one sample of a picture, which is accepted, and the number above it, which is 14.
#[test]
fn samples_at_maxval() {
    let mut cases = Cases::of("samples at maxval");
    let mut random = Random::of("samples at maxval");
    for maxval in 1..=u16::MAX {
        let file = |sample: u16| pgm(0, u32::from(maxval), &[sample]);
        assert_eq!(lent(&mut random, &file(maxval), 1), 0, "maxval {maxval}");
        // 256 does not fit into one byte, nor 65,536 into two
        if maxval != 255 && maxval != u16::MAX {
            assert_eq!(lent(&mut random, &file(maxval + 1), 1), 14, "maxval {maxval}");
        }
        cases.ran();
    }
    cases.end();
}

/// One sample above maxval at the first place, at the last and at some other is 14. Beside it a sample that is below maxval, though its
/// low byte is not, is accepted.
#[test]
fn samples_above_maxval() {
    let mut cases = Cases::of("samples above maxval");
    let mut random = Random::of("samples above maxval");
    for n in 0..=8 {
        let whole = 1usize << (2 * n);
        for maxval in MAXVALS {
            let most = if maxval <= 255 { 255 } else { 65_535 };
            let between = maxval + 1 + random.below((most - maxval).max(1) as usize) as u32;
            let above = [maxval + 1, between, most, (maxval / 256 + 1) * 256];
            let above =
                above.into_iter().filter(|&sample| maxval < sample && sample <= most).map(|sample| (sample, 14));
            let below = (maxval / 256).checked_sub(1).map(|high| (high * 256 + 255, 0));
            for (sample, expected) in above.chain(below) {
                for place in [0, whole - 1, random.below(whole)] {
                    let mut colours = samples_up_to(&mut random, maxval, whole);
                    colours[place] = sample as u16;
                    let number = judged(&mut random, &pgm(n, maxval, &colours));
                    assert_eq!(number, expected, "n = {n}, maxval {maxval}, sample {sample} at {place}");
                    cases.ran();
                }
            }
        }
    }
    cases.end();
}

/// The bytes behind the header: one or two for each pixel, and any other number of them is 13.
#[test]
fn bytes_of_rasters() {
    let mut cases = Cases::of("bytes of rasters");
    let mut random = Random::of("bytes of rasters");
    for n in 0..=8 {
        let (side, whole) = (1 << n, 1usize << (2 * n));
        for (maxval, width) in [(1, 1), (255, 1), (256, 2), (1000, 2), (65_535, 2)] {
            let need = width * whole;
            let others =
                [0, 1, whole / 2, whole - 1, whole, whole + 1, 2 * whole - 1, 2 * whole, 2 * whole + 1, 4 * whole];
            for length in others.into_iter().chain([need - 1, need + 1, need + 256, need + 65_536]) {
                let bytes = picture(&format!("P5 {side} {side} {maxval} "), &vec![0; length]);
                let expected = if length == need { 0 } else { 13 };
                assert_eq!(judged(&mut random, &bytes), expected, "n = {n}, maxval {maxval}, {length} bytes");
                cases.ran();
            }
        }
    }
    cases.end();
}

/// Pictures with one byte changed, removed or added at every place, and cut off at every place.
#[test]
fn damaged_pictures() {
    let mut cases = Cases::of("damaged pictures");
    let mut random = Random::of("damaged pictures");
    let pictures: [&[u8]; 8] = [
        b"P5 1 1 255 x",
        b"P5\n4 4\n255\n\x01\x01\x01\x01\x01\x02\x01\x01\x01\x01\x03\x03\x01\x01\x03\x03",
        b"P5 \t2\r2\n\n7 \x00\x07\x03\x01",
        b"P5 00016 016 012 0123456789abcdef",
        b"P5 1 1 65535 xy",
        b"P5 1 1 1000 \x03\xe8",
        b"P5\n2 2\n256\n\x00\x01\x01\x00\x00\xff\x00\x00",
        b"P5#\n2\r2\t00777 \x03\x09\x02\xff\x00\x0a\x01\x00",
    ];
    let mut seen = BTreeSet::new();
    for bytes in pictures {
        for place in 0..bytes.len() {
            seen.insert(judged(&mut random, &bytes[..place]));
            let mut shorter = bytes.to_vec();
            shorter.remove(place);
            seen.insert(judged(&mut random, &shorter));
            for other in 0..=255 {
                let mut changed = bytes.to_vec();
                changed[place] = other;
                seen.insert(judged(&mut random, &changed));
                let mut longer = bytes.to_vec();
                longer.insert(place, other);
                seen.insert(judged(&mut random, &longer));
                cases.ran();
            }
        }
    }
    assert_eq!(seen, BTreeSet::from([0, 10, 11, 12, 13, 14]));
    cases.end();
}

/// The comparison can fail: with one entry of the raster damaged, also one after the 4^n or of a guard, or with another answer, it says
/// so; also where the picture is refused.
#[test]
fn damage_is_seen() {
    let mut cases = Cases::of("damage of pictures");
    let mut random = Random::of("damage of pictures");
    let pictures: [&[u8]; 3] = [b"P5 1 1 255 x", b"P5 2 2 65535 abcdefgh", b"P5 1 1 999 xy"];
    for (bytes, length) in pictures.into_iter().flat_map(|bytes| [(bytes, 7), (bytes, 0)]) {
        let expected = read_into(bytes, length);
        let mut out = PictureOut::call(&mut random, bytes, length);
        let damaged = |out: &PictureOut| out.difference(&expected);
        each_place(&mut random, &mut cases, &mut out, |out| &mut out.raster, &expected.samples, damaged);
        let right = out.picture;
        for wrong in [
            Picture { number: right.number + 1, ..right },
            Picture { n: right.n + 1, ..right },
            Picture { maxval: right.maxval + 1, ..right },
            Picture { count: right.count + 1, ..right },
        ] {
            out.picture = wrong;
            assert!(damaged(&out).is_some(), "{wrong:?} for {right:?}");
            cases.ran();
        }
    }
    cases.end();
}
