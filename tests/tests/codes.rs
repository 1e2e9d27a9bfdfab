//! The location code of a pixel, against the model's digits one by one: every pixel of an image, every x and every y, coordinates
//! next to the ends of a byte, and random ones.

use tests::cases::Cases;
use tests::model::blocks::location_code;
use tests::nettlestair::code;
use tests::random::Random;

/// Whether this is the code of (x, y).
fn is_code(x: u16, y: u16, found: u32) -> bool {
    found == location_code(u32::from(x), u32::from(y))
}

fn agrees(x: u16, y: u16) {
    let found = code(x, y);
    assert!(is_code(x, y, found), "({x}, {y}): {found}");
}

/// Every pixel of the largest image has its code, and no two have the same.
#[test]
fn every_pixel_of_an_image() {
    let mut cases = Cases::of("codes of an image");
    let mut had = vec![false; 1 << 16];
    for y in 0..256 {
        for x in 0..256 {
            agrees(x, y);
            let had = &mut had[code(x, y) as usize];
            assert!(!*had, "({x}, {y}) has the code of another pixel");
            *had = true;
            cases.ran();
        }
    }
    cases.end();
}

/// Every x and every y that 16 digits can have, beside the least and the largest of the other.
#[test]
fn every_coordinate() {
    let mut cases = Cases::of("codes of every coordinate");
    for one in 0..=u16::MAX {
        for other in [0, u16::MAX] {
            agrees(one, other);
            agrees(other, one);
            cases.ran();
        }
    }
    cases.end();
}

#[test]
fn ends_of_bytes() {
    let mut cases = Cases::of("codes at the ends of bytes");
    let ends = [0, 1, 127, 128, 254, 255, 256, 257, 511, 512, 32767, 32768, 65279, 65280, 65281, 65534, 65535];
    for x in ends {
        for y in ends {
            agrees(x, y);
            cases.ran();
        }
    }
    assert_eq!(code(u16::MAX, 0), 0x5555_5555);
    assert_eq!(code(0, u16::MAX), 0xAAAA_AAAA);
    cases.end();
}

#[test]
fn random_coordinates() {
    let mut cases = Cases::of("random codes");
    let mut random = Random::of("random codes");
    for _ in 0..1_000_000 {
        let word = random.word();
        agrees(word as u16, (word >> 16) as u16);
        cases.ran();
    }
    cases.end();
}

/// The comparison can fail: each digit of an answer counts, and so does which coordinate is which.
#[test]
fn another_code_is_seen() {
    let mut cases = Cases::of("another code");
    let mut random = Random::of("another code");
    for _ in 0..1_000 {
        let word = random.word();
        let (x, y) = (word as u16, (word >> 16) as u16);
        for digit in 0..32 {
            assert!(!is_code(x, y, code(x, y) ^ 1 << digit), "({x}, {y}): digit {digit} is not seen");
            cases.ran();
        }
        assert!(x == y || !is_code(y, x, code(x, y)), "({x}, {y}): x and y exchanged are not seen");
    }
    cases.end();
}
