//! Binary PGM: its header, and its samples of one byte or of two.

use crate::nettlestair::Picture;

/// Causes 10 to 14 and 8; then the samples go into the raster.
pub fn read_pgm(bytes: &[u8], raster: &mut [u16]) -> Picture {
    let Some(([width, height, maxval], samples)) = header(bytes) else { return Picture::refused(10) };
    if width != height || width > 256 || !width.is_power_of_two() {
        return Picture::refused(11);
    }
    if maxval == 0 || maxval > 65_535 {
        return Picture::refused(12);
    }
    let (whole, wide) = ((width * height) as usize, maxval > 255);
    if samples.len() != whole << u32::from(wide) {
        return Picture::refused(13);
    }
    let most = match wide {
        false => u16::from(samples.iter().copied().fold(0, u8::max)),
        true => of_two_bytes(samples).fold(0, u16::max),
    };
    if u32::from(most) > maxval {
        return Picture::refused(14);
    }
    if raster.len() < whole {
        return Picture::refused(8);
    }
    match wide {
        false => raster.iter_mut().zip(samples).for_each(|(entry, &sample)| *entry = u16::from(sample)),
        true => raster.iter_mut().zip(of_two_bytes(samples)).for_each(|(entry, sample)| *entry = sample),
    }
    Picture { number: 0, n: width.trailing_zeros(), maxval, count: whole as u32 }
}

/// Samples of two bytes, the most significant first.
fn of_two_bytes(samples: &[u8]) -> impl Iterator<Item = u16> + '_ {
    samples.as_chunks().0.iter().map(|&pair| u16::from_be_bytes(pair))
}

/// Width, height and maxval, and what follows the header.
fn header(bytes: &[u8]) -> Option<([u32; 3], &[u8])> {
    let mut rest = bytes.strip_prefix(b"P5")?;
    let mut numbers = [0; 3];
    for value in &mut numbers {
        (*value, rest) = number(after_white(rest)?)?;
    }
    let (blank, samples) = rest.split_first()?;
    is_blank(*blank).then_some((numbers, samples))
}

fn is_blank(byte: u8) -> bool {
    matches!(byte, b' ' | b'\t' | b'\n' | b'\r')
}

/// What follows white space, blanks and remarks, of which there is some.
fn after_white(bytes: &[u8]) -> Option<&[u8]> {
    let mut at = 0;
    loop {
        match bytes.get(at) {
            Some(b'#') => at += 1 + bytes[at..].iter().position(|&byte| byte == b'\n' || byte == b'\r')?,
            Some(&byte) if is_blank(byte) => at += 1,
            _ => return (at > 0).then(|| &bytes[at..]),
        }
    }
}

/// A number of 1 to 5 digits, and what follows it.
fn number(bytes: &[u8]) -> Option<(u32, &[u8])> {
    let digits = bytes.iter().take(6).take_while(|byte| byte.is_ascii_digit()).count();
    let value = bytes[..digits].iter().fold(0, |value, byte| 10 * value + u32::from(byte - b'0'));
    (1..=5).contains(&digits).then(|| (value, &bytes[digits..]))
}
