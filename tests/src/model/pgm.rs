//! Binary PGM, read by its layout.

/// What a picture is: document 01's number, and on acceptance n, maxval and the samples, row by row.
#[derive(Clone, Debug, Default, PartialEq, Eq)]
pub struct Read {
    pub number: u32,
    pub n: u32,
    pub maxval: u32,
    pub samples: Vec<u16>,
}

impl Read {
    fn refused(number: u32) -> Read {
        Read { number, ..Read::default() }
    }
}

/// What the bytes of a file are, wherever the samples go.
pub fn read(bytes: &[u8]) -> Read {
    match samples(bytes) {
        Err(number) => Read::refused(number),
        Ok(Read { maxval, samples, .. }) if samples.iter().any(|&sample| u32::from(sample) > maxval) => {
            Read::refused(14)
        }
        Ok(picture) => picture,
    }
}

/// The samples of a file, above maxval or not, or the number of a refusal from 10 to 13.
pub fn samples(bytes: &[u8]) -> Result<Read, u32> {
    let Some(Header { width, height, maxval, raster }) = header(bytes) else { return Err(10) };
    if width != height || !(1..=256).contains(&width) || width.count_ones() != 1 {
        return Err(11);
    }
    if maxval == 0 || maxval > 65_535 {
        return Err(12);
    }
    let bytes_a_sample = if maxval > 255 { 2 } else { 1 };
    if raster.len() != bytes_a_sample * (width * height) as usize {
        return Err(13);
    }
    let value = |sample: &[u8]| sample.iter().fold(0, |value, &byte| 256 * value + u16::from(byte));
    let samples = raster.chunks(bytes_a_sample).map(value).collect();
    Ok(Read { number: 0, n: width.trailing_zeros(), maxval, samples })
}

/// What the bytes of a file are to a reader that is lent a raster of so many entries: 8 comes after all other numbers.
pub fn read_into(bytes: &[u8], entries: usize) -> Read {
    let picture = read(bytes);
    if entries < picture.samples.len() {
        return Read::refused(8);
    }
    picture
}

struct Header<'a> {
    width: u32,
    height: u32,
    maxval: u32,
    raster: &'a [u8],
}

/// "P5, white space, width, white space, height, white space, maxval, one white space byte": every way to lay the front of the
/// bytes out so is sought. There is one at most.
fn header(bytes: &[u8]) -> Option<Header<'_>> {
    let mut found = Vec::new();
    if bytes.starts_with(b"P5") {
        for (width, after_width) in fields(bytes, 2) {
            for (height, after_height) in fields(bytes, after_width) {
                for (maxval, after_maxval) in fields(bytes, after_height) {
                    if bytes.get(after_maxval).is_some_and(is_blank) {
                        found.push(Header { width, height, maxval, raster: &bytes[after_maxval + 1..] });
                    }
                }
            }
        }
    }
    assert!(found.len() < 2, "two layouts of one file");
    found.pop()
}

fn is_blank(byte: &u8) -> bool {
    b" \t\n\r".contains(byte)
}

/// White space from here on and a number behind it: the number and where it ends, in every way.
fn fields(bytes: &[u8], from: usize) -> Vec<(u32, usize)> {
    white_ends(bytes, from).into_iter().flat_map(|start| numbers(bytes, start)).collect()
}

/// Where white space from here on may end: behind each of its pieces. A piece is a blank, tab, LF or CR, or a remark: a number sign and
/// what follows it up to the next LF or CR.
fn white_ends(bytes: &[u8], from: usize) -> Vec<usize> {
    let piece = |at: usize| match bytes.get(at)? {
        b'#' => bytes[at..].iter().position(|b| b"\n\r".contains(b)).map(|length| at + length + 1),
        byte => is_blank(byte).then_some(at + 1),
    };
    std::iter::successors(piece(from), |&end| piece(end)).collect()
}

/// The numbers of 1 to 5 digits that begin here, and where each ends.
fn numbers(bytes: &[u8], start: usize) -> Vec<(u32, usize)> {
    let ends = (start + 1..=start + 5).filter(|&end| end <= bytes.len());
    let digits = ends.filter(|&end| bytes[start..end].iter().all(u8::is_ascii_digit));
    digits.map(|end| (bytes[start..end].iter().fold(0, |value, b| 10 * value + u32::from(b - b'0')), end)).collect()
}

#[cfg(test)]
mod tests {
    use super::*;

    fn accepted(n: u32, maxval: u32, samples: &[u16]) -> Read {
        Read { number: 0, n, maxval, samples: samples.to_vec() }
    }

    #[test]
    fn one_pixel() {
        assert_eq!(read(b"P5 1 1 255 x"), accepted(0, 255, &[120]));
        assert_eq!(read(b"P5 1 1 255").number, 10);
        assert_eq!(read(b"P5 1 1 255 ").number, 13);
        assert_eq!(read(b"P5 1 1 000119 x").number, 10);
        assert_eq!(read(b"P5 1 1 00119 x").number, 14);
        assert_eq!(read(b"P5 3 3 255 x").number, 11);
        assert_eq!(read(b"P5 3").number, 10);
        assert_eq!(read(b"P5 2 2 99999 ").number, 12);
        assert_eq!(read(b"P5#\n1#x\r1 255 #"), accepted(0, 255, &[35]));
        assert_eq!(read(b"P5 1 1 255#\nx").number, 10);
        assert_eq!(read(b"P5 1 1 #255 x").number, 10);
    }

    #[test]
    fn two_bytes_a_sample() {
        let bytes = b"P5 2 2 1000 \x00\x05\x01\x00\x03\xe8\x02\xff";
        assert_eq!(read(bytes), accepted(1, 1000, &[5, 256, 1000, 767]));
        assert_eq!(read(&bytes[..19]).number, 13);
        assert_eq!(read(b"P5 1 1 256 x").number, 13);
        assert_eq!(read(b"P5 1 1 256 \x01\x00"), accepted(0, 256, &[256]));
        assert_eq!(read(b"P5 1 1 256 \x01\x01").number, 14);
        assert_eq!(read(b"P5 1 1 65535 \xff\xfe"), accepted(0, 65_535, &[65_534]));
        assert_eq!(read(b"P5 1 1 65536 \x00\x00").number, 12);
    }

    #[test]
    fn short_rasters() {
        let bytes = b"P5 2 2 9 \x01\x02\x03\x04";
        assert_eq!((read_into(bytes, 4), read_into(bytes, 5)), (read(bytes), read(bytes)));
        assert_eq!(read_into(bytes, 3), Read::refused(8));
        assert_eq!(read_into(b"P5 2 2 9 \x01\x02\x03\x0a", 0), Read::refused(14));
    }
}
