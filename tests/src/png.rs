//! Reads the screenshots of a browser: PNG files of 8 bits a part, red, green, blue and perhaps opacity, not interlaced. The
//! compression is RFC 1951's. Checksums are not looked at.

/// Width, height and the colour of each pixel, row by row.
pub struct Image {
    pub width: usize,
    pub height: usize,
    colours: Vec<[u8; 3]>,
}

impl Image {
    pub fn at(&self, x: usize, y: usize) -> [u8; 3] {
        assert!(x < self.width);
        self.colours[y * self.width + x]
    }

    pub fn read(bytes: &[u8]) -> Image {
        assert!(bytes.starts_with(b"\x89PNG\r\n\x1a\n"), "a PNG file");
        let (mut header, mut data) = (&bytes[..0], Vec::new());
        let mut rest = &bytes[8..];
        while let [a, b, c, d, after @ ..] = rest {
            let length = u32::from_be_bytes([*a, *b, *c, *d]) as usize;
            let (kind, content) = (&after[..4], &after[4..4 + length]);
            match kind {
                b"IHDR" => header = content,
                b"IDAT" => data.extend_from_slice(content),
                _ => {}
            }
            rest = &after[4 + length + 4..];
        }
        let number = |at: usize| u32::from_be_bytes(header[at..at + 4].try_into().expect("four bytes")) as usize;
        let (width, height) = (number(0), number(4));
        let parts = match &header[8..] {
            [8, 2, 0, 0, 0] => 3,
            [8, 6, 0, 0, 0] => 4,
            other => panic!("depth, colours, .. {other:?} are not read"),
        };
        let rows = unfiltered(&inflated(&data[2..]), width * parts, parts);
        assert_eq!(rows.len(), height * width * parts);
        Image { width, height, colours: rows.chunks(parts).map(|p| [p[0], p[1], p[2]]).collect() }
    }
}

/// Rows of `length` bytes from their differences to the bytes west, north and northwest.
fn unfiltered(bytes: &[u8], length: usize, parts: usize) -> Vec<u8> {
    let mut rows = Vec::new();
    let mut north = vec![0; length];
    for line in bytes.chunks(1 + length) {
        let mut row = line[1..].to_vec();
        for i in 0..row.len() {
            let (west, northwest) = if i < parts { (0, 0) } else { (row[i - parts], north[i - parts]) };
            row[i] = row[i].wrapping_add(match line[0] {
                0 => 0,
                1 => west,
                2 => north[i],
                3 => ((u16::from(west) + u16::from(north[i])) / 2) as u8,
                _ => {
                    let guess = i32::from(west) + i32::from(north[i]) - i32::from(northwest);
                    let nearest = [west, north[i], northwest].into_iter().min_by_key(|&b| guess.abs_diff(i32::from(b)));
                    nearest.expect("one of three")
                }
            });
        }
        rows.extend_from_slice(&row);
        north = row;
    }
    rows
}

/// The bits of a compressed stream, the lowest of each byte first.
struct Bits<'a> {
    bytes: &'a [u8],
    at: usize,
}

impl Bits<'_> {
    fn take(&mut self, count: usize) -> usize {
        (0..count).map(|i| self.bit() << i).sum()
    }

    fn bit(&mut self) -> usize {
        let bit = self.bytes[self.at / 8] >> (self.at % 8) & 1;
        self.at += 1;
        usize::from(bit)
    }
}

/// A Huffman code: how many symbols have each length, and the symbols by length, then by number.
struct Code {
    counts: [usize; 16],
    symbols: Vec<usize>,
}

impl Code {
    fn new(lengths: &[usize]) -> Code {
        let mut counts = [0; 16];
        for &length in lengths.iter().filter(|&&length| length > 0) {
            counts[length] += 1;
        }
        let mut symbols: Vec<usize> = (0..lengths.len()).filter(|&symbol| lengths[symbol] > 0).collect();
        symbols.sort_by_key(|&symbol| lengths[symbol]);
        Code { counts, symbols }
    }

    fn symbol(&self, bits: &mut Bits) -> usize {
        let (mut code, mut first, mut before) = (0, 0, 0);
        for count in &self.counts[1..] {
            code = 2 * code + bits.bit();
            first *= 2;
            if code < first + count {
                return self.symbols[before + code - first];
            }
            first += count;
            before += count;
        }
        panic!("no symbol has such a code")
    }
}

fn inflated(bytes: &[u8]) -> Vec<u8> {
    let mut bits = Bits { bytes, at: 0 };
    let mut out = Vec::new();
    loop {
        let last = bits.take(1) == 1;
        match bits.take(2) {
            0 => {
                bits.at = bits.at.next_multiple_of(8);
                let length = bits.take(16);
                bits.take(16);
                out.extend((0..length).map(|_| bits.take(8) as u8));
            }
            1 => {
                let lengths: Vec<usize> = [vec![8; 144], vec![9; 112], vec![7; 24], vec![8; 8]].concat();
                block(&mut bits, &mut out, &Code::new(&lengths), &Code::new(&[5; 30]));
            }
            _ => {
                let (literals, distances) = codes(&mut bits);
                block(&mut bits, &mut out, &literals, &distances);
            }
        }
        if last {
            return out;
        }
    }
}

/// The two codes of a block that brings its own.
fn codes(bits: &mut Bits) -> (Code, Code) {
    let (literals, distances, count) = (257 + bits.take(5), 1 + bits.take(5), 4 + bits.take(4));
    let mut lengths = [0; 19];
    for &place in &[16, 17, 18, 0, 8, 7, 9, 6, 10, 5, 11, 4, 12, 3, 13, 2, 14, 1, 15][..count] {
        lengths[place] = bits.take(3);
    }
    let code = Code::new(&lengths);
    let mut lengths: Vec<usize> = Vec::new();
    while lengths.len() < literals + distances {
        match code.symbol(bits) {
            16 => lengths.extend(vec![lengths[lengths.len() - 1]; 3 + bits.take(2)]),
            17 => lengths.extend(vec![0; 3 + bits.take(3)]),
            18 => lengths.extend(vec![0; 11 + bits.take(7)]),
            length => lengths.push(length),
        }
    }
    (Code::new(&lengths[..literals]), Code::new(&lengths[literals..]))
}

/// A block of bytes and of copies of what came before.
fn block(bits: &mut Bits, out: &mut Vec<u8>, literals: &Code, distances: &Code) {
    loop {
        let symbol = literals.symbol(bits);
        let length = match symbol {
            0..=255 => {
                out.push(symbol as u8);
                continue;
            }
            256 => return,
            257..=264 => symbol - 254,
            285 => 258,
            _ => {
                let extra = (symbol - 261) / 4;
                3 + ((4 + (symbol - 261) % 4) << extra) + bits.take(extra)
            }
        };
        let symbol = distances.symbol(bits);
        let distance = match symbol {
            0..=3 => symbol + 1,
            _ => {
                let extra = symbol / 2 - 1;
                1 + ((2 + symbol % 2) << extra) + bits.take(extra)
            }
        };
        for _ in 0..length {
            out.push(out[out.len() - distance]);
        }
    }
}

#[cfg(test)]
mod tests {
    use super::inflated;

    #[test]
    fn each_kind_of_block() {
        assert_eq!(inflated(b"\x01\x03\x00\xfc\xffabc"), b"abc");
        assert_eq!(inflated(b"KLJNDE\x00"), b"abcabcabcabcabcabc");
        let own = b"\x05\xc1\x01\x01\x00\x00\x00\x80\x90\xad\xfa?\"\x00\x02$\x04\x08$\x00$\xc0";
        assert_eq!(inflated(own), b"aaaaaaaabaaaaaaababaaabaaaaaaabaaaaababaaaaaaaaaaababaaaaaaa");
    }
}
