//! Location codes: the binary digits of y and x by turns.

/// Entry i is i with a zero digit put above each of its binary digits.
pub static SPREADS: [u16; 256] = spreads();

const fn spreads() -> [u16; 256] {
    let mut table = [0; 256];
    let mut i = 0;
    while i < 256 {
        table[i] = spread16(i as u32) as u16;
        i += 1;
    }
    table
}

/// The code of the pixel (x, y), each byte spread by the table.
pub fn code(x: u16, y: u16) -> u32 {
    let [low_x, high_x] = x.to_le_bytes().map(|byte| u32::from(SPREADS[usize::from(byte)]));
    let [low_y, high_y] = y.to_le_bytes().map(|byte| u32::from(SPREADS[usize::from(byte)]));
    low_x + 2 * low_y + 65536 * (high_x + 2 * high_y)
}

/// The code of the pixel (x, y) without a table: the digits spread from two halves each, as the library did before it had one.
pub fn spread_code(x: u16, y: u16) -> u32 {
    spread16(x as u32) + 2 * spread16(y as u32)
}

const fn spread2(x: u32) -> u32 {
    x % 2 + 4 * (x / 2 % 2)
}

const fn spread4(x: u32) -> u32 {
    spread2(x) + 16 * spread2(x / 4)
}

const fn spread8(x: u32) -> u32 {
    spread4(x) + 256 * spread4(x / 16)
}

const fn spread16(x: u32) -> u32 {
    spread8(x) + 65536 * spread8(x / 256)
}

/// The digits of a code parted: x in the low 16 bits and y in the high 16 bits, both worked out at once.
fn parted(code: u32) -> u32 {
    let mut v = (code & 0x5555) | (code & 0xAAAA) << 15;
    v = (v | v >> 1) & 0x3333_3333;
    v = (v | v >> 2) & 0x0F0F_0F0F;
    (v | v >> 4) & 0x00FF_00FF
}

/// Column and row of the pixel with this code, for codes below 4^8.
pub fn pixel(code: u32) -> (usize, usize) {
    let v = parted(code);
    ((v & 0xFFFF) as usize, (v >> 16) as usize)
}

/// The place of that pixel in rows of 2^n.
pub fn place(n: u32, code: u32) -> usize {
    let (x, y) = pixel(code);
    y << n | x
}
