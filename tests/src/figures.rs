//! The figures of source documents 000 and 001 as images, and the outlines that are printed there.

use crate::model::paths::{corner, Point};

/// 000, figure 1: "the boundary of region A in Figure 1 consists of the sequence". The map is 16 by 16; of the other regions
/// the text prints no outline.
pub const FIGURE_1_A: [Point; 10] =
    [(0, 16), (0, 0), (16, 0), (16, 4), (8, 4), (8, 7), (9, 7), (9, 8), (4, 8), (4, 16)];

/// 000, figure 5(a): the two components of the boundary of A, and the boundary of B.
pub const FIGURE_5A: [u16; 16] = [1, 1, 1, 1, 1, 2, 2, 1, 1, 2, 2, 1, 1, 1, 1, 1];
pub const FIGURE_5A_OUTER: [Point; 4] = [(0, 0), (4, 0), (4, 4), (0, 4)];
pub const FIGURE_5A_INNER: [Point; 4] = [(1, 1), (1, 3), (3, 3), (3, 1)];
pub const FIGURE_5A_B: [Point; 4] = [(1, 1), (3, 1), (3, 3), (1, 3)];

/// 000, figure 5(b): "the boundary of A as a single component".
pub const FIGURE_5B: [u16; 16] = [1, 1, 1, 1, 1, 2, 1, 1, 1, 1, 3, 3, 1, 1, 3, 3];
pub const FIGURE_5B_A: [Point; 10] = [(0, 0), (4, 0), (4, 2), (2, 2), (2, 1), (1, 1), (1, 2), (2, 2), (2, 4), (0, 4)];

/// 001, figure 1(a), "moving clockwise starting from the left of the uppermost border points", in a 16 by 16 array.
pub const FIGURE_1A_CHAIN: &[u8] = b"0300333332221233303222221111110101030101";
pub const FIGURE_1A_START: Point = (9, 3);

/// 001, Table I: the chain of the same outline as the algorithm finds it.
pub const TABLE_I_CHAIN: &[u8] = b"0103010103003333322212333032222211111101";
pub const TABLE_I_START: Point = (5, 5);

/// The points that a chain goes through from a start, the start only once.
pub fn points(start: Point, chain: &[u8]) -> Vec<Point> {
    let mut at = start;
    let step = |byte: &u8| {
        let from = at;
        at = match byte {
            b'0' => (at.0 + 1, at.1),
            b'1' => (at.0, at.1 - 1),
            b'2' => (at.0 - 1, at.1),
            _ => (at.0, at.1 + 1),
        };
        from
    };
    chain.iter().map(step).collect()
}

/// The raster of side 2^n with 1 inside a closed outline and 0 outside: a pixel is inside where an odd number of the outline's
/// sides lie straight west of it.
pub fn filled(n: u32, outline: &[Point]) -> Vec<u16> {
    let ends = outline.iter().cycle().skip(1);
    let upright: Vec<(Point, Point)> =
        outline.iter().copied().zip(ends.copied()).filter(|(from, to)| from.0 == to.0).collect();
    let inside = |x: u32, y: u32| {
        let west = upright.iter().filter(|(a, b)| a.0 <= x && a.1.min(b.1) <= y && y < a.1.max(b.1));
        (west.count() % 2) as u16
    };
    (0..1 << n).flat_map(|y| (0..1 << n).map(move |x| (x, y))).map(|(x, y)| inside(x, y)).collect()
}

/// The figures: name, n and raster.
pub fn all() -> Vec<(&'static str, u32, Vec<u16>)> {
    vec![
        ("000, region A of figure 1", 4, filled(4, &FIGURE_1_A)),
        ("000, figure 5(a)", 2, FIGURE_5A.to_vec()),
        ("000, figure 5(b)", 2, FIGURE_5B.to_vec()),
        ("001, figure 1(a)", 4, filled(4, &points(FIGURE_1A_START, FIGURE_1A_CHAIN))),
    ]
}

/// A printed outline as corners, from the corner `first` on.
pub fn from_corner(printed: &[Point], first: u32) -> Vec<u32> {
    let mut corners: Vec<u32> = printed.iter().map(|&(x, y)| corner(x, y)).collect();
    let start = corners.iter().position(|&c| c == first).expect("the printed outline has the start as a corner");
    corners.rotate_left(start);
    corners
}

#[cfg(test)]
mod tests {
    use super::*;

    #[test]
    fn figures_are_drawn_as_printed() {
        let one = filled(4, &FIGURE_1_A);
        // rows 0 to 3, the northwest quadrant, the pixel (8, 7) and four columns below
        assert_eq!(one.iter().filter(|&&c| c == 1).count(), 16 * 4 + 8 * 4 + 1 + 4 * 8);
        assert_eq!((one[7 * 16 + 8], one[6 * 16 + 8], one[8 * 16 + 4]), (1, 0, 0));
        // the two printed chains are one outline from two starts
        let other = points(TABLE_I_START, TABLE_I_CHAIN);
        assert_eq!(filled(4, &points(FIGURE_1A_START, FIGURE_1A_CHAIN)), filled(4, &other));
        let mut turned = points(FIGURE_1A_START, FIGURE_1A_CHAIN);
        let start = turned.iter().position(|&p| p == TABLE_I_START).expect("the outline goes through (5, 5)");
        turned.rotate_left(start);
        assert_eq!(turned, other);
    }
}
