//! Rasters row by row and in block order (document 02, e): the quadrants one after another, each in block order itself.

/// The pixels of a raster of side 2^n in rising location code: those of the northwest quadrant, then of the northeast, the
/// southwest and the southeast one.
pub fn in_block_order(n: u32, raster: &[u16]) -> Vec<u16> {
    if n == 0 {
        return raster.to_vec();
    }
    let half = 1 << (n - 1);
    let quadrant = |x: usize, y: usize| -> Vec<u16> {
        raster.chunks(2 * half).skip(y).take(half).flat_map(|row| &row[x..x + half]).copied().collect()
    };
    let quadrants = [quadrant(0, 0), quadrant(half, 0), quadrant(0, half), quadrant(half, half)];
    quadrants.iter().flat_map(|quadrant| in_block_order(n - 1, quadrant)).collect()
}

/// The raster of side 2^n, row by row, that is stored in block order: the quarters of what is stored are its quadrants.
pub fn in_rows(n: u32, stored: &[u16]) -> Vec<u16> {
    if n == 0 {
        return stored.to_vec();
    }
    let half = 1 << (n - 1);
    let quadrants: Vec<Vec<u16>> = stored.chunks(half * half).map(|quarter| in_rows(n - 1, quarter)).collect();
    let beside = |west: &[u16], east: &[u16]| -> Vec<u16> {
        west.chunks(half).zip(east.chunks(half)).flat_map(|(west, east)| [west, east].concat()).collect()
    };
    [beside(&quadrants[0], &quadrants[1]), beside(&quadrants[2], &quadrants[3])].concat()
}

/// The number of a function that takes a raster of so many entries and is lent lists, the shortest with so much room: "1,
/// then 9 for the source, then 8 for a target of 4^n".
pub fn raster_number(n: u32, entries: usize, room: usize) -> u32 {
    if n > 8 {
        return 1;
    }
    let need = 1 << (2 * n);
    if entries != need {
        return 9;
    }
    if room < need {
        return 8;
    }
    0
}

/// A source in the other order (`in_block_order` or `in_rows`), with a target of this length lent, or the number of a
/// refusal.
pub fn rearranged(n: u32, source: &[u16], length: usize, order: fn(u32, &[u16]) -> Vec<u16>) -> Result<Vec<u16>, u32> {
    match raster_number(n, source.len(), length) {
        0 => Ok(order(n, source)),
        number => Err(number),
    }
}

#[cfg(test)]
mod tests {
    use super::*;

    fn both_ways(n: u32, raster: &[u16], stored: &[u16]) {
        assert_eq!(in_block_order(n, raster), stored);
        assert_eq!(in_rows(n, stored), raster);
    }

    #[test]
    fn one_pixel_and_two_by_two() {
        both_ways(0, &[513], &[513]);
        both_ways(1, &[1, 2, 257, 258], &[1, 2, 257, 258]);
    }

    #[test]
    fn four_by_four() {
        let raster: Vec<u16> = (0..16).collect();
        both_ways(2, &raster, &[0, 1, 4, 5, 2, 3, 6, 7, 8, 9, 12, 13, 10, 11, 14, 15]);
    }

    /// The first row of eight by eight, in a raster of zeros otherwise.
    #[test]
    fn eight_by_eight() {
        let mut raster = vec![0; 64];
        raster[..8].copy_from_slice(&[1, 2, 3, 4, 5, 6, 7, 8]);
        let mut stored = vec![0; 64];
        for (place, colour) in [(0, 1), (1, 2), (4, 3), (5, 4), (16, 5), (17, 6), (20, 7), (21, 8)] {
            stored[place] = colour;
        }
        both_ways(3, &raster, &stored);
    }

    #[test]
    fn refusals_in_order() {
        let answers = |n: u32, entries: usize, length: usize| rearranged(n, &vec![7; entries], length, in_rows);
        assert_eq!(answers(1, 4, 4), Ok(vec![7; 4]));
        assert_eq!(answers(1, 4, 5), Ok(vec![7; 4]));
        assert_eq!(answers(1, 4, 3), Err(8));
        assert_eq!(answers(1, 3, 4), Err(9));
        assert_eq!(answers(1, 5, 3), Err(9));
        assert_eq!(answers(9, 1 << 18, 1 << 18), Err(1));
        assert_eq!(answers(u32::MAX, 0, 0), Err(1));
    }
}
