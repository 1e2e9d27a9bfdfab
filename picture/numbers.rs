//! Where the number of a region stands, and how large.

use crate::dial::Dial;

/// The middle of a number, x and y, and the size of its type, in pixels of the picture.
#[derive(Clone, Copy)]
pub struct Number {
    pub x: f64,
    pub y: f64,
    pub size: f64,
}

/// The sizes of type, as parts of the picture's side: smaller, it is not legible on a screen that the picture fills.
const SMALLEST: f64 = 1.0 / 110.0;
const LARGEST: f64 = 1.0 / 16.0;

/// What a number takes up, in sizes of its type: the width of each digit, air on both sides, the height.
const DIGIT: f64 = 0.62;
const AIR: f64 = 0.2;
const HEIGHT: f64 = 0.9;

/// The place in each region where its number can be largest; none where it is not legible.
pub fn of(dial: &Dial) -> Vec<Option<Number>> {
    let side = dial.side;
    let rows = reaches(side, |x, y| dial.labels[y * side + x]);
    let columns = reaches(side, |y, x| dial.labels[y * side + x]);
    // for each region the largest size, and among equals the most room along row and column
    let mut best = vec![(0.0, 0, Number { x: 0.0, y: 0.0, size: 0.0 }); dial.regions.len()];
    for j in 1..2 * side {
        for i in 1..2 * side {
            let region = dial.labels[j / 2 * side + i / 2];
            let digits = region.max(1).ilog10() + 1;
            let size = largest(dial, &rows, i, j, AIR + DIGIT * f64::from(digits));
            let room = rows[j / 2][i] + columns[i / 2][j];
            let (most, widest, number) = &mut best[region];
            if size > *most || size == *most && room > *widest {
                (*most, *widest) = (size, room);
                *number = Number { x: i as f64 / 2.0, y: j as f64 / 2.0, size: size.min(LARGEST * side as f64) };
            }
        }
    }
    let legible = |number: &Number| number.size >= SMALLEST * side as f64;
    best.into_iter().map(|(_, _, number)| Some(number).filter(legible)).collect()
}

/// For each line and each point on it, in half pixels, how many of them the point's region reaches along the line to both sides.
/// On the border of two regions it is 0.
fn reaches(side: usize, label: impl Fn(usize, usize) -> usize) -> Vec<Vec<usize>> {
    let reach = |line: usize| {
        let mut reach = Vec::new();
        let mut start = 0;
        for end in 1..=side {
            if end == side || label(end, line) != label(start, line) {
                reach.extend((2 * start..2 * end).map(|point| (point - 2 * start).min(2 * end - point)));
                start = end;
            }
        }
        reach
    };
    (0..side).map(reach).collect()
}

/// The largest size of type, `width` sizes wide, in a box around the point (i, j) that lies in the point's region. The box grows
/// row by row to the north and the south.
fn largest(dial: &Dial, rows: &[Vec<usize>], i: usize, j: usize, width: f64) -> f64 {
    let side = dial.side;
    let region = dial.labels[j / 2 * side + i / 2];
    let mut size = 0.0;
    let mut wide = 2 * side;
    // half its height in half pixels, which is its height in pixels; it ends between two rows
    let mut high = 2 - j % 2;
    while high <= j && j + high <= 2 * side {
        for row in [(j - high) / 2, (j + high) / 2 - 1] {
            let reach = if dial.labels[row * side + i / 2] == region { rows[row][i] } else { 0 };
            wide = wide.min(reach);
        }
        let (by_width, by_height) = (wide as f64 / width, high as f64 / HEIGHT);
        size = by_width.min(by_height).max(size);
        if by_width <= by_height {
            break;
        }
        high += 2;
    }
    size
}
