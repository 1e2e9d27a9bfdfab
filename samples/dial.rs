//! A clock face as colours: ring, minute marks, numerals and hands. Its shapes are laid out on a square of 64 units with the
//! middle at (32, 32); a pixel takes the colour of the shape at its middle, so the face can have any side.

use std::f64::consts::TAU;

const AROUND: u8 = 0;
const RING: u8 = 150;
const FACE: u8 = 240;
const MARK: u8 = 90;
const NUMERAL: u8 = 40;
const HAND: u8 = 20;
const SECONDS: u8 = 120;
const PIN: u8 = 200;

const MIDDLE: f64 = 32.0;

/// The digits 0 to 9, five rows of three.
const DIGITS: [[&str; 5]; 10] = [
    ["###", "#.#", "#.#", "#.#", "###"],
    [".#.", "##.", ".#.", ".#.", "###"],
    ["###", "..#", "###", "#..", "###"],
    ["###", "..#", ".##", "..#", "###"],
    ["#.#", "#.#", "###", "..#", "..#"],
    ["###", "#..", "###", "..#", "###"],
    ["###", "#..", "###", "#.#", "###"],
    ["###", "..#", "..#", ".#.", ".#."],
    ["###", "#.#", "###", "#.#", "###"],
    ["###", "#.#", "###", "..#", "###"],
];

/// A stroke of one colour along a ray from the middle, from one distance to another.
struct Stroke {
    colour: u8,
    east: f64,
    south: f64,
    from: f64,
    to: f64,
    half_width: f64,
}

impl Stroke {
    /// The ray points to `minute` of 60, clockwise from the north.
    fn new(colour: u8, minute: f64, from: f64, to: f64, half_width: f64) -> Stroke {
        let angle = minute * TAU / 60.0;
        Stroke { colour, east: angle.sin(), south: -angle.cos(), from, to, half_width }
    }

    fn covers(&self, x: f64, y: f64) -> bool {
        let along = (x * self.east + y * self.south).clamp(self.from, self.to);
        let (dx, dy) = (x - along * self.east, y - along * self.south);
        dx * dx + dy * dy <= self.half_width * self.half_width
    }
}

/// The strokes, those on top first: the hands at this time, then the marks.
fn strokes(time: u32) -> Vec<Stroke> {
    let (hour, minute, second) = (f64::from(time) / 3600.0, f64::from(time) / 60.0, f64::from(time % 60));
    let mut strokes = vec![
        Stroke::new(SECONDS, second, -6.0, 23.0, 0.5),
        Stroke::new(HAND, minute.floor(), -4.0, 22.0, 0.9),
        Stroke::new(HAND, hour * 5.0, -4.0, 12.0, 1.3),
    ];
    for minute in 0..60 {
        let (from, half_width) = if minute % 5 == 0 { (24.5, 0.8) } else { (26.0, 0.6) };
        strokes.push(Stroke::new(MARK, f64::from(minute), from, 27.0, half_width));
    }
    strokes
}

/// The units that the numerals 1 to 12 cover.
fn numerals() -> Vec<(i32, i32)> {
    let mut units = Vec::new();
    for hour in 1..=12 {
        let angle = f64::from(hour) * TAU / 12.0;
        let text = hour.to_string();
        let width = 4.0 * text.len() as f64 - 1.0;
        let west = (MIDDLE + 18.5 * angle.sin() - width / 2.0).round() as i32;
        let north = (MIDDLE - 18.5 * angle.cos() - 2.5).round() as i32;
        for (place, digit) in text.bytes().enumerate() {
            for (y, row) in DIGITS[usize::from(digit - b'0')].iter().enumerate() {
                for (x, _) in row.bytes().enumerate().filter(|&(_, unit)| unit == b'#') {
                    units.push((west + (4 * place + x) as i32, north + y as i32));
                }
            }
        }
    }
    units
}

/// The clock face of `side` by `side` pixels, row by row, at a time in seconds after twelve.
pub fn clock(side: usize, time: u32) -> Vec<u8> {
    let (strokes, numerals) = (strokes(time), numerals());
    let colour = |x: f64, y: f64| {
        let from_middle = (x - MIDDLE).hypot(y - MIDDLE);
        if from_middle > 31.0 {
            AROUND
        } else if from_middle > 28.5 {
            RING
        } else if from_middle <= 2.0 {
            PIN
        } else if let Some(stroke) = strokes.iter().find(|stroke| stroke.covers(x - MIDDLE, y - MIDDLE)) {
            stroke.colour
        } else if numerals.contains(&(x.floor() as i32, y.floor() as i32)) {
            NUMERAL
        } else {
            FACE
        }
    };
    let unit = 64.0 / side as f64;
    let middle = |place: usize| (place as f64 + 0.5) * unit;
    (0..side * side).map(|i| colour(middle(i % side), middle(i / side))).collect()
}
