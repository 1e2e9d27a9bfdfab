//! The lines that are printed for a picture.

use super::areas::areas;
use super::orders::in_rows;
use super::outlines::Outlines;
use super::paths::{point, svg};
use super::pgm::read;
use super::regions::Regions;
use super::serving::Cutter;
use std::cmp::Reverse;

/// The path data of each region: that of its cycles joined.
pub fn paths(regions: &Regions) -> Vec<String> {
    let outlines = Outlines::of(regions);
    let mut paths = vec![String::new(); regions.count as usize];
    for k in 0..outlines.len() {
        paths[outlines.owners[k] as usize] += &svg(outlines.cycle(k));
    }
    paths
}

/// What "outlines" prints: "one line a region: the path data of its cycles joined, then LF. Line 0 is region 0. A
/// refusal prints "refused ", the number and LF only." The number 15 is the programs' alone: there is no bound on the bytes
/// here.
pub fn printed(bytes: &[u8]) -> String {
    text(bytes, |_, samples| samples.to_vec(), paths)
}

/// What "outlines-stored" prints: the same "for a P5 file whose samples stand in block order".
pub fn printed_stored(bytes: &[u8]) -> String {
    text(bytes, in_rows, paths)
}

/// What the examples `trace` print: one line a cycle, its region, its area and its path data.
pub fn printed_with_areas(bytes: &[u8]) -> String {
    text(bytes, |_, samples| samples.to_vec(), cycles)
}

/// The region, the area and the path data of each cycle.
fn cycles(regions: &Regions) -> Vec<String> {
    let outlines = Outlines::of(regions);
    let areas = areas(&outlines);
    (0..outlines.len()).map(|k| format!("{} {} {}", outlines.owners[k], areas[k], svg(outlines.cycle(k)))).collect()
}

/// What the example `turns` prints: one line a turn over the three longest outlines, its number, the cycle, how many corners it hands out, and
/// x and y of each.
pub fn printed_by_turns(bytes: &[u8]) -> String {
    text(bytes, |_, samples| samples.to_vec(), turns)
}

fn turns(regions: &Regions) -> Vec<String> {
    let outlines = Outlines::of(regions);
    let mut longest: Vec<usize> = (0..outlines.len()).collect();
    longest.sort_by_key(|&k| Reverse(outlines.cycle(k).len()));
    let mut cutter = Cutter::of(&outlines);
    for &k in longest.iter().take(3) {
        assert_eq!(cutter.open(k as u32), 0, "there is room for three");
    }
    let line = |(turn, (cycle, corners)): (usize, (u32, Vec<u32>))| {
        let points = corners.iter().map(|&corner| point(corner)).map(|(x, y)| format!(" {x},{y}"));
        format!("{turn} {cycle} {}{}", corners.len(), points.collect::<String>())
    };
    (1..).zip(std::iter::from_fn(|| cutter.turn())).map(line).collect()
}

/// The text for a file, by the rows of its samples and by the lines of its regions.
fn text(bytes: &[u8], rows: fn(u32, &[u16]) -> Vec<u16>, lines: fn(&Regions) -> Vec<String>) -> String {
    let picture = read(bytes);
    match picture.number {
        0 => {
            let regions = Regions::of(picture.n, &rows(picture.n, &picture.samples));
            lines(&regions).iter().map(|line| line.clone() + "\n").collect()
        }
        number => format!("refused {number}\n"),
    }
}

#[cfg(test)]
mod tests {
    use super::*;

    #[test]
    fn dial_3() {
        let bytes = b"P5 4 4 9 \x01\x01\x01\x01\x01\x02\x02\x01\x01\x02\x02\x01\x01\x01\x01\x01";
        assert_eq!(printed(bytes), "M0 0H4V4H0ZM1 3H3V1H1Z\nM1 1H3V3H1Z\n");
        assert_eq!(printed_with_areas(bytes), "0 16 M0 0H4V4H0Z\n0 -4 M1 3H3V1H1Z\n1 4 M1 1H3V3H1Z\n");
        let by_turns = "1 0 4 0,0 4,0 4,4 0,4\n2 1 4 1,3 3,3 3,1 1,1\n3 2 4 1,1 3,1 3,3 1,3\n";
        assert_eq!(printed_by_turns(bytes), by_turns);
        assert_eq!(printed(b"P5 1 1 9 "), "refused 13\n");
    }

    #[test]
    fn dial_2_in_block_order() {
        let bytes = b"P5 4 4 9 \x01\x01\x01\x02\x01\x01\x01\x01\x01\x01\x01\x01\x03\x03\x03\x03";
        assert_eq!(printed_stored(bytes), "M0 0H4V2H2V1H1V2H2V4H0Z\nM1 1H2V2H1Z\nM2 2H4V4H2Z\n");
        assert_eq!(printed(bytes), "M0 0H3V1H4V3H0Z\nM3 0H4V1H3Z\nM0 3H4V4H0Z\n");
        assert_eq!(printed_stored(&bytes[..24]), "refused 13\n");
    }

    #[test]
    fn dial_4_in_two_bytes_a_sample() {
        let text = "M0 0H1V1H0Z\nM1 0H2V1H1Z\nM0 1H1V2H0Z\nM1 1H2V2H1Z\n";
        assert_eq!(printed(b"P5 2 2 999 \x00\x07\x01\x07\x01\x07\x00\x07"), text);
        assert_eq!(printed(b"P5 2 2 999 \x02\x00\x02\x01\x02\x01\x02\x00"), text);
        assert_eq!(printed(b"P5 2 2 999 \x00\x07\x01\x07\x01\x07\x07\x00"), "refused 14\n");
    }
}
