//! A colour of its own for each region, easily told from those of its neighbours.

use crate::dial::Dial;

/// Red, green and blue.
pub type Colour = [u8; 3];

/// Light colours that dark numbers are legible on. Any two differ by 56 or more in one of the three parts.
const PALETTE: [Colour; 12] = [
    [0xa8, 0xe8, 0xe8],
    [0xe0, 0xa8, 0x48],
    [0xa8, 0x90, 0xe8],
    [0x88, 0xe0, 0x98],
    [0xe8, 0x80, 0x80],
    [0x48, 0xa8, 0xe8],
    [0xe8, 0xe0, 0x70],
    [0xe8, 0x90, 0xd0],
    [0x48, 0xb8, 0x80],
    [0xe8, 0xc8, 0xb0],
    [0xb0, 0x98, 0xa0],
    [0x10, 0xd0, 0xd8],
];

/// The colour of each region. No two are equal, and neighbours differ by 33 or more in one of the three parts.
pub fn of(dial: &Dial) -> Vec<Colour> {
    let neighbours = neighbours(dial);
    let mut chosen: Vec<Option<usize>> = vec![None; neighbours.len()];
    let mut used = [0; PALETTE.len()];
    let mut colours = vec![[0; 3]; neighbours.len()];
    for region in order(&neighbours) {
        let taken: Vec<usize> = neighbours[region].iter().filter_map(|&other| chosen[other]).collect();
        let free = (0..PALETTE.len()).filter(|entry| !taken.contains(entry));
        let entry = free.min_by_key(|&entry| used[entry]).expect("seven neighbours leave colours free");
        chosen[region] = Some(entry);
        colours[region] = shade(PALETTE[entry], used[entry]);
        used[entry] += 1;
    }
    colours
}

/// The k-th shade of a colour, each part moved by at most 12 up or down. The first 24 times 24 times 24 are all different. That
/// is enough for 65,536 regions: five colours or more are free for each, and the one that is used least is taken.
fn shade(colour: Colour, k: usize) -> Colour {
    let moves = [k, 7 * k + k / 24, 11 * k + k / (24 * 24)];
    std::array::from_fn(|part| colour[part] + (moves[part] % 24) as u8 - 12)
}

/// The regions that share a side or a corner with each region, once each.
fn neighbours(dial: &Dial) -> Vec<Vec<usize>> {
    let mut neighbours = vec![Vec::new(); dial.regions.len()];
    for (pixel, &region) in dial.labels.iter().enumerate() {
        let (x, y) = (pixel % dial.side, pixel / dial.side);
        let around = [(x + 1, y), (x, y + 1), (x + 1, y + 1), (x.wrapping_sub(1), y + 1)];
        for other in around.into_iter().filter_map(|(x, y)| dial.at(x, y)).filter(|&other| other != region) {
            neighbours[region].push(other);
            neighbours[other].push(region);
        }
    }
    for list in &mut neighbours {
        list.sort_unstable();
        list.dedup();
    }
    neighbours
}

/// All regions in an order in which none has more than seven neighbours before it. Among any of them one has at most seven
/// neighbours, since the lines that join neighbours can be drawn so that each crosses at most one other, at a corner, and so
/// many regions have fewer than four times as many lines. That one comes last; and so on for those that remain.
fn order(neighbours: &[Vec<usize>]) -> Vec<usize> {
    let mut left: Vec<usize> = neighbours.iter().map(Vec::len).collect();
    let mut order: Vec<usize> = (0..left.len()).rev().filter(|&region| left[region] <= 7).collect();
    let mut next = 0;
    while next < order.len() {
        for &other in &neighbours[order[next]] {
            left[other] -= 1;
            if left[other] == 7 {
                order.push(other);
            }
        }
        next += 1;
    }
    order.reverse();
    order
}
