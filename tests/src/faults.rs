//! Inputs made faulty by one change somewhere.

use crate::lent::Entry;
use crate::model::blocks::Blocks;
use crate::model::restoring::Given;
use crate::random::Random;

/// One change of a block list.
pub fn in_blocks(random: &mut Random, blocks: &mut Blocks) {
    if blocks.is_empty() {
        return blocks.push(random.word(), random.byte(), random.colour());
    }
    let at = random.below(blocks.len().min(blocks.levels.len()).min(blocks.colours.len()).max(1));
    if at >= blocks.levels.len() || at >= blocks.colours.len() {
        return;
    }
    match random.below(13) {
        0 => blocks.codes[at] = blocks.codes[at].wrapping_add(1),
        1 => blocks.codes[at] = blocks.codes[at].wrapping_sub(1),
        2 => blocks.codes[at] = blocks.codes[at].wrapping_add(65536),
        3 => blocks.codes[at] = random.word(),
        4 => blocks.levels[at] = blocks.levels[at].wrapping_add(1),
        5 => blocks.levels[at] = random.byte(),
        6 => blocks.colours[at] = random.colour(),
        7 => drop((blocks.codes.remove(at), blocks.levels.remove(at), blocks.colours.remove(at))),
        8 => blocks.push(blocks.codes[at], blocks.levels[at], blocks.colours[at]),
        9 => drop(blocks.colours.pop()),
        10 => match blocks.levels[at] {
            0 => {
                // four blocks from here on have the first one's colour
                let end = blocks.colours.len().min(at + 4);
                let colour = blocks.colours[at];
                blocks.colours[at..end].fill(colour);
            }
            level => split(blocks, at, level.min(16) - 1),
        },
        11 => blocks.colours[at] ^= 1 << random.below(16),
        _ => {
            // the level one too large, and the blocks that it then covers gone
            blocks.levels[at] = blocks.levels[at].saturating_add(1);
            for _ in 0..3.min(blocks.codes.len() - 1 - at) {
                blocks.codes.remove(at + 1);
                blocks.levels.remove(at + 1);
                if at + 1 < blocks.colours.len() {
                    blocks.colours.remove(at + 1);
                }
            }
        }
    }
}

/// A block that is larger than a pixel, if there is one, in four whose colours are equal but for one binary digit of one of them. That
/// is no fault.
pub fn split_unlike(random: &mut Random, blocks: &mut Blocks) {
    let large: Vec<usize> = (0..blocks.len()).filter(|&at| blocks.levels[at] > 0).collect();
    if large.is_empty() {
        return;
    }
    let at = large[random.below(large.len())];
    split(blocks, at, blocks.levels[at] - 1);
    blocks.colours[at + random.below(4)] ^= 1 << random.below(16);
}

/// A block in four of the level below it.
fn split(blocks: &mut Blocks, at: usize, level: u8) {
    let (code, colour) = (blocks.codes[at], blocks.colours[at]);
    blocks.levels[at] = level;
    for k in (1..4).rev() {
        blocks.codes.insert(at + 1, code.wrapping_add(k << (2 * level)));
        blocks.levels.insert(at + 1, level);
        blocks.colours.insert(at + 1, colour);
    }
}

/// One change of a list of bytes or of colours: another entry, or one more, or one less, or an end cut off.
pub fn in_list<T: Entry>(random: &mut Random, list: &mut Vec<T>, likely: &[T]) {
    let at = random.below(list.len() + 1);
    let entry = if random.below(4) == 0 { T::garbage(random) } else { likely[random.below(likely.len())] };
    match random.below(4) {
        0 if at < list.len() => list[at] = entry,
        1 if at < list.len() => drop(list.remove(at)),
        2 => list.truncate(at),
        _ => list.insert(at, entry),
    }
}

/// One change of a corner list: a coordinate, a corner more or less, or another first corner.
pub fn in_corners(random: &mut Random, corners: &mut Vec<u32>) {
    let at = random.below(corners.len() + 1);
    let near = [0, 1, 2, 255, 256, 257, 511][random.below(7)];
    match random.below(6) {
        0 if at < corners.len() => corners[at] = corners[at] - corners[at] % 512 + near,
        1 if at < corners.len() => corners[at] = near * 512 + corners[at] % 512,
        2 if at < corners.len() => corners[at] = random.word(),
        3 if at < corners.len() => drop(corners.remove(at)),
        4 => corners.rotate_left(at),
        _ => corners.insert(at, near),
    }
}

/// One change of given outlines: a count, an entry, a list cut off, two regions of one colour, or a change of whole cycles. Another colour is
/// no fault by itself.
pub fn in_outlines(random: &mut Random, given: &mut Given) {
    let place = |random: &mut Random, length: usize| random.below(length.max(1));
    match random.below(10) {
        0 => {
            let count =
                [&mut given.regions, &mut given.cycles, &mut given.corner_count].into_iter().nth(random.below(3));
            let count = count.expect("there are three counts");
            *count = [count.wrapping_add(1), count.wrapping_sub(1), 0, random.word()][random.below(4)];
        }
        1 => {
            let likely = [0, 1, given.regions, given.regions.wrapping_sub(1)];
            in_list(random, &mut given.owners, &likely);
        }
        2 => {
            let likely = [0, given.corner_count, given.ends.first().map_or(4, |end| end.wrapping_add(2))];
            in_list(random, &mut given.ends, &likely);
        }
        3 => in_corners(random, &mut given.corners),
        4 => {
            let likely = [0, given.colours.first().copied().unwrap_or(1)];
            in_list(random, &mut given.colours, &likely);
        }
        5 => {
            let [a, b] = [(); 2].map(|()| place(random, given.colours.len()));
            if a.max(b) < given.colours.len() {
                given.colours[b] = [given.colours[a], given.colours[b] ^ 1 << random.below(16)][random.below(2)];
            }
        }
        _ => {
            let (counted, colours) = (given.counted(), given.colours.clone());
            if let Some(mut cycles) = counted.and_then(|given| given.listed()).filter(|cycles| !cycles.is_empty()) {
                in_cycles(random, &mut cycles);
                *given = Given { regions: given.regions, ..Given::of_cycles(&cycles, &colours) };
            }
        }
    }
}

/// One change of a list of cycles, which has some: one of them left out, listed twice, turned round or from another start, or two exchanged
/// in whole or in part.
fn in_cycles(random: &mut Random, cycles: &mut Vec<(u32, Vec<u32>)>) {
    let [a, b] = [(); 2].map(|()| random.below(cycles.len()));
    match random.below(7) {
        0 => drop(cycles.remove(a)),
        1 => cycles.insert(b, cycles[a].clone()),
        2 => cycles[a].1.reverse(),
        3 => {
            let length = cycles[a].1.len();
            cycles[a].1.rotate_left(random.below(length + 1));
        }
        4 => cycles.swap(a, b),
        5 => (cycles[a].0, cycles[b].0) = (cycles[b].0, cycles[a].0),
        _ => {
            let corners = cycles[a].1.clone();
            cycles[b].1.extend(corners);
        }
    }
}
