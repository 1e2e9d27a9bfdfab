//! The dial from its outlines: the owners stored along the northward legs and the rows filled from the west, the pixels numbered again by
//! their colours, the outlines walked and compared, and the numbers merged to blocks.

use super::blocks::merge;
use super::location::{code, pixel, place};
use super::outlines::{Map, STEP, TAIL, WALKED};
use super::regions::{join_roots, number_roots};
use crate::nettlestair::Written;
use crate::sides::Given;

/// The block list that given outlines came from, else 1, 8 or 18.
pub fn blocks_from_outlines(
    n: u32,
    given: Given,
    codes: &mut [u32],
    levels: &mut [u8],
    colours: &mut [u16],
    work: &mut [u32],
) -> Written {
    if n > 8 {
        return Written::refused(1);
    }
    let whole = 1 << (2 * n);
    if codes.len() < whole || levels.len() < whole || colours.len() < whole || work.len() < 8 * whole {
        return Written::refused(8);
    }
    let work = &mut work[..8 * whole];
    let (cells, rest) = work.split_at_mut(whole);
    let mut map = Map { n, cells };
    let written = match counted(whole, given) {
        Some(given) if restore(&mut map, given, &mut rest[..whole]) => {
            merge(n, &*map.cells, |number| given.colours[number as usize - 1], codes, levels, colours)
        }
        _ => Written::refused(18),
    };
    work.fill(0);
    written
}

/// The lists up to their counts, where they are that long, no count is above what an image can have, and the ends rise to the last corner.
fn counted(whole: usize, given: Given) -> Option<Given> {
    let [regions, cycles, corners] = [given.regions, given.cycles, given.corner_count].map(|count| count as usize);
    let ends = given.ends.get(..cycles)?;
    let agree = ends.is_sorted() && ends.last() == Some(&given.corner_count);
    let few = regions <= whole && cycles <= whole && corners <= 4 * whole;
    (agree && few).then_some(Given {
        owners: given.owners.get(..cycles)?,
        ends,
        corners: given.corners.get(..corners)?,
        colours: given.colours.get(..regions)?,
        ..given
    })
}

/// Writes 1 plus the region of each pixel to the map, and says whether its image has these outlines. `parents` is scratch, one entry a pixel.
fn restore(map: &mut Map, given: Given, parents: &mut [u32]) -> bool {
    store(map, given) && fill(map) && agree(map, given.colours, parents) && retrace(map, given) && all_walked(map)
}

/// The owner and the corners of each cycle.
fn cycles(given: Given<'_>) -> impl Iterator<Item = (u32, &[u32])> {
    let begins = [0].into_iter().chain(given.ends.iter().copied());
    let stretches = begins.zip(given.ends).map(move |(begin, &end)| &given.corners[begin as usize..end as usize]);
    given.owners.iter().copied().zip(stretches)
}

/// Stores 1 plus its owner on the right of each northward leg. An image has no more northward unit sides than pixels.
fn store(map: &mut Map, given: Given) -> bool {
    let side = 1 << map.n;
    let mut left = map.cells.len();
    map.cells.fill(0);
    for (owner, corners) in cycles(given) {
        let Some(&last) = corners.last() else { return false };
        if owner >= given.regions {
            return false;
        }
        let mut from = last;
        for &to in corners {
            let (x, south, north) = ((from & 511) as usize, (from >> 9) as usize, (to >> 9) as usize);
            if north < south {
                if x >= side || south > side || south - north > left {
                    return false;
                }
                left -= south - north;
                (north..south).for_each(|y| map.cells[y << map.n | x] = owner + 1);
            }
            from = to;
        }
    }
    true
}

/// Gives each pixel without a number that of its west neighbour. A row begins with a number.
fn fill(map: &mut Map) -> bool {
    map.cells.chunks_exact_mut(1 << map.n).all(|row| {
        let mut number = 0;
        for cell in row {
            if *cell == 0 {
                *cell = number;
            }
            number = *cell;
            if number == 0 {
                return false;
            }
        }
        true
    })
}

/// Whether the numbers of the map are those of the regions that pixels of one colour make, and there is a colour for each and no more.
fn agree(map: &Map, colours: &[u16], parents: &mut [u32]) -> bool {
    let (n, cells) = (map.n, &*map.cells);
    let colour = |at: usize| colours[cells[at] as usize - 1];
    // the digits of x in a code, and those of y
    let (xs, ys) = (0x5555, 0xAAAA);
    for c in 0..cells.len() as u32 {
        let (x, y) = pixel(c);
        let at = y << n | x;
        let own = colour(at);
        parents[c as usize] = c;
        let mut root = c;
        if y > 0 && colour(at - (1 << n)) == own {
            root = join_roots(parents, root, ((c & ys) - 1) & ys | c & xs);
        }
        if x > 0 && colour(at - 1) == own {
            join_roots(parents, root, ((c & xs) - 1) & xs | c & ys);
        }
    }
    let regions = number_roots(parents);
    regions as usize == colours.len() && (0..).zip(&*parents).all(|(c, &number)| cells[place(n, c)] == number + 1)
}

/// Walks all cycles, each from its first corner, and says whether they are those of the map and in their order.
fn retrace(map: &mut Map, given: Given) -> bool {
    let mut before = None;
    cycles(given).all(|(owner, corners)| {
        let (start, number) = (corners[0], owner + 1);
        let starts = map.inside(start, number) && !map.inside(start.wrapping_sub(512), number);
        let here = Some((owner, code_of(start)));
        let follows = before < here;
        before = here;
        starts && follows && walk(map, number, corners)
    })
}

/// The code of a pixel kept as y times 512 plus x.
fn code_of(pixel: u32) -> u32 {
    code((pixel & 511) as u16, (pixel >> 9) as u16)
}

/// Walks the cycle from the north side of the pixel at its first corner and marks its eastward edges. Says whether it turns at these corners
/// and no others, and whether no eastward edge has a smaller code than the first.
fn walk(map: &mut Map, number: u32, corners: &[u32]) -> bool {
    let start = corners[0];
    let first = code_of(start);
    let (mut pixel, mut direction) = (start, 0);
    let mut rest = corners[1..].iter();
    loop {
        if direction == 0 {
            let at = map.at(pixel);
            map.cells[at] |= WALKED;
        }
        let ahead = pixel.wrapping_add(STEP[direction]);
        let left = (direction + 1) % 4;
        let beside = ahead.wrapping_add(STEP[left]);
        if !map.inside(ahead, number) {
            direction = (direction + 3) % 4;
        } else if !map.inside(beside, number) {
            pixel = ahead;
            continue;
        } else {
            (pixel, direction) = (beside, left);
        }
        if direction == 0 && pixel == start {
            return rest.next().is_none();
        }
        let turns_here = rest.next() == Some(&(pixel + TAIL[direction]));
        if !turns_here || direction == 0 && code_of(pixel) < first {
            return false;
        }
    }
}

/// Takes the marks away, and says whether each north side that is an edge bore one.
fn all_walked(map: &mut Map) -> bool {
    let side = 1 << map.n;
    (0..map.cells.len()).all(|at| {
        let cell = map.cells[at];
        map.cells[at] = cell & !WALKED;
        cell & WALKED != 0 || at >= side && map.cells[at - side] == cell
    })
}
