//! Region numbers of the blocks: union-find over block indices, with the last block done in each column and in each row.

use super::blocks::check;
use super::location::pixel;
use crate::nettlestair::Numbered;
use crate::sides::Blocks;

pub fn number(n: u32, blocks: Blocks, labels: &mut [u32], work: &mut [u32]) -> Numbered {
    let fault = check(n, blocks);
    if fault != 0 {
        return Numbered::refused(fault);
    }
    let need = 2 << (2 * n);
    let count = blocks.codes.len();
    if labels.len() < count || work.len() < need {
        return Numbered::refused(8);
    }
    let regions = number_blocks(n, blocks, &mut labels[..count], work);
    work[..need].fill(0);
    Numbered { number: 0, regions }
}

/// Writes the region number of each block of an accepted list and returns how many regions there are. The first 2 times 2^n
/// entries of the work list hold the border.
pub fn number_blocks(n: u32, blocks: Blocks, labels: &mut [u32], work: &mut [u32]) -> u32 {
    let (columns, rows) = work[..2 << n].split_at_mut(1 << n);
    for (k, (code, level, colour)) in blocks.iter().enumerate() {
        let (x, y) = pixel(code);
        labels[k] = k as u32;
        let mut root = k as u32;
        let mut join = |b: u32| {
            if blocks.colours[b as usize] == colour {
                root = join_roots(labels, root, b);
            }
        };
        if level == 0 {
            // most blocks of a busy picture: one neighbour on each side
            if y > 0 {
                join(columns[x]);
            }
            if x > 0 {
                join(rows[y]);
            }
            columns[x] = k as u32;
            rows[y] = k as u32;
        } else {
            let columns = &mut columns[x..x + (1 << level)];
            let rows = &mut rows[y..y + (1 << level)];
            if y > 0 {
                each_once(columns, &mut join);
            }
            if x > 0 {
                each_once(rows, &mut join);
            }
            columns.fill(k as u32);
            rows.fill(k as u32);
        }
    }
    number_roots(labels)
}

/// Calls `join` for each entry that differs from the one before.
fn each_once(entries: &[u32], mut join: impl FnMut(u32)) {
    let mut last = u32::MAX;
    for &b in entries {
        if b != last {
            join(b);
        }
        last = b;
    }
}

/// Joins a root and the root of b, the larger below the smaller; returns the smaller.
pub fn join_roots(parents: &mut [u32], root: u32, b: u32) -> u32 {
    let other = find(parents, b);
    let (low, high) = (root.min(other), root.max(other));
    parents[high as usize] = low;
    low
}

/// The root of a block or a pixel; paths are halved on the way.
fn find(parents: &mut [u32], mut k: u32) -> u32 {
    loop {
        let up = parents[k as usize];
        if up == k {
            return k;
        }
        let above = parents[up as usize];
        parents[k as usize] = above;
        k = above;
    }
}

/// Turns parents into numbers: a root takes the next one, any other block or pixel the one its parent has by then.
pub fn number_roots(labels: &mut [u32]) -> u32 {
    let mut next = 0;
    for k in 0..labels.len() {
        let parent = labels[k] as usize;
        if parent == k {
            labels[k] = next;
            next += 1;
        } else {
            labels[k] = labels[parent];
        }
    }
    next
}
