//! States of the cutter, and lists for its turns, to try.

use crate::faults;
use crate::model::serving::Lists;
use crate::nettlestair::{OpenOutline, State};
use crate::random::Random;

/// A state as any caller may make it: outlines of few cycles mostly, so that one may stand there twice, with few corners handed out or many,
/// at times a length above 8, and at times garbage in the unused places.
pub fn any_state(random: &mut Random) -> State {
    let outlines = [(); 8].map(|()| {
        let cycle = if random.below(8) == 0 { random.word() } else { random.below(12) as u32 };
        let handed = match random.below(8) {
            0 => random.word(),
            1 => u32::MAX - random.below(40) as u32,
            2..=4 => 16 * random.below(5) as u32,
            _ => random.below(80) as u32,
        };
        OpenOutline { cycle, handed }
    });
    let length = match random.below(12) {
        0 => [9, 16, 17, 256, 65_539, 1 << 31, u32::MAX, random.word()][random.below(8)],
        1 => 0,
        2..=4 => 8,
        _ => random.below(9) as u32,
    };
    let mut state = State { outlines, length };
    if random.below(2) == 0 {
        state.outlines.iter_mut().skip(length as usize).for_each(|unused| *unused = OpenOutline::default());
    }
    state
}

/// Lists for a turn, faulty or not: stretches of few turns each, with garbage behind them or without.
pub fn any_lists(random: &mut Random) -> Lists {
    let length = |random: &mut Random| [0, 1, 4, 15, 16, 17, 31, 32, 33, 48, random.below(90)][random.below(11)];
    let lengths: Vec<usize> = (0..random.below(12)).map(|_| length(random)).collect();
    let mut lists = Lists::of_lengths(&lengths);
    let behind = random.below(30);
    lists.corners.extend(random.words(behind));
    let beyond = lists.corners.len() + 2;
    lists.ends.extend((0..random.below(3)).map(|_| random.below(beyond) as u32).collect::<Vec<_>>());
    for _ in 0..[0, 0, 1, 1, 2, 3][random.below(6)] {
        fault(random, &mut lists);
    }
    lists
}

/// One change: another count, corners or ends cut off, two ends exchanged, or an end more, less or another.
fn fault(random: &mut Random, lists: &mut Lists) {
    let Lists { corners, ends, count } = lists;
    match random.below(5) {
        0 => *count = [0, count.wrapping_add(1), count.wrapping_sub(1), u32::MAX, random.word()][random.below(5)],
        1 => corners.truncate(random.below(corners.len() + 1)),
        2 => ends.truncate(random.below(ends.len() + 1)),
        3 if !ends.is_empty() => {
            let [a, b] = [(); 2].map(|()| random.below(ends.len()));
            ends.swap(a, b);
        }
        _ => {
            let length = corners.len() as u32;
            faults::in_list(random, ends, &[0, 1, 16, length, length + 1, length.saturating_sub(1), u32::MAX]);
        }
    }
}
