//! Outlines to try: random closed rectilinear ones. They may cross or touch themselves.

use crate::model::paths::corner;
use crate::random::Random;

/// An outline of 2 * `pairs` corners with coordinates up to `most`, which is at least 2.
pub fn random_outline(random: &mut Random, pairs: usize, most: u32) -> Vec<u32> {
    let mut xs = line(random, pairs, most);
    let ys = line(random, pairs, most);
    if xs[0] > xs[1] {
        // the first step is eastward
        xs.iter_mut().for_each(|x| *x = most - *x);
    }
    outline(&xs, &ys)
}

/// The outline whose vertical sides lie at `xs` and whose horizontal sides lie at `ys`, by turns.
pub fn outline(xs: &[u32], ys: &[u32]) -> Vec<u32> {
    (0..xs.len()).flat_map(|i| [corner(xs[i], ys[i]), corner(xs[(i + 1) % xs.len()], ys[i])]).collect()
}

/// Random numbers up to `most`, each other than the one before it, the last one other than the first.
fn line(random: &mut Random, count: usize, most: u32) -> Vec<u32> {
    let mut numbers: Vec<u32> = Vec::new();
    while numbers.len() < count {
        let number = random.below(most as usize + 1) as u32;
        let last = numbers.len() + 1 == count;
        if numbers.last() != Some(&number) && !(last && numbers.first() == Some(&number)) {
            numbers.push(number);
        }
    }
    numbers
}
