//! Every order of things.

/// Every order of so many things, by their places.
pub fn permutations(count: usize) -> Vec<Vec<usize>> {
    if count == 0 {
        return vec![vec![]];
    }
    let fewer = permutations(count - 1);
    let with_last = |order: &Vec<usize>, place| [&order[..place], &[count - 1], &order[place..]].concat();
    fewer.iter().flat_map(|order| (0..count).map(move |place| with_last(order, place))).collect()
}

#[cfg(test)]
mod tests {
    use super::permutations;
    use std::collections::BTreeSet;

    #[test]
    fn all_are_there() {
        for (count, orders) in [1, 1, 2, 6, 24, 120, 720].into_iter().enumerate() {
            let all: BTreeSet<Vec<usize>> = permutations(count).into_iter().collect();
            assert_eq!(all.len(), orders);
            assert!(all.iter().all(|order| order.iter().copied().collect::<BTreeSet<_>>() == (0..count).collect()));
        }
    }
}
