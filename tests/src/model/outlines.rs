//! The outlines of all regions: the unit sides that are edges, collected in one set, and joined by the rule of steps.

use super::blocks::location_code;
use super::paths::{corner, Point};
use super::regions::Regions;
use std::collections::HashSet;

/// A directed unit edge of a region, by its tail. Directions are 0 east, 1 north, 2 west, 3 south.
#[derive(Clone, Copy, Debug, PartialEq, Eq, Hash)]
struct Edge {
    region: u32,
    tail: Point,
    direction: u32,
}

impl Edge {
    fn head(self) -> Point {
        let (x, y) = self.tail;
        [(x + 1, y), (x, y.wrapping_sub(1)), (x.wrapping_sub(1), y), (x, y + 1)][self.direction as usize]
    }

    /// The edge that begins at the end of this one after a turn to the left by so many quarters.
    fn turned(self, quarters: u32) -> Edge {
        Edge { region: self.region, tail: self.head(), direction: (self.direction + quarters) % 4 }
    }
}

/// "For each cycle the owner list holds its region, the end list the index after its last corner", and the corners.
#[derive(Clone, Debug, Default, PartialEq, Eq)]
pub struct Outlines {
    pub owners: Vec<u32>,
    pub ends: Vec<u32>,
    pub corners: Vec<u32>,
}

impl Outlines {
    pub fn of(regions: &Regions) -> Outlines {
        let mut cycles = cycles(&edges(regions));
        // "Cycles are listed by region number, then by the code of that start pixel."
        cycles.sort_by_key(|cycle| (cycle[0].region, location_code(cycle[0].tail.0, cycle[0].tail.1)));
        let mut outlines = Outlines::default();
        for cycle in &cycles {
            outlines.corners.extend(corners(cycle));
            outlines.ends.push(outlines.corners.len() as u32);
            outlines.owners.push(cycle[0].region);
        }
        outlines
    }

    /// The corners of cycle k.
    pub fn cycle(&self, k: usize) -> &[u32] {
        let begin = if k == 0 { 0 } else { self.ends[k - 1] as usize };
        &self.corners[begin..self.ends[k] as usize]
    }

    /// How many cycles there are.
    pub fn len(&self) -> usize {
        self.ends.len()
    }

    pub fn is_empty(&self) -> bool {
        self.ends.is_empty()
    }
}

/// "A unit side of a pixel in region R is an edge of R if the pixel beyond is in another region or outside the image. It is
/// walked with R on its right: north side eastward, east side southward, south side westward, west side northward."
fn edges(regions: &Regions) -> Vec<Edge> {
    let mut edges = Vec::new();
    for y in 0..regions.side() {
        for x in 0..regions.side() {
            let (column, row) = (i64::from(x), i64::from(y));
            let Some(region) = regions.at(column, row) else { continue };
            let sides = [
                ((column, row - 1), (x, y), 0),
                ((column + 1, row), (x + 1, y), 3),
                ((column, row + 1), (x + 1, y + 1), 2),
                ((column - 1, row), (x, y + 1), 1),
            ];
            for (beyond, tail, direction) in sides {
                if regions.at(beyond.0, beyond.1) != Some(region) {
                    edges.push(Edge { region, tail, direction });
                }
            }
        }
    }
    edges
}

/// The cycles that the rule of steps makes of the edges, each from its start.
fn cycles(edges: &[Edge]) -> Vec<Vec<Edge>> {
    let mut left: HashSet<Edge> = edges.iter().copied().collect();
    assert_eq!(left.len(), edges.len(), "a side is an edge of its region once");
    let all = left.clone();
    let mut cycles = Vec::new();
    for &first in edges {
        if !left.contains(&first) {
            continue;
        }
        let mut cycle = Vec::new();
        let mut edge = first;
        while left.remove(&edge) {
            cycle.push(edge);
            edge = next(&all, edge);
        }
        assert_eq!(edge, first, "an outline comes back to its first edge and to no other");
        let start = (0..cycle.len()).filter(|&i| cycle[i].direction == 0);
        let start = start.min_by_key(|&i| location_code(cycle[i].tail.0, cycle[i].tail.1));
        cycle.rotate_left(start.expect("an outline has an eastward edge"));
        cycles.push(cycle);
    }
    cycles
}

/// The edge after an edge. The side between the pixel on the right and the one ahead of it is an edge exactly where that one
/// is not in R, and so on: the rule takes the first of right, straight and left that is there.
fn next(edges: &HashSet<Edge>, edge: Edge) -> Edge {
    let ways = [3, 0, 1].map(|quarters| edge.turned(quarters));
    ways.into_iter().find(|way| edges.contains(way)).expect("an edge goes on")
}

/// "the tails of its edges whose direction differs from that of the edge before (the last edge stands before the first)"
fn corners(cycle: &[Edge]) -> impl Iterator<Item = u32> + '_ {
    let before = |i: usize| cycle[(i + cycle.len() - 1) % cycle.len()].direction;
    (0..cycle.len()).filter(move |&i| cycle[i].direction != before(i)).map(|i| corner(cycle[i].tail.0, cycle[i].tail.1))
}

#[cfg(test)]
mod tests {
    use super::super::paths::svg;
    use super::*;

    fn printed(n: u32, raster: &[u16]) -> Vec<String> {
        let outlines = Outlines::of(&Regions::of(n, raster));
        (0..outlines.len()).map(|k| format!("{}: {}", outlines.owners[k], svg(outlines.cycle(k)))).collect()
    }

    #[test]
    fn figure_5b_is_joined_at_the_pinch() {
        let raster = [1, 1, 1, 1, 1, 2, 1, 1, 1, 1, 3, 3, 1, 1, 3, 3];
        assert_eq!(printed(2, &raster), ["0: M0 0H4V2H2V1H1V2H2V4H0Z", "1: M1 1H2V2H1Z", "2: M2 2H4V4H2Z"]);
    }

    #[test]
    fn figure_5a_has_a_hole() {
        let raster = [1, 1, 1, 1, 1, 2, 2, 1, 1, 2, 2, 1, 1, 1, 1, 1];
        assert_eq!(printed(2, &raster), ["0: M0 0H4V4H0Z", "0: M1 3H3V1H1Z", "1: M1 1H3V3H1Z"]);
    }
}
