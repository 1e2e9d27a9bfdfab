//! A tracing held to the model, and the outlines that it gives.

use crate::calls::{agrees, trace, TraceOut};
use crate::expected::{needs, Model};
use crate::model::blocks::Blocks;
use crate::model::restoring::Given;
use crate::random::Random;

/// Traces a block list with lists that are longer than needed by `more`: the answer and every list are as the model says, and "a
/// region's first cycle has an area above zero and its other cycles have areas below zero".
pub fn traced(random: &mut Random, n: u32, blocks: &Blocks, more: [usize; 6]) -> (TraceOut, Model) {
    let mut lengths = needs(n, blocks.len());
    lengths.iter_mut().zip(more).for_each(|(length, more)| *length += more);
    let model = Model::of(n, blocks);
    let mut out = trace(random, n, blocks, lengths);
    let difference = out.difference(&model.tracing(lengths));
    agrees(format_args!("outlines with lists of {lengths:?} from n = {n}, {blocks}"), difference);
    let cycles = out.answer.cycles as usize;
    let (owners, areas) = (&out.lists[2].lend()[..cycles], &out.areas[0].lend()[..cycles]);
    for (k, &area) in areas.iter().enumerate() {
        let first = k == 0 || owners[k - 1] != owners[k];
        assert!(if first { area > 0 } else { area < 0 }, "area {area} of cycle {k} from n = {n}, {blocks}");
    }
    (out, model)
}

/// The outlines of an accepted block list as the library traces them, each list as it was lent, with garbage beyond its count; and the colour
/// of each region, by the labels, with garbage behind them too.
pub fn outlines(random: &mut Random, n: u32, blocks: &Blocks) -> Given {
    let TraceOut { answer, mut lists, .. } = trace(random, n, blocks, needs(n, blocks.len()).map(|need| need + 1));
    assert_eq!(answer.number, 0, "n = {n}, {blocks}");
    let [labels, _, owners, ends, corners] = lists.each_mut().map(|list| list.lend().to_vec());
    let mut colours = random.colours(answer.regions as usize + 2);
    for (&label, &colour) in labels.iter().zip(&blocks.colours) {
        colours[label as usize] = colour;
    }
    let (regions, cycles, corner_count) = (answer.regions, answer.cycles, answer.corners);
    Given { regions, cycles, corner_count, owners, ends, corners, colours }
}
