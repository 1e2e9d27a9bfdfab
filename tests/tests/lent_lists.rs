//! What becomes of lent lists: tails stay, lists one too short are refused, a refusal leaves everything.

use tests::calls::{
    agrees, blocks_from_outlines, blocks_from_raster, overlay, raster_from_blocks, touch_up, BlocksOut, Out,
    FROM_BLOCK_ORDER, TO_BLOCK_ORDER,
};
use tests::cases::Cases;
use tests::damage::each_place;
use tests::model::blocks::{quadtree, Blocks};
use tests::model::orders::{in_block_order, raster_number, rearranged};
use tests::model::overlay::larger;
use tests::model::touching_up::{repainted, Speck};
use tests::nettlestair::Written;
use tests::random::Random;
use tests::rasters;
use tests::traced::outlines;

/// A pixel of an image of side 2^n, and the colour that it gets: one of these, or any.
fn any_speck(random: &mut Random, n: u32, colours: &[u16]) -> Speck {
    let [x, y] = [(); 2].map(|()| random.below(1 << n) as u32);
    Speck { x, y, colour: [colours[random.below(colours.len())], random.colour()][random.below(2)] }
}

/// Rasters to blocks, one list over another, one pixel touched up and an image from its outlines: 8 in each of the three lists alone, in two
/// and in all. The need is 4^n whatever the answer would use.
#[test]
fn block_lists_too_short() {
    let mut cases = Cases::of("block lists too short");
    let mut random = Random::of("block lists too short");
    for n in 0..=8 {
        let rasters = rasters::of_every_kind(&mut random, n);
        for (raster, other) in rasters.iter().zip(rasters.iter().cycle().skip(1)) {
            let (first, second) = (quadtree(n, raster), quadtree(n, other));
            let given = outlines(&mut random, n, &first);
            let need = raster.len();
            for short in 1..8 {
                for missing in [1, need] {
                    let length = |list: u32| if short >> list & 1 == 1 { need - missing } else { need + list as usize };
                    let lengths = [0, 1, 2].map(length);
                    let speck = any_speck(&mut random, n, raster);
                    for out in [
                        blocks_from_raster(&mut random, n, raster, lengths),
                        overlay(&mut random, n, &first, &second, lengths),
                        touch_up(&mut random, n, &first, speck, lengths),
                    ] {
                        agrees(
                            format_args!("n = {n}, lists {short:03b} short by {missing}"),
                            out.difference_from_refusal(8),
                        );
                        cases.ran();
                    }
                    let [codes, levels, colours] = lengths;
                    let out = blocks_from_outlines(&mut random, n, &given, [codes, levels, colours, 8 * need]);
                    agrees(
                        format_args!("n = {n}, {given}, lists {short:03b} short by {missing}"),
                        out.difference_from_model(&Err(8)),
                    );
                    cases.ran();
                }
            }
        }
    }
    cases.end();
}

/// Rasters to blocks and rasters rearranged: 1, 9, 8 in this order, each alone, each pair and all three. For n = 9 too there
/// are a raster and lists of 4^n entries, so that 1 is alone.
#[test]
fn refused_rasters() {
    let mut cases = Cases::of("refused rasters");
    let mut random = Random::of("refused rasters");
    for n in (0..40).chain([64, 255, 256, 65536, 1 << 31, u32::MAX]) {
        let need = if n <= 9 { 1usize << (2 * n) } else { 300 };
        for length in [0, 1, need - 1, need, need + 1, 2 * need, 4 * need] {
            let raster = vec![7; length];
            for room in [need + 1, need, need - 1, 0] {
                let out = blocks_from_raster(&mut random, n, &raster, [room, need, need]);
                let difference = match raster_number(n, length, room) {
                    0 => out.difference(&quadtree(n, &raster)),
                    number => out.difference_from_refusal(number),
                };
                agrees(format_args!("n = {n}, raster of {length}, codes of {room}"), difference);
                for way in [TO_BLOCK_ORDER, FROM_BLOCK_ORDER] {
                    let out = way.call(&mut random, n, &raster, room);
                    let difference = out.difference_from_model(&rearranged(n, &raster, room, way.order));
                    agrees(format_args!("{}, n = {n}, source of {length}, target of {room}", way.name), difference);
                }
                cases.ran();
            }
        }
    }
    cases.end();
}

/// Blocks to raster and rasters rearranged, each with a list of this length, and what each writes where it has room.
fn rasters_written(random: &mut Random, n: u32, raster: &[u16], length: usize) -> [(Out<u16>, Vec<u16>); 3] {
    let stored = in_block_order(n, raster);
    [
        (raster_from_blocks(random, n, &quadtree(n, raster), length), raster.to_vec()),
        (FROM_BLOCK_ORDER.call(random, n, &stored, length), raster.to_vec()),
        (TO_BLOCK_ORDER.call(random, n, raster, length), stored),
    ]
}

/// Blocks to raster and rasters rearranged: one entry too few is 8, whatever the input; more are left as they were.
#[test]
fn rasters_too_short_and_too_long() {
    let mut cases = Cases::of("raster lengths");
    let mut random = Random::of("raster lengths");
    for n in 0..=8 {
        for raster in rasters::of_every_kind(&mut random, n) {
            for length in [0, raster.len() / 2, raster.len() - 1] {
                for (out, _) in rasters_written(&mut random, n, &raster, length) {
                    agrees(format_args!("n = {n}, room for {length}"), out.difference_from_refusal(8));
                    cases.ran();
                }
            }
            for more in [0, 1, 17, 3 * raster.len()] {
                for (out, written) in rasters_written(&mut random, n, &raster, raster.len() + more) {
                    agrees(format_args!("n = {n}, {more} entries more"), out.difference(&written));
                    cases.ran();
                }
            }
        }
    }
    cases.end();
}

/// Damages each entry of the lists of a block list by turns.
fn damaged(
    random: &mut Random,
    cases: &mut Cases,
    out: &mut BlocksOut,
    written: &Blocks,
    difference: impl Fn(&BlocksOut) -> Option<String>,
) {
    each_place(random, cases, out, |o| &mut o.codes, &written.codes, &difference);
    each_place(random, cases, out, |o| &mut o.levels, &written.levels, &difference);
    each_place(random, cases, out, |o| &mut o.colours, &written.colours, &difference);
}

/// The comparisons of this package can fail: with one entry of an answer damaged, also one of a tail or a guard, they say so.
#[test]
fn damage_is_seen() {
    let mut cases = Cases::of("damage");
    let mut random = Random::of("damage");
    for n in 0..=3 {
        for raster in rasters::of_every_kind(&mut random, n) {
            let blocks = quadtree(n, &raster);
            let more = raster.len() + 2;
            let other = rasters::any(&mut random, n);
            let (second, over) = (quadtree(n, &other), quadtree(n, &larger(&raster, &other)));
            let speck = any_speck(&mut random, n, &raster);
            let touched_up = quadtree(n, &repainted(n, &raster, speck));
            for (mut out, blocks) in [
                (blocks_from_raster(&mut random, n, &raster, [more; 3]), &blocks),
                (overlay(&mut random, n, &blocks, &second, [more; 3]), &over),
                (touch_up(&mut random, n, &blocks, speck, [more; 3]), &touched_up),
            ] {
                damaged(&mut random, &mut cases, &mut out, blocks, |o| o.difference(blocks));
                out.written.count += 1;
                assert!(out.difference(blocks).is_some(), "another count");
                out.written.count -= 1;
                out.written.number = 8;
                assert!(out.difference(blocks).is_some(), "another number");
            }

            for (mut out, entries) in rasters_written(&mut random, n, &raster, more) {
                each_place(&mut random, &mut cases, &mut out, |o| &mut o.list, &entries, |o| o.difference(&entries));
                for other in [Written { number: 8, ..out.written }, Written { count: 0, ..out.written }] {
                    out.written = other;
                    assert!(out.difference(&entries).is_some(), "another answer: {other:?}");
                }
            }

            let short = raster.len() - 1;
            for (mut refused, _) in rasters_written(&mut random, n, &raster, short) {
                let difference = |r: &Out<u16>| r.difference_from_refusal(8);
                each_place(&mut random, &mut cases, &mut refused, |r| &mut r.list, &[], difference);
                assert!(refused.difference_from_refusal(9).is_some(), "another number");
            }

            let outside = Speck { y: 1 << n, ..speck };
            for (mut refused, number) in [
                (overlay(&mut random, n, &blocks, &second, [short; 3]), 8),
                (touch_up(&mut random, n, &blocks, speck, [short; 3]), 8),
                (touch_up(&mut random, n, &blocks, outside, [more; 3]), 21),
            ] {
                let none = Blocks::default();
                damaged(&mut random, &mut cases, &mut refused, &none, |r| r.difference_from_refusal(number));
                assert!(refused.difference_from_refusal(7).is_some(), "another number");
            }
        }
    }
    cases.end();
}
