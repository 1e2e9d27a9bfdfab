//! Rasters into block order and back (document 02, e), against the model: every small raster, rasters of every kind and
//! side, and ones whose colours are all different.

use tests::calls::{agrees, FROM_BLOCK_ORDER, TO_BLOCK_ORDER};
use tests::cases::Cases;
use tests::compare::Shown;
use tests::model::blocks::location_code;
use tests::random::Random;
use tests::rasters;

/// Each way gives what the model gives and, followed by the other, which is handed what was written, the first raster. The
/// targets are longer than needed by `more`, and their tails stay.
fn there_and_back(random: &mut Random, n: u32, raster: &[u16], more: [usize; 2]) {
    let [length, length_back] = more.map(|more| raster.len() + more);
    for [way, other] in [[TO_BLOCK_ORDER, FROM_BLOCK_ORDER], [FROM_BLOCK_ORDER, TO_BLOCK_ORDER]] {
        let mut out = way.call(random, n, raster, length);
        let difference = out.difference(&(way.order)(n, raster));
        agrees(format_args!("{}, n = {n}, target of {length}, {}", way.name, Shown(raster)), difference);
        let back = other.call(random, n, &out.list.lend()[..raster.len()], length_back);
        let difference = back.difference(raster);
        agrees(format_args!("{} and back, n = {n}, target of {length_back}, {}", way.name, Shown(raster)), difference);
    }
}

/// The rasters with their n, there and back.
fn all_there_and_back(name: &'static str, rasters: impl FnOnce(&mut Random) -> Vec<(u32, Vec<u16>)>) {
    let mut cases = Cases::of(name);
    let mut random = Random::of(name);
    for (n, raster) in rasters(&mut random) {
        let more = [(); 2].map(|()| [0, 1, 2, 17, raster.len(), 3 * raster.len()][random.below(6)]);
        there_and_back(&mut random, n, &raster, more);
        cases.ran();
    }
    cases.end();
}

/// Rasters for n from 0 to 8, drawn so many times.
fn of_every_side(rounds: [usize; 9], mut drawn: impl FnMut(u32) -> Vec<Vec<u16>>) -> Vec<(u32, Vec<u16>)> {
    let sides = (0..).zip(rounds).flat_map(|(n, rounds)| std::iter::repeat_n(n, rounds));
    sides.flat_map(|n| drawn(n).into_iter().map(move |raster| (n, raster))).collect()
}

/// A raster of side 2^n of which no two pixels have the same colour: from each to the next is one odd step. At n = 8 it has
/// every colour once.
fn all_different(random: &mut Random, n: u32) -> Vec<u16> {
    let (first, step) = (random.colour(), random.colour() | 1);
    (0..1 << (2 * n)).map(|place: u32| first.wrapping_add(step.wrapping_mul(place as u16))).collect()
}

#[test]
fn small_rasters() {
    all_there_and_back("small rasters rearranged", |_| rasters::small().collect());
}

#[test]
fn rasters_of_every_kind() {
    all_there_and_back("rasters of every kind rearranged", |random| {
        of_every_side([40, 40, 40, 40, 20, 10, 4, 2, 1], |n| rasters::with_structured(random, n))
    });
}

#[test]
fn every_colour_once() {
    all_there_and_back("rasters of different colours rearranged", |random| {
        of_every_side([100, 100, 100, 100, 50, 50, 20, 20, 20], |n| vec![all_different(random, n)])
    });
}

/// Each pixel (x, y) of the raster stands at its location code.
fn stands_at_its_code(n: u32, raster: &[u16], stored: &[u16]) {
    for (place, &colour) in (0..).zip(raster) {
        let (x, y) = (place % (1 << n), place >> n);
        assert_eq!(stored[location_code(x, y) as usize], colour, "n = {n}, ({x}, {y}) of {}", Shown(raster));
    }
}

#[test]
fn pixels_at_their_codes() {
    let mut cases = Cases::of("pixels at their codes");
    let mut random = Random::of("pixels at their codes");
    for n in 0..=8 {
        for _ in 0..20 {
            let colours = all_different(&mut random, n);
            let mut stored = TO_BLOCK_ORDER.call(&mut random, n, &colours, colours.len());
            stands_at_its_code(n, &colours, stored.list.lend());
            let mut raster = FROM_BLOCK_ORDER.call(&mut random, n, &colours, colours.len());
            stands_at_its_code(n, raster.list.lend(), &colours);
            cases.ran();
        }
    }
    cases.end();
}
