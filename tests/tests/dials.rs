//! Document 01's "Dials to try": the number of each block list, and its raster. tracing.rs has the outlines, program.rs the printed
//! lines.

use tests::calls::{agrees, raster_from_blocks};
use tests::cases::Cases;
use tests::model::blocks::{number, paint, Blocks};
use tests::nettlestair::check;
use tests::random::Random;

/// The lists of dials 6 to 12 with the number that the document gives, and those of dials 1 to 5, which are accepted.
fn dials() -> Vec<(&'static str, u32, Blocks, u32)> {
    let blocks = |codes: &[u32], levels: &[u8], colours: &[u16]| Blocks {
        codes: codes.to_vec(),
        levels: levels.to_vec(),
        colours: colours.to_vec(),
    };
    vec![
        ("1", 0, blocks(&[0], &[0], &[9]), 0),
        ("2", 2, blocks(&[0, 1, 2, 3, 4, 8, 12], &[0, 0, 0, 0, 1, 1, 1], &[1, 1, 1, 2, 1, 1, 3]), 0),
        (
            "3",
            2,
            blocks(
                &[0, 1, 2, 3, 4, 5, 6, 7, 8, 9, 10, 11, 12, 13, 14, 15],
                &[0; 16],
                &[1, 1, 1, 2, 1, 1, 2, 1, 1, 2, 1, 1, 2, 1, 1, 1],
            ),
            0,
        ),
        ("4", 1, blocks(&[0, 1, 2, 3], &[0; 4], &[1, 2, 2, 1]), 0),
        ("5", 1, blocks(&[0, 1, 2, 3], &[0; 4], &[1, 1, 2, 2]), 0),
        ("6", 1, blocks(&[0, 1, 2, 3], &[0; 4], &[5; 4]), 7),
        ("7, n=0", 0, blocks(&[], &[], &[]), 6),
        ("7, n=8", 8, blocks(&[], &[], &[]), 6),
        ("8", 1, blocks(&[0, 2], &[0, 0], &[1, 2]), 4),
        ("9", 2, blocks(&[0, 1], &[0, 1], &[1, 2]), 5),
        ("10", 1, blocks(&[0, 4], &[1, 0], &[1, 2]), 4),
        ("11", 1, blocks(&[0], &[2], &[1]), 3),
        ("12, n=9", 9, blocks(&[0], &[9], &[1]), 1),
        ("12, n=8", 8, blocks(&[0], &[8], &[1]), 0),
    ]
}

#[test]
fn dials_have_their_numbers() {
    let mut cases = Cases::of("dials");
    let mut random = Random::of("dials");
    for (dial, n, blocks, expected) in dials() {
        let Blocks { codes, levels, colours } = &blocks;
        assert_eq!(number(n, codes, levels, colours), expected, "dial {dial}: the model");
        assert_eq!(check(n, codes, levels, colours), expected, "dial {dial}: check");
        let out = raster_from_blocks(&mut random, n, &blocks, 1 << (2 * n));
        agrees(
            format_args!("dial {dial}: blocks to raster"),
            match expected {
                0 => out.difference(&paint(n, &blocks)),
                _ => out.difference_from_refusal(expected),
            },
        );
        cases.ran();
    }
    cases.end();
}
