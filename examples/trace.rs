//! Traces a binary PGM of up to 256 by 256 pixels through the library and prints one line a cycle: its region, its area and its
//! path data; or `refused` and the number. The first cycle of a region is its outer one, with an area above zero; the area of a
//! hole is below zero. The exit status is 0, 1 where the picture is refused, and 2 where there is nothing to read.
//!
//!     (cd crates/exports && rt lib)
//!     rustc -O --edition 2021 -L crates/exports/out -l static=exports -o target/trace examples/trace.rs
//!     target/trace samples/clock-256.pgm

#[path = "../include/nettlestair.rs"]
mod nettlestair;

use std::io::Write;
use std::process::ExitCode;
use std::{env, fs, io};

/// The pixels of the largest picture.
const LARGEST: usize = 65_536;

/// The lines for the bytes of a picture, or the number with which the library refuses it.
fn outlines(bytes: &[u8]) -> Result<Vec<u8>, u32> {
    let mut raster = vec![0; LARGEST];
    let picture = nettlestair::read_pgm(bytes, &mut raster);
    accepted(picture.number)?;
    let (n, whole) = (picture.n, picture.count as usize);
    let raster = &raster[..whole];

    // the raster as blocks
    let (mut codes, mut levels, mut colours) = (vec![0; whole], vec![0; whole], vec![0; whole]);
    let merged = nettlestair::blocks_from_raster(n, raster, &mut codes, &mut levels, &mut colours);
    accepted(merged.number)?;
    let blocks = merged.count as usize;
    let (codes, levels, colours) = (&codes[..blocks], &levels[..blocks], &colours[..blocks]);

    // the outlines of its regions
    let (mut labels, mut work) = (vec![0; blocks], vec![0; 2 * whole]);
    let (mut owners, mut ends, mut areas) = (vec![0; whole], vec![0; whole], vec![0; whole]);
    let mut corners = vec![0; 4 * whole];
    let traced = nettlestair::trace(
        n,
        codes,
        levels,
        colours,
        &mut labels,
        &mut work,
        &mut owners,
        &mut ends,
        &mut corners,
        &mut areas,
    );
    accepted(traced.number)?;

    // a line for each cycle, in the order of the regions
    let mut lines = Vec::new();
    for (k, (owner, area)) in (0..traced.cycles).zip(owners.iter().zip(&areas)) {
        lines.extend(format!("{owner} {area} ").bytes());
        let cycle = nettlestair::cycle(&corners, &ends, traced.cycles, k).of(&corners);
        let end = lines.len();
        lines.resize(end + 9 + 4 * cycle.len(), 0);
        let path = nettlestair::svg(cycle, &mut lines[end..]);
        accepted(path.number)?;
        lines.truncate(end + path.count as usize);
        lines.push(b'\n');
    }
    Ok(lines)
}

/// An answer's number as a result.
fn accepted(number: u32) -> Result<(), u32> {
    match number {
        0 => Ok(()),
        _ => Err(number),
    }
}

fn main() -> ExitCode {
    let words: Vec<_> = env::args_os().skip(1).collect();
    let [name] = &words[..] else {
        eprintln!("usage: trace FILE.pgm");
        return ExitCode::from(2);
    };
    let bytes = match fs::read(name) {
        Ok(bytes) => bytes,
        Err(error) => {
            eprintln!("trace: {}: {error}", name.display());
            return ExitCode::from(2);
        }
    };
    let (text, status) = match outlines(&bytes) {
        Ok(lines) => (lines, ExitCode::SUCCESS),
        Err(number) => (format!("refused {number}\n").into_bytes(), ExitCode::FAILURE),
    };
    match io::stdout().write_all(&text) {
        Ok(()) => status,
        Err(error) => {
            eprintln!("trace: {error}");
            ExitCode::from(2)
        }
    }
}
