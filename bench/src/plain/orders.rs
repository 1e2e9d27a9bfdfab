//! Rasters into block order and back: row by row, each pixel's code from the table of spread numbers.

use super::location::SPREADS;
use crate::nettlestair::Written;

/// A raster in block order. The part of the code that y gives is worked out once a row.
pub fn to_block_order(n: u32, raster: &[u16], stored: &mut [u16]) -> Written {
    let fault = fault(n, raster.len(), stored.len());
    if fault != 0 {
        return Written::refused(fault);
    }
    for (row, &y) in raster.chunks_exact(1 << n).zip(&SPREADS) {
        let first = 2 * usize::from(y);
        for (&colour, &x) in row.iter().zip(&SPREADS) {
            stored[first + usize::from(x)] = colour;
        }
    }
    Written { number: 0, count: raster.len() as u32 }
}

/// The raster that is stored in block order.
pub fn from_block_order(n: u32, stored: &[u16], raster: &mut [u16]) -> Written {
    let fault = fault(n, stored.len(), raster.len());
    if fault != 0 {
        return Written::refused(fault);
    }
    for (row, &y) in raster[..stored.len()].chunks_exact_mut(1 << n).zip(&SPREADS) {
        let first = 2 * usize::from(y);
        for (colour, &x) in row.iter_mut().zip(&SPREADS) {
            *colour = stored[first + usize::from(x)];
        }
    }
    Written { number: 0, count: stored.len() as u32 }
}

/// Causes 1, 9 and 8.
fn fault(n: u32, source: usize, target: usize) -> u32 {
    if n > 8 {
        1
    } else if source != 1 << (2 * n) {
        9
    } else if target < source {
        8
    } else {
        0
    }
}
