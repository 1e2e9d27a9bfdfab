//! The same job in plain Rust, with no proof: what the proved library is measured against.
//!
//! It is written for speed with slices and ordinary safe code, follows document 01 to the letter and allocates nothing: it is
//! lent the same lists as the library.

pub mod blocks;
pub mod cutting;
pub mod location;
pub mod orders;
pub mod outlines;
pub mod pgm;
pub mod regions;
pub mod restoring;
pub mod serving;

pub use blocks::{blocks_from_raster, check, overlay, raster_from_blocks, touch_up};
pub use cutting::{check_order, least_order};
pub use location::{code, spread_code};
pub use orders::{from_block_order, to_block_order};
pub use outlines::trace;
pub use pgm::read_pgm;
pub use regions::number;
pub use restoring::blocks_from_outlines;
pub use serving::{open, turn};

use crate::nettlestair::{Numbered, Picture, Traced, Written};

impl Written {
    fn refused(number: u32) -> Written {
        Written { number, count: 0 }
    }
}

impl Numbered {
    fn refused(number: u32) -> Numbered {
        Numbered { number, regions: 0 }
    }
}

impl Traced {
    fn refused(number: u32) -> Traced {
        Traced { number, regions: 0, cycles: 0, corners: 0 }
    }
}

impl Picture {
    fn refused(number: u32) -> Picture {
        Picture { number, n: 0, maxval: 0, count: 0 }
    }
}
