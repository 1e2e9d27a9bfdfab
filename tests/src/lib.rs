//! Tests of the proved library from Rust.
//!
//! `nettlestair` calls the library through its C names, `model` is a second implementation of document 01 that shares nothing
//! with the proved one, and the rest is what the tests in `tests/` use: comparing, lending, random numbers, counting cases, the clock, counting steps.

pub mod browser;
pub mod calls;
pub mod cases;
pub mod clock;
pub mod compare;
pub mod cutter;
pub mod damage;
pub mod expected;
pub mod faults;
pub mod figures;
pub mod lent;
pub mod model;
#[path = "../../include/nettlestair.rs"]
pub mod nettlestair;
pub mod outlines;
pub mod permutations;
pub mod pictures;
pub mod png;
pub mod programs;
pub mod random;
pub mod rasters;
#[cfg(all(target_arch = "x86_64", target_os = "linux"))]
pub mod steps;
pub mod svg;
pub mod traced;
