//! A second implementation of document 01, written from its words and apart from the proved code.

pub mod areas;
pub mod blocks;
pub mod cutting_orders;
pub mod lines;
pub mod orders;
pub mod outlines;
pub mod overlay;
pub mod paths;
pub mod pgm;
pub mod regions;
pub mod restoring;
pub mod serving;
pub mod touching_up;
