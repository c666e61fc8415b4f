//! The desk written for speed, and the files and the plot of the benchmark.

pub mod answer;
pub mod bits;
pub mod clash;
pub mod clashes;
pub mod copies;
pub mod desk;
pub mod draft;
pub mod expression;
pub mod leave;
pub mod levels;
pub mod list;
pub mod lists;
pub mod make;
pub mod order;
pub mod parts;
pub mod plot;
pub mod read;
pub mod salvage;
pub mod sheet;
pub mod spread;
pub mod strip;
pub mod walk;
