//! The second program: the rules (docs/RULES.md) worked once more, to be compared with the first.

pub mod area;
pub mod ask;
pub mod below;
pub mod clash;
pub mod collection;
pub mod compare;
pub mod copy;
pub mod desk;
pub mod element;
pub mod explain;
pub mod expression;
pub mod library;
pub mod listing;
pub mod model;
pub mod numbers;
pub mod order;
pub mod paper;
pub mod people;
pub mod picture;
pub mod prepared;
pub mod print;
pub mod salvage;
pub mod sheet;
pub mod walk;
