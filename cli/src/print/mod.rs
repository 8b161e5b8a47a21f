//! Answers as lines for people.
pub mod codes;
pub mod graph;
pub mod left_out;
pub mod listing;
pub mod report;
pub mod tree;
pub mod turns;
