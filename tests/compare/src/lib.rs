//! Random traces, and what the comparison and the benchmark need beside them.

pub mod ages;
pub mod alerts;
pub mod coverage;
pub mod diodes;
pub mod displays;
pub mod events;
pub mod explain;
pub mod facts;
pub mod finding;
pub mod images;
pub mod lines;
pub mod offsets;
pub mod panels;
pub mod program;
pub mod random;
pub mod reasons;
pub mod rows;
pub mod shrink;
pub mod table;
pub mod told;
pub mod traces;
pub mod whys;
