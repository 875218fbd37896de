//! Tests of the TCU library from outside.
//!
//! `model` is a second, independent reading of the rules in document 01 and of
//! requests T-01 (several activities on a tile), T-03 (unequal memories) and T-04 (how
//! many credits replies can bring) in document 02.
//! `generate` makes machines and calls, `wire` has them run by a child process
//! that links the library, `compare` holds the two against each other after
//! every call, `coverage` counts which answers and corners were reached, and
//! `stack` how much stack the calls used.

pub mod call;
pub mod compare;
pub mod corners;
pub mod coverage;
pub mod credits;
pub mod endpoint;
pub mod generate;
pub mod machines;
pub mod model;
pub mod random;
pub mod report;
pub mod sharing;
pub mod sizes;
pub mod stack;
pub mod unequal;
pub mod wire;
pub mod wrong;
