//! Or, implies, AX, EF, AF, EG and AG: their cases in models' own nodes, and a mixture over all kinds.

pub mod listed;
pub mod mixture;
mod selftest;

pub use selftest::run as selftest;
