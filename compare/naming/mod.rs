//! Atoms that a node names or none does: refusal 22.

pub mod listed;
pub mod mixture;
mod selftest;

pub use selftest::run as selftest;
