//! Pictures of why an A-until is false: whether there is one, and whether a list is one.

pub mod answering;
mod asking;
mod checker;
mod edges;
mod lassos;
pub mod listed;
mod lists;
pub mod mixture;
mod refused;
mod selftest;
pub mod shown;

pub use selftest::run as selftest;
