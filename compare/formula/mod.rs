//! Formulas as people write them: the tree, its text read and printed, node lists, and cases about all of these.

pub mod answering;
mod damaging;
mod edges;
mod every;
mod growing;
pub mod judgings;
pub mod listed;
mod lists;
pub mod mixture;
mod near;
mod reading;
mod rebuilding;
mod selftest;
pub mod tree;
mod walking;
pub mod wider;
mod wider_selftest;
mod wrong;

pub use selftest::run as selftest;
