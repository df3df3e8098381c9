//! Measurements and their labels: voltages, delays, the label desk's lines, and cases about all of these.

pub mod answering;
mod breaking;
mod counters;
mod decimals;
mod desk;
mod desk_selftest;
mod every;
mod gate;
mod judging;
mod lines;
pub mod listed;
pub mod mixture;
mod patterns;
mod right;
mod sampling;
mod selftest;
mod texts;
mod voltages;
mod words;
mod wrong;

pub use selftest::run as selftest;
