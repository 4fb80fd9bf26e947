//! Texts at the corners of each rule, for the comparison and for the recorder.

pub mod control_bytes;
pub mod entries;
pub mod numbers;
pub mod pieces;
pub mod shapes;
pub mod tokens;
