//! What each call must answer, from the Rust reference or, if that has no such function, from document 01. The recorder and
//! bench/ use these modules too.

pub mod answers;
pub mod clear;
pub mod linear;
pub mod readings;
pub mod rows;
pub mod tokens;
