//! The recorded files: which texts, and how a line says what the Rust answers.

pub mod calls;
pub mod numbers;
pub mod shapes;
mod text;
pub mod tokens;
