//! Each call of the library beside what it must answer, on one text.

pub mod readings;
pub mod shapes;
pub mod sheets;
mod steps;
pub mod tokens;
